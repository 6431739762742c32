//! Class tables from a growth rate, against document 02's sentences.

use vigbuso::{class_table, Class, Growth, Refusal};

const SMALL: Growth = Growth { a: 9, b: 8 };

fn growth(a: u64, b: u64) -> Growth {
    Growth { a, b }
}

#[test]
fn nine_over_eight_gives_the_small_classes() {
    let table = class_table(SMALL, 16_384, 64).expect("a table");
    let small: Vec<usize> = (0..64).filter_map(Class::small).map(Class::bytes).collect();
    assert_eq!(table.iter().map(|&bytes| bytes as usize).collect::<Vec<_>>(), small);
}

#[test]
fn neighbours_below_the_top_rise_and_the_rest_holds_it() {
    for (a, b) in [(9, 8), (2, 1), (1_000, 999), (1_000, 1), (3, 2), (17, 16)] {
        for top in [16, 32, 1_024, 16_384, 65_472] {
            let table = class_table(growth(a, b), top, 4_200).expect("4,092 granules are all there are");
            assert_eq!((table.len(), table[0]), (4_200, 16));
            for pair in table.windows(2) {
                let due = (u64::from(pair[0]) * a).div_ceil(b).next_multiple_of(16).min(top);
                assert_eq!(u64::from(pair[1]), due);
                assert!(pair[0] < pair[1] || u64::from(pair[0]) == top);
            }
        }
    }
}

#[test]
fn just_enough_slots_reach_the_top() {
    assert_eq!(class_table(SMALL, 16_384, 46).map(|table| table.last().copied()), Ok(Some(16_384)));
    assert_eq!(class_table(SMALL, 16_384, 45), Err(Refusal::Slots));
    assert_eq!(class_table(SMALL, 16, 1), Ok(vec![16]));
}

#[test]
fn refusals_in_their_order() {
    for (a, b) in [(8, 8), (8, 9), (0, 0), (1, 0), (1_001, 1), (1_001, 1_000), (u64::MAX, u64::MAX - 1)] {
        assert_eq!(class_table(growth(a, b), 17, 0), Err(Refusal::Growth), "{a} over {b}");
    }
    for top in [0, 8, 15, 17, 65_471, 65_473, 65_488, u64::MAX] {
        assert_eq!(class_table(SMALL, top, 0), Err(Refusal::Top), "{top}");
    }
    for slots in [0, 1, 45, usize::MAX] {
        assert_eq!(class_table(SMALL, 16_384, slots), Err(Refusal::Slots), "{slots}");
    }
}
