//! Document 02, A.9: parking rules of one's own. What each class keeps by its row, which rows are refused and in which order, and that
//! a refused opening leaves the old heap with its old limits.

use crate::heap::{Family, Heap, ALL};

/// Three blocks to a page.
const CLASS: u32 = 45;

/// Every class with these limits but one, which has its own.
fn but(class: u32, own: [u32; 2], others: [u32; 2]) -> Vec<u32> {
    let [empty, cold] = others;
    let mut rows = vec![class, class, own[0], own[1]];
    if class > 0 {
        rows.extend([0, class - 1, empty, cold]);
    }
    if class < 75 {
        rows.extend([class + 1, 75, empty, cold]);
    }
    rows
}

/// So many runs taken whole, then each released in turn; the fates.
fn fates(heap: &mut Heap, family: Family, class: u32, runs: usize) -> Vec<u32> {
    let taken: Vec<Vec<u64>> = (0..runs).map(|_| heap.take(family, class, ALL).expect("a class").0).collect();
    taken.iter().map(|blocks| heap.give(family, class, ALL, blocks).expect("a run's blocks")).collect()
}

/// So many kept, so many cold, then two to the arena.
fn expected(kept: usize, cold: usize) -> Vec<u32> {
    [vec![0; kept], vec![1; cold], vec![2; 2]].concat()
}

#[test]
fn limits_0_and_0_keep_nothing() {
    let mut heap = Heap::open_with(64, &[0, 75, 0, 0]);
    for class in 0..64 {
        let (blocks, _) = heap.take(Family::Small, class, ALL).expect("a class");
        assert_eq!(heap.give(Family::Small, class, ALL, &blocks), Ok(2), "class {class}");
    }
    for class in 0..12 {
        let (blocks, _) = heap.take(Family::Medium, class, ALL).expect("a class");
        assert_eq!(heap.give(Family::Medium, class, ALL, &blocks), Ok(2), "medium class {class}");
    }
    let [commits, reuses, abandoned, held, idle, both] = heap.report();
    assert_eq!((commits, abandoned, held, idle, both), (76, 0, 0, 64, 0));
    assert!(reuses > 0);
}

#[test]
fn limits_0_and_0_by_chunks_too() {
    let mut heap = Heap::open_with(16, &but(CLASS, [0, 0], [4, 256]));
    let blocks: Vec<u64> = (0..3).flat_map(|_| heap.take(Family::Small, CLASS, ALL).expect("class 45").0).collect();
    // All of pages 0 and 2, a block of page 1.
    let list = [&blocks[..4], &blocks[6..]].concat();
    assert_eq!(heap.give_chunks(CLASS, &list, &[(3, 2), (1, 1), (3, 0)], 3), Ok(vec![6, 0, 6]));
    assert_eq!(heap.report(), [3, 0, 0, 1, 15, 0]);
}

#[test]
fn the_256th_empty_page_of_a_small_class_stays() {
    let mut heap = Heap::open_with(300, &but(CLASS, [256, 0], [0, 0]));
    assert_eq!(fates(&mut heap, Family::Small, CLASS, 258), expected(256, 0));
    assert_eq!(heap.report(), [258, 0, 0, 256, 300, 256]);
    // As they were left: last in first out, not carved anew.
    let (blocks, virgin) = heap.take(Family::Small, CLASS, ALL).expect("class 45");
    assert_eq!((blocks, virgin), (vec![255 * 4_096 + 3, 255 * 4_096 + 1_027, 255 * 4_096 + 2_051], false));
}

#[test]
fn a_rows_limits_are_its_classes() {
    for (limits, kept, cold) in [([0, 5], 0, 5), ([3, 0], 3, 0), ([1, 1], 1, 1), ([7, 2], 7, 2), ([256, 256], 10, 0)] {
        let mut heap = Heap::open_with(40, &but(CLASS, limits, [2, 1]));
        let due = expected(kept, cold);
        assert_eq!(fates(&mut heap, Family::Small, CLASS, (kept + cold + 2).min(10)), due[..due.len().min(10)]);
        assert_eq!(fates(&mut heap, Family::Small, CLASS + 1, 5), expected(2, 1));
        assert_eq!(fates(&mut heap, Family::Small, CLASS - 1, 5), expected(2, 1));
    }
}

#[test]
fn each_class_of_a_row_has_its_limits_alone() {
    let mut heap = Heap::open_with(64, &[0, 40, 0, 0, 41, 45, 2, 1, 46, 75, 0, 0]);
    for class in 41..=45 {
        assert_eq!(fates(&mut heap, Family::Small, class, 5), expected(2, 1), "class {class}");
    }
}

/// A medium class counts spans; its empty ones have 128 pages together at most, whatever its row says. A cold span is answered as 0.
#[test]
fn a_medium_class_keeps_8_mib_beside_its_row() {
    for (class, pages, limit, kept) in [
        (0, 3, 256, 42),
        (0, 3, 43, 42),
        (0, 3, 42, 42),
        (0, 3, 5, 5),
        (11, 8, 256, 16),
        (11, 8, 17, 16),
        (11, 8, 2, 2),
    ] {
        for cold in [0, 3] {
            let mut heap = Heap::open_with((kept + cold + 4) * pages, &but(64 + class, [limit, cold as u32], [0, 0]));
            let parked = usize::try_from(kept + cold).expect("few");
            let due = [vec![0; parked], vec![2; 2]].concat();
            assert_eq!(fates(&mut heap, Family::Medium, class, parked + 2), due, "{class} {limit} {cold}");
            let [.., held, _, both] = heap.report();
            assert_eq!([held, both], [(kept + cold) * pages; 2]);
        }
    }
}

#[test]
fn with_256_cold_spans_the_next_goes_to_the_arena() {
    let mut heap = Heap::open_with(800, &but(64, [0, 256], [0, 0]));
    let due = [vec![0; 256], vec![2; 2]].concat();
    assert_eq!(fates(&mut heap, Family::Medium, 0, 258), due);
}

#[test]
fn rows_that_span_both_families_in_any_order() {
    let rows = [70, 75, 1, 0, 0, 9, 0, 1, 30, 69, 2, 0, 10, 29, 0, 0];
    let mut orders = vec![rows.to_vec()];
    for turn in [4, 8, 12] {
        let mut turned = rows.to_vec();
        turned.rotate_left(turn);
        orders.push(turned);
    }
    for rows in orders {
        let mut heap = Heap::open_with(64, &rows);
        assert_eq!(fates(&mut heap, Family::Small, 45, 4), expected(2, 0), "{rows:?}");
        assert_eq!(fates(&mut heap, Family::Medium, 5, 4), expected(2, 0), "{rows:?}");
        assert_eq!(fates(&mut heap, Family::Medium, 6, 3), expected(1, 0), "{rows:?}");
    }
}

#[test]
fn no_rows_are_document_01s_limits() {
    let mut heap = Heap::open(300);
    assert_eq!(fates(&mut heap, Family::Small, CLASS, 262), expected(4, 256));
}

/// A heap that was opened with rules keeps them until an opening that is not refused.
#[test]
fn a_refused_opening_leaves_the_old_limits() {
    let mut heap = Heap::open_with(8, &[0, 75, 1, 0]);
    let (blocks, _) = heap.take(Family::Small, CLASS, ALL).expect("class 45");
    for rows in [&[0, 75, 0][..], &[0, 75, 257, 0], &[0, 75, 0, 0, 3, 3, 0, 0], &[1, 75, 0, 0]] {
        let before = heap.book.clone();
        assert!(heap.reopen(8, rows).is_err(), "{rows:?}");
        assert!(heap.book == before, "{rows:?}: refused, and the book changed");
    }
    assert_eq!(heap.give(Family::Small, CLASS, ALL, &blocks), Ok(0));
    let report = heap.report();
    assert_eq!(heap.reopen(8, &[0, 75, 0]), Err(19));
    assert_eq!(heap.report(), report);
    assert_eq!(fates(&mut heap, Family::Small, CLASS, 3), expected(1, 0));
    assert_eq!(heap.reopen(8, &[]), Ok(()));
    assert_eq!(fates(&mut heap, Family::Small, CLASS, 4), [0; 4]);
}

/// Every refusal with those that come after it present too.
#[test]
fn numbers_in_their_order() {
    // Not whole rows, a class with two, one with none.
    let all = [0, 5, 4, 256, 5, 70, 4, 256, 9];
    let mut heap = Heap { book: vec![0; 44_111] };
    for pages in [0, 1_048_577, u64::MAX] {
        assert_eq!(heap.reopen(pages, &all), Err(1));
    }
    assert_eq!(heap.reopen(1, &all), Err(2));
    heap.book.push(0);
    assert_eq!(heap.reopen(1, &all), Err(19));
    assert_eq!(heap.reopen(1, &all[..8]), Err(18));
    assert_eq!(heap.reopen(1, &[0, 4, 4, 256, 5, 70, 4, 256]), Err(17));
    assert_eq!(heap.reopen(1, &[0, 4, 4, 256, 5, 75, 4, 256]), Ok(()));
}

#[test]
fn what_19_covers() {
    let good = [0, 75, 4, 256];
    let mut heap = Heap::open(1);
    let mut open = |rows: &[u32]| heap.reopen(1, rows).err();
    for len in [1, 2, 3] {
        assert_eq!(open(&good[..len]), Some(19));
    }
    for bad in [
        [0, 75, 257, 0],
        [0, 75, 0, 257],
        [0, 75, u32::MAX, 0],
        [0, 76, 0, 0],
        [0, u32::MAX, 0, 0],
        [76, 76, 0, 0],
        [1, 0, 0, 0],
        [75, 74, 0, 0],
        [u32::MAX, 75, 0, 0],
    ] {
        assert_eq!(open(&bad), Some(19), "{bad:?}");
        // It is the number wherever the row stands, beside two rows of one class as well.
        assert_eq!(open(&[good, bad].concat()), Some(19), "{bad:?}");
        assert_eq!(open(&[bad, good, good].concat()), Some(19), "{bad:?}");
    }
    assert_eq!(open(&[0, 75, 256, 256]), None);
    assert_eq!(open(&[0, 75, 0, 0]), None);
}

#[test]
fn what_18_and_17_cover() {
    let mut heap = Heap::open(1);
    let mut open = |rows: &[u32]| heap.reopen(1, rows).err();
    for class in 0..=75 {
        // Every class once, and this one again; every class but this one.
        assert_eq!(open(&[0, 75, 1, 1, class, class, 1, 1]), Some(18), "class {class}");
        let without: Vec<u32> = but(class, [1, 1], [1, 1])[4..].to_vec();
        assert_eq!(open(&without), Some(17), "class {class}");
        // Both: another class twice.
        let twice = if class == 3 { 4 } else { 3 };
        assert_eq!(open(&[&without[..], &[twice, twice, 1, 1]].concat()), Some(18), "class {class}");
    }
    // Rows of every class by itself, more of them than there are classes, and one row of one class.
    let each: Vec<u32> = (0..76).flat_map(|class| [class, class, 4, 256]).collect();
    assert_eq!(open(&each), None);
    assert_eq!(open(&[&each[..], &[0, 0, 4, 256]].concat()), Some(18));
    assert_eq!(open(&[0, 0, 4, 256]), Some(17));
    assert_eq!(open(&vec![0; 4 * 10_000]), Some(18));
}
