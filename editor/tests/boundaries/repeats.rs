//! Number 15: a block that is out in this class stands twice in one list. It comes after 9 and before 10, each over the whole
//! list (document 02, A.2).

use crate::heap::{Family, Heap, ALL};

/// Three blocks to a page; the first two pages' are out.
const CLASS: u32 = 45;
const PAGE: [u64; 3] = [2_051, 1_027, 3];
const NEXT: [u64; 3] = [6_147, 5_123, 4_099];
/// Not out: of the third page, which another class has; between two blocks; beyond the arena.
const FOREIGN: [u64; 5] = [8_195, 4, 1 << 29, 1 << 32 | 3, 1 << 61 | 3];

fn scene() -> Heap {
    let mut heap = Heap::open(8);
    for page in [PAGE, NEXT] {
        assert_eq!(heap.take(Family::Small, CLASS, ALL), Ok((page.to_vec(), true)));
    }
    assert_eq!(heap.take(Family::Small, 46, ALL).map(|(blocks, _)| blocks[2]), Ok(FOREIGN[0]));
    heap
}

/// The list is refused with this number, by list and by chunks that are its own, and each block is out as before.
fn refused(granules: &[u64], number: u32) {
    let mut heap = scene();
    assert_eq!(heap.give(Family::Small, CLASS, ALL, granules), Err(number), "{granules:?}");
    let mut pages: Vec<u64> = granules.iter().map(|granule| granule / 4_096).collect();
    pages.sort_unstable();
    pages.dedup();
    let on = |page: u64| granules.iter().filter(|&granule| granule / 4_096 == page).count();
    let chunks: Vec<(u64, u64)> = pages.into_iter().map(|page| (on(page) as u64, page)).collect();
    assert_eq!(heap.give_chunks(CLASS, granules, &chunks, chunks.len()), Err(number), "{granules:?} {chunks:?}");
    for page in [PAGE, NEXT] {
        assert_eq!(heap.give(Family::Small, CLASS, ALL, &page), Ok(0));
    }
}

/// Every order of a list.
fn orders(list: &[u64]) -> Vec<Vec<u64>> {
    if list.is_empty() {
        return vec![vec![]];
    }
    let with = |first: usize| {
        let rest = [&list[..first], &list[first + 1..]].concat();
        orders(&rest).into_iter().map(move |others| [vec![list[first]], others].concat())
    };
    (0..list.len()).flat_map(with).collect()
}

#[test]
fn a_repeated_block_is_15() {
    for list in [&[3, 3][..], &[3, 1_027, 3], &[3, 3, 3], &[3, 1_027, 2_051, 1_027, 3], &[4_099, 6_147, 4_099]] {
        refused(list, 15);
    }
}

#[test]
fn a_repeated_block_and_a_foreign_one_are_15_in_every_order() {
    for foreign in FOREIGN {
        for list in orders(&[3, 3, foreign]).into_iter().chain(orders(&[3, 1_027, 3, foreign, foreign])) {
            refused(&list, 15);
        }
    }
}

#[test]
fn a_repeated_foreign_block_is_10() {
    for foreign in FOREIGN {
        for list in orders(&[3, foreign, foreign]) {
            refused(&list, 10);
        }
        refused(&[foreign, foreign], 10);
    }
}

#[test]
fn a_repeat_on_two_pages_is_15_where_it_would_be_11() {
    for list in orders(&[3, 4_099, 3]) {
        refused(&list, 15);
    }
    let mut heap = scene();
    assert_eq!(heap.give(Family::Small, CLASS, ALL, &[3, 4_099]), Err(11));
}

#[test]
fn a_repeat_in_chunks_that_do_not_match_is_15() {
    let mut heap = scene();
    let before = heap.report();
    for chunks in
        [&[(1, 0)][..], &[(3, 0)], &[(2, 1)], &[(2, 0), (1, 0)], &[(0, 0)], &[(1, 0), (1, 0)], &[(2, 262_144)]]
    {
        assert_eq!(heap.give_chunks(CLASS, &[3, 3], chunks, 2), Err(15), "{chunks:?}");
        // Without the repeat it is the chunks' fault.
        assert_eq!(heap.give_chunks(CLASS, &[3, 1_027, 2_051, 4_099], chunks, 2), Err(11), "{chunks:?}");
    }
    // A chunk that repeats is none of the list's blocks.
    assert_eq!(heap.give_chunks(CLASS, &[3, 1_027], &[(1, 0), (1, 0)], 2), Err(11));
    assert_eq!(heap.report(), before);
    assert_eq!(heap.give_chunks(CLASS, &[3, 4_099], &[(1, 1), (1, 0)], 2), Ok(vec![0, 0]));
}

#[test]
fn a_wrong_kind_anywhere_is_9() {
    // The bit makes a small block's word a chunk's.
    for list in orders(&[3, 3, 1 << 63 | 3]) {
        let mut heap = scene();
        assert_eq!(heap.give(Family::Small, CLASS, ALL, &list), Err(9), "{list:?}");
        assert_eq!(heap.give_chunks(CLASS, &list, &[(3, 0)], 1), Err(9), "{list:?}");
        assert_eq!(heap.give(Family::Small, CLASS, ALL, &PAGE), Ok(0));
    }
}

#[test]
fn medium_blocks_alike() {
    // Two spans of 3 pages; a block has 1,152 granules.
    let mut heap = Heap::open(8);
    for first in [4, 12_292] {
        assert_eq!(heap.take(Family::Medium, 0, ALL).map(|(blocks, _)| blocks[0]), Ok(first));
    }
    let mut give = |list: &[u64]| heap.give(Family::Medium, 0, ALL, list);
    for list in orders(&[4, 4, 5]).into_iter().chain(orders(&[4, 12_292, 4])).chain(orders(&[1_156, 5, 5, 1_156])) {
        assert_eq!(give(&list), Err(15), "{list:?}");
    }
    for list in orders(&[4, 5, 5]) {
        assert_eq!(give(&list), Err(10), "{list:?}");
    }
    for list in orders(&[4, 4, 1 << 62 | 4]) {
        assert_eq!(give(&list), Err(9), "{list:?}");
    }
    assert_eq!([give(&[4, 12_292]), give(&[4]), give(&[4, 4]), give(&[4])], [Err(11), Ok(0), Err(10), Err(10)]);
}

/// A page of 4,093 blocks, one of them twice, at either end and in the middle.
#[test]
fn a_long_list_with_one_repeat() {
    let mut heap = Heap::open(2);
    let mut blocks = Vec::new();
    while blocks.len() < 4_093 {
        blocks.extend(heap.take(Family::Small, 0, ALL).expect("class 0").0);
    }
    for (at, of) in [(0, 4_092), (1, 0), (2_000, 31), (2_000, 2_032), (4_093, 0), (4_093, 4_092)] {
        let mut list = blocks.clone();
        list.insert(at, blocks[of]);
        assert_eq!(heap.give(Family::Small, 0, ALL, &list), Err(15), "{of} at {at}");
        assert_eq!(heap.give_chunks(0, &list, &[(4_093, 0)], 1), Err(15), "{of} at {at}");
    }
    assert_eq!(heap.give(Family::Small, 0, ALL, &blocks), Ok(0));
}
