//! 4,096 holes, 65,536 pages in them, which of them is taken, and where they stand.

use crate::heap::{Heap, ALL, NO_COMMIT};

/// A commit that is granted, its run from the frontier.
pub fn fresh(heap: &mut Heap, pages: u64, first: u32) {
    assert_eq!(heap.commit(ALL, pages), Ok(Some((first, true))));
}

/// A commit that is granted, its run from a hole.
pub fn reused(heap: &mut Heap, pages: u64, first: u32) {
    assert_eq!(heap.commit(ALL, pages), Ok(Some((first, false))));
}

/// A commit that is not granted: its run is given to the holes.
pub fn ungranted(heap: &mut Heap, pages: u64) {
    assert_eq!(heap.commit(NO_COMMIT, pages), Ok(None));
}

pub fn give(heap: &mut Heap, first: u64, pages: u64) {
    assert_eq!(heap.release(ALL, first, pages), Ok(()));
}

/// A heap with so many runs of a length, from the frontier, each with a page behind it that stays held; the first `holes` runs
/// are given back in turn.
pub fn comb(pages: u64, runs: u32, length: u32, holes: u32) -> Heap {
    let mut heap = Heap::open(pages);
    for run in 0..runs {
        fresh(&mut heap, u64::from(length), run * (length + 1));
        fresh(&mut heap, 1, run * (length + 1) + length);
    }
    for run in 0..holes {
        give(&mut heap, u64::from(run * (length + 1)), u64::from(length));
    }
    heap
}

/// The holes in the book, by index: first page and pages.
pub fn holes(heap: &Heap) -> Vec<(u32, u32)> {
    let count = usize::try_from(heap.book[3]).expect("32 bits");
    heap.book[2_048..].chunks(2).take(count).map(|hole| (hole[0], hole[1])).collect()
}

#[test]
fn with_4_095_holes_a_give_is_stored() {
    let mut heap = comb(9_000, 4_097, 1, 4_095);
    assert_eq!(heap.report(), [8_194, 0, 0, 4_099, 4_901, 0]);
    give(&mut heap, 8_190, 1);
    assert_eq!(heap.report(), [8_194, 0, 0, 4_098, 4_902, 0]);
    for run in 0..=4_095 {
        reused(&mut heap, 1, 2 * run);
    }
    fresh(&mut heap, 1, 8_194);
}

#[test]
fn with_4_096_holes_a_give_is_abandoned() {
    let mut heap = comb(9_000, 4_098, 1, 4_096);
    give(&mut heap, 8_192, 1);
    assert_eq!(heap.report(), [8_196, 0, 1, 4_099, 4_900, 0]);
    for run in 0..=4_095 {
        reused(&mut heap, 1, 2 * run);
    }
    // The abandoned page was not among the holes.
    fresh(&mut heap, 1, 8_196);
}

#[test]
fn with_4_096_holes_a_cut_hole_given_back_is_stored() {
    let mut heap = comb(13_000, 4_097, 2, 4_096);
    ungranted(&mut heap, 1);
    assert_eq!(heap.report(), [8_194, 0, 0, 4_099, 8_901, 0]);
    // It is whole again.
    reused(&mut heap, 2, 0);
    reused(&mut heap, 1, 3);
}

#[test]
fn with_4_096_holes_a_used_up_hole_given_back_is_stored() {
    let mut heap = comb(13_000, 4_097, 2, 4_096);
    ungranted(&mut heap, 2);
    assert_eq!(heap.report(), [8_194, 0, 0, 4_099, 8_901, 0]);
    reused(&mut heap, 2, 0);
}

#[test]
fn holes_of_65_536_pages_are_stored_and_of_65_537_not() {
    let mut heap = Heap::open(65_540);
    fresh(&mut heap, 65_535, 0);
    fresh(&mut heap, 1, 65_535);
    fresh(&mut heap, 2, 65_536);
    give(&mut heap, 0, 65_535);
    assert_eq!(heap.report(), [3, 0, 0, 3, 65_537, 0]);
    // Two pages more would make 65,537, one makes 65,536.
    give(&mut heap, 65_536, 2);
    assert_eq!(heap.report(), [3, 0, 1, 1, 65_537, 0]);
    give(&mut heap, 65_535, 1);
    assert_eq!(heap.report(), [3, 0, 1, 0, 65_538, 0]);
    reused(&mut heap, 65_536, 0);
}

#[test]
fn one_hole_may_have_all_65_536_pages_and_no_more() {
    let mut heap = Heap::open(65_540);
    fresh(&mut heap, 65_536, 0);
    give(&mut heap, 0, 65_536);
    assert_eq!(heap.report(), [1, 0, 0, 0, 65_540, 0]);

    let mut heap = Heap::open(65_540);
    fresh(&mut heap, 65_537, 0);
    give(&mut heap, 0, 65_537);
    assert_eq!(heap.report(), [1, 0, 1, 0, 3, 0]);
    fresh(&mut heap, 1, 65_537);
}

#[test]
fn the_last_hole_takes_a_used_up_ones_place() {
    let mut heap = comb(16, 4, 1, 4);
    assert_eq!(holes(&heap), [(0, 1), (2, 1), (4, 1), (6, 1)]);
    reused(&mut heap, 1, 0);
    assert_eq!(holes(&heap), [(6, 1), (2, 1), (4, 1)]);
    reused(&mut heap, 1, 2);
    assert_eq!(holes(&heap), [(6, 1), (4, 1)]);
}

#[test]
fn a_cut_hole_keeps_its_index() {
    let mut heap = Heap::open(16);
    fresh(&mut heap, 9, 0);
    give(&mut heap, 0, 5);
    give(&mut heap, 6, 2);
    reused(&mut heap, 3, 0);
    assert_eq!(holes(&heap), [(3, 2), (6, 2)]);
}

#[test]
fn of_equal_holes_the_lowest_page_is_taken() {
    for length in [1, 2, 128, 129] {
        let mut heap = Heap::open(600);
        fresh(&mut heap, 4 * length + 4, 0);
        let firsts = [2, 0, 3, 1].map(|run| run * (length + 1));
        for first in firsts {
            give(&mut heap, first, length);
        }
        for run in 0..4 {
            reused(&mut heap, length, u32::try_from(run * (length + 1)).expect("few pages"));
        }
    }
}

#[test]
fn a_shorter_hole_that_suffices_comes_before_a_lower_page() {
    let mut heap = Heap::open(16);
    fresh(&mut heap, 9, 0);
    give(&mut heap, 0, 4);
    give(&mut heap, 5, 3);
    reused(&mut heap, 2, 5);
    reused(&mut heap, 2, 0);
}
