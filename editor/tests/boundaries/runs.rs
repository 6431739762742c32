//! The arena's calls: what they refuse, the reservation, `contains`, and the report's columns.

use crate::heap::{Family, Heap, ALL, NO_COMMIT, NO_RESERVATION};

/// Two to the 48th.
const TOO_LONG: u64 = 281_474_976_710_656;

#[test]
fn a_run_of_two_to_the_48th_pages_is_refused_as_6() {
    let mut heap = Heap::open(4);
    assert_eq!(heap.commit(ALL, TOO_LONG - 1), Ok(None));
    assert_eq!(heap.commit(ALL, 2), Ok(Some((0, true))));
    assert_eq!(heap.grow(ALL, 0, 2, TOO_LONG - 1), Ok(false));
    assert_eq!(heap.release(ALL, 0, TOO_LONG - 1), Err(12));
    for pages in [0, TOO_LONG, TOO_LONG + 1, u64::MAX] {
        assert_eq!(heap.commit(ALL, pages), Err(6));
        assert_eq!(heap.grow(ALL, 0, 2, pages), Err(6));
        assert_eq!(heap.grow(ALL, 0, pages, TOO_LONG - 1), Err(6));
        assert_eq!(heap.release(ALL, 0, pages), Err(6));
    }
    assert_eq!(heap.grow(ALL, 0, 2, 2), Err(6));
    assert_eq!(heap.report(), [1, 0, 0, 2, 2, 0]);
}

#[test]
fn a_host_word_of_16_is_refused_as_3() {
    let mut heap = Heap::open(8);
    assert_eq!(heap.commit(15, 1), Ok(Some((0, true))));
    let (blocks, _) = heap.take(Family::Small, 45, 15).expect("class 45");
    let (spans, _) = heap.take(Family::Medium, 0, 15).expect("medium class 0");
    for host in [16, 31, u32::MAX] {
        assert_eq!(heap.commit(host, 1), Err(3));
        assert_eq!(heap.grow(host, 0, 1, 2), Err(3));
        assert_eq!(heap.release(host, 0, 1), Err(3));
        assert_eq!(heap.take(Family::Small, 45, host), Err(3));
        assert_eq!(heap.take(Family::Medium, 0, host), Err(3));
        assert_eq!(heap.give(Family::Small, 45, host, &blocks), Err(3));
        assert_eq!(heap.give(Family::Medium, 0, host, &spans), Err(3));
        // It comes before the class.
        assert_eq!(heap.take(Family::Small, 64, host), Err(3));
    }
    assert_eq!(heap.take(Family::Small, 64, 15), Err(4));
    assert_eq!(heap.take(Family::Medium, 12, 15), Err(4));
}

#[test]
fn a_refused_reservation_disables_the_arena_for_good() {
    let mut heap = Heap::open(8);
    assert_eq!(heap.commit(NO_RESERVATION, 1), Ok(None));
    assert_eq!(heap.commit(ALL, 1), Ok(None));
    assert_eq!(heap.take(Family::Small, 0, ALL), Ok((vec![], false)));
    assert!(!heap.contains(0, 0));
    assert_eq!(heap.report(), [0, 0, 0, 0, 8, 0]);
}

#[test]
fn only_the_first_commit_asks_for_the_reservation() {
    let mut heap = Heap::open(8);
    // It is granted, though the commit itself is not.
    assert_eq!(heap.commit(NO_COMMIT, 1), Ok(None));
    assert!(heap.contains(0, 1));
    assert_eq!(heap.commit(NO_RESERVATION, 1), Ok(Some((0, false))));
}

#[test]
fn a_commit_longer_than_the_arena_asks_for_the_reservation() {
    let mut heap = Heap::open(8);
    assert_eq!(heap.commit(ALL, 9), Ok(None));
    assert!(heap.contains(0, 0));
    let mut heap = Heap::open(8);
    assert_eq!(heap.commit(NO_RESERVATION, 9), Ok(None));
    assert_eq!(heap.commit(ALL, 1), Ok(None));
}

#[test]
fn a_take_asks_for_the_reservation() {
    let mut heap = Heap::open(8);
    assert_eq!(heap.take(Family::Small, 45, NO_COMMIT), Ok((vec![], false)));
    assert!(heap.contains(0, 0));
    let mut heap = Heap::open(8);
    assert_eq!(heap.take(Family::Medium, 0, NO_RESERVATION), Ok((vec![], false)));
    assert_eq!(heap.commit(ALL, 1), Ok(None));
    assert!(!heap.contains(0, 0));
}

#[test]
fn contains_is_no_before_the_reservation() {
    let mut heap = Heap::open(8);
    assert!(!heap.contains(0, 0));
    assert!(!heap.contains(0, 1));
    assert!(!heap.contains(524_288, 0));
    assert_eq!(heap.commit(ALL, 1), Ok(Some((0, true))));
    assert!(heap.contains(0, 0));
}

#[test]
fn contains_up_to_the_arenas_end() {
    let mut heap = Heap::open(8);
    assert_eq!(heap.commit(ALL, 1), Ok(Some((0, true))));
    for (offset, length) in [(0, 524_288), (524_287, 1), (524_288, 0)] {
        assert!(heap.contains(offset, length), "{offset} {length}");
    }
    for (offset, length) in [(0, 524_289), (524_287, 2), (524_288, 1), (524_289, 0), (u64::MAX, 1), (1, u64::MAX)] {
        assert!(!heap.contains(offset, length), "{offset} {length}");
    }
}

#[test]
fn the_reports_columns_are_told_apart() {
    let mut heap = Heap::open(65_600);
    // Six commits from the frontier, and a growth, which counts as one.
    assert_eq!(heap.commit(ALL, 65_530), Ok(Some((0, true))));
    for first in 65_530..65_535 {
        assert_eq!(heap.commit(ALL, 1), Ok(Some((first, true))));
    }
    assert_eq!(heap.grow(ALL, 65_534, 1, 10), Ok(true));
    assert_eq!(heap.report(), [7, 0, 0, 65_544, 56, 0]);
    // A give is stored; one of nine pages more would pass 65,536.
    assert_eq!(heap.release(ALL, 0, 65_530), Ok(()));
    assert_eq!(heap.release(ALL, 65_535, 9), Ok(()));
    assert_eq!(heap.report(), [7, 0, 1, 5, 65_586, 0]);
    // Two commits from the hole.
    assert_eq!(heap.commit(ALL, 20), Ok(Some((0, false))));
    assert_eq!(heap.commit(ALL, 30), Ok(Some((20, false))));
    assert_eq!(heap.report(), [9, 2, 1, 55, 65_536, 0]);
}

/// The counts' words (docs/RANGES.md), each low word, then high.
const COUNTS: std::ops::Range<usize> = 5..11;

/// A commit from the frontier, a growth, a commit from the hole, and a give that would pass 65,536 pages.
fn count_once(heap: &mut Heap) {
    assert_eq!(heap.commit(ALL, 65_536), Ok(Some((0, true))));
    assert_eq!(heap.commit(ALL, 1), Ok(Some((65_536, true))));
    assert_eq!(heap.grow(ALL, 65_536, 1, 2), Ok(true));
    assert_eq!(heap.release(ALL, 0, 65_536), Ok(()));
    assert_eq!(heap.release(ALL, 65_536, 1), Ok(()));
    assert_eq!(heap.commit(ALL, 1), Ok(Some((0, false))));
}

#[test]
fn the_counts_are_kept_modulo_two_to_the_64th() {
    let mut heap = Heap::open(65_600);
    heap.book[COUNTS].fill(u32::MAX);
    assert_eq!(heap.report(), [u64::MAX, u64::MAX, u64::MAX, 0, 65_600, 0]);
    count_once(&mut heap);
    assert_eq!(heap.report(), [3, 0, 0, 2, 65_597, 0]);
    // From the highest low word on, the high one counts.
    let mut heap = Heap::open(65_600);
    for count in heap.book[COUNTS].chunks_mut(2) {
        count.copy_from_slice(&[u32::MAX, 0]);
    }
    count_once(&mut heap);
    assert_eq!(heap.report(), [(1 << 32) + 3, 1 << 32, 1 << 32, 2, 65_597, 0]);
}
