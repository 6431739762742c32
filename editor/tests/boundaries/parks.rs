//! What becomes of a page or span that is empty: 4 pages or 32 spans of at most 128 pages are kept, then 256 are cold, then
//! the arena has it; and the order in which they come back.

use crate::heap::{Family, Heap, ALL, NO_DISCARD, NO_ZEROES};

const PAGE_GRANULES: u64 = 4_096;

/// So many runs taken whole from a new heap, then each released in turn, in the order that it was answered; the fates.
fn fill_and_empty(heap: &mut Heap, family: Family, class: u32, runs: usize) -> Vec<u32> {
    let taken: Vec<Vec<u64>> = (0..runs).map(|_| all(heap, family, class)).collect();
    taken.iter().map(|blocks| heap.give(family, class, ALL, blocks).expect("a run's blocks")).collect()
}

/// The blocks of one run, all new.
fn all(heap: &mut Heap, family: Family, class: u32) -> Vec<u64> {
    let (blocks, virgin) = heap.take(family, class, ALL).expect("a class");
    assert!(virgin);
    blocks
}

/// The lowest block's page, whether the list falls, and virgin. A run that was kept has its blocks in the order of the
/// release, the other way round; one that is carved anew has them as at first.
fn comes_back(heap: &mut Heap, family: Family, class: u32) -> (u64, bool, bool) {
    let (blocks, virgin) = heap.take(family, class, ALL).expect("a class");
    let lowest = *blocks.iter().min().expect("a block");
    (lowest / PAGE_GRANULES, blocks.windows(2).all(|pair| pair[0] > pair[1]), virgin)
}

#[test]
fn four_empty_pages_then_256_cold_then_the_arena() {
    let mut heap = Heap::open(300);
    let fates = fill_and_empty(&mut heap, Family::Small, 45, 262);
    assert_eq!(fates[..4], [0; 4]);
    assert_eq!(fates[4..260], [1; 256]);
    assert_eq!(fates[260..], [2; 2]);
    assert_eq!(heap.report(), [262, 0, 0, 260, 300, 260]);
    // Empty pages come back last in first out, as released.
    for page in [3, 2, 1, 0] {
        assert_eq!(comes_back(&mut heap, Family::Small, 45), (page, false, false));
    }
    // Cold ones newest first, carved anew and virgin.
    for page in (4..260).rev() {
        assert_eq!(comes_back(&mut heap, Family::Small, 45), (page, true, true));
    }
    // Then the arena's, here from the hole with the lowest page.
    assert_eq!(comes_back(&mut heap, Family::Small, 45), (260, true, true));
    assert_eq!(heap.report(), [263, 1, 0, 261, 39, 0]);
}

#[test]
fn a_cold_page_is_virgin_if_its_discard_zeroed_it() {
    for (host, virgin) in [(ALL, true), (NO_ZEROES, false), (NO_DISCARD, false), (3, false), (12, true)] {
        let mut heap = Heap::open(8);
        let taken: Vec<Vec<u64>> = (0..5).map(|_| all(&mut heap, Family::Small, 45)).collect();
        for blocks in &taken[..4] {
            assert_eq!(heap.give(Family::Small, 45, host, blocks), Ok(0));
        }
        assert_eq!(heap.give(Family::Small, 45, host, &taken[4]), Ok(1));
        for page in [3, 2, 1, 0] {
            assert_eq!(comes_back(&mut heap, Family::Small, 45), (page, false, false));
        }
        assert_eq!(comes_back(&mut heap, Family::Small, 45), (4, true, virgin), "host word {host}");
    }
}

/// So many empty spans of a class are kept, then 256 cold. Fates 0 for both, 2 for the one after.
fn spans(class: u32, pages: u64, empty: u64) {
    let mut heap = Heap::open((empty + 260) * pages);
    let number = empty + 256;
    let fates = fill_and_empty(&mut heap, Family::Medium, class, number as usize + 1);
    assert_eq!(fates[..number as usize], vec![0; number as usize]);
    assert_eq!(fates[number as usize], 2);
    // A new span's list rises. An empty one comes back as released, last in first out.
    for span in (0..empty).rev() {
        assert_eq!(comes_back(&mut heap, Family::Medium, class), (span * pages, true, false), "empty span {span}");
    }
    // A cold one is carved anew, the newest first, and is never virgin.
    for span in (empty..number).rev() {
        assert_eq!(comes_back(&mut heap, Family::Medium, class), (span * pages, false, false), "cold span {span}");
    }
    // The arena's is.
    assert_eq!(comes_back(&mut heap, Family::Medium, class), (number * pages, false, true));
}

#[test]
fn spans_of_3_pages_32_are_kept() {
    spans(0, 3, 32);
}

#[test]
fn spans_of_4_pages_32_are_kept_which_are_128_pages() {
    spans(3, 4, 32);
}

#[test]
fn spans_of_5_pages_25_are_kept_since_26_are_130_pages() {
    spans(5, 5, 25);
}

#[test]
fn spans_of_8_pages_16_are_kept_which_are_128_pages() {
    spans(11, 8, 16);
}

#[test]
fn the_limits_count_one_class_alone() {
    let mut heap = Heap::open(64);
    for class in [45, 46, 47] {
        assert_eq!(fill_and_empty(&mut heap, Family::Small, class, 5), [0, 0, 0, 0, 1]);
    }
}

#[test]
fn an_empty_run_waits_for_the_partial_ones() {
    // Of the second run all blocks are back, of the first one.
    let mut heap = Heap::open(2);
    let pages = [0, 1].map(|_| all(&mut heap, Family::Small, 45));
    assert_eq!(heap.give(Family::Small, 45, ALL, &pages[1]), Ok(0));
    assert_eq!(heap.give(Family::Small, 45, ALL, &[3]), Ok(0));
    assert_eq!(heap.take(Family::Small, 45, ALL), Ok((vec![3], false)));
    assert_eq!(heap.take(Family::Small, 45, ALL), Ok((vec![4_099, 5_123, 6_147], false)));
    let mut heap = Heap::open(6);
    let spans = [0, 1].map(|_| all(&mut heap, Family::Medium, 0));
    assert_eq!(heap.give(Family::Medium, 0, ALL, &spans[1]), Ok(0));
    assert_eq!(heap.give(Family::Medium, 0, ALL, &[4]), Ok(0));
    assert_eq!(heap.take(Family::Medium, 0, ALL), Ok((vec![4], false)));
    let back = (0..10).rev().map(|block| 12_292 + 1_152 * block).collect();
    assert_eq!(heap.take(Family::Medium, 0, ALL), Ok((back, false)));
}
