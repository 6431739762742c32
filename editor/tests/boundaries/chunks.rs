//! Releases by chunks: 2,056 of them, their order, and the order of a chunk's blocks.

use crate::heap::{Family, Heap, ALL};
use crate::holes::holes;

/// Three blocks to a page.
const CLASS: u32 = 45;

/// A heap with so many pages of the class: a block of each, and a chunk for each.
fn pages(number: usize) -> (Heap, Vec<u64>, Vec<(u64, u64)>) {
    let mut heap = Heap::open(2_100);
    let list = (0..number).map(|_| heap.take(Family::Small, CLASS, ALL).expect("class 45").0[0]).collect();
    let chunks = (0..).take(number).map(|page| (1, page)).collect();
    (heap, list, chunks)
}

#[test]
fn with_2_056_chunks_a_release_passes() {
    let (mut heap, list, chunks) = pages(2_056);
    assert_eq!(heap.give_chunks(CLASS, &list, &chunks, 2_056), Ok(vec![0; 2_056]));
    assert_eq!(heap.report(), [2_056, 0, 0, 2_056, 44, 0]);
    // The blocks are out no more.
    assert_eq!(heap.give_chunks(CLASS, &list[..1], &chunks[..1], 1), Err(10));
}

#[test]
fn with_2_057_chunks_it_is_refused_as_8() {
    let (mut heap, list, chunks) = pages(2_057);
    assert_eq!(heap.give_chunks(CLASS, &list, &chunks, 2_057), Err(8));
    // So it is with a fate too few.
    assert_eq!(heap.give_chunks(CLASS, &list[1..], &chunks[1..], 2_055), Err(8));
    // Each block is still out: one chunk fewer passes, then the one left over.
    assert_eq!(heap.give_chunks(CLASS, &list[1..], &chunks[1..], 2_056), Ok(vec![0; 2_056]));
    assert_eq!(heap.give_chunks(CLASS, &list[..1], &chunks[..1], 1), Ok(vec![0]));
}

#[test]
fn a_chunk_keeps_the_chains_order() {
    let mut heap = Heap::open(4);
    assert_eq!(heap.take(Family::Small, CLASS, ALL), Ok((vec![2_051, 1_027, 3], true)));
    assert_eq!(heap.give_chunks(CLASS, &[2_051, 3], &[(2, 0)], 1), Ok(vec![0]));
    // 2051 is popped first, and the latest popped is listed first.
    assert_eq!(heap.take(Family::Small, CLASS, ALL), Ok((vec![3, 2_051], false)));
}

#[test]
fn chunks_are_treated_in_order() {
    let mut heap = Heap::open(16);
    let mut list = Vec::new();
    for _ in 0..6 {
        list.extend(heap.take(Family::Small, CLASS, ALL).expect("class 45").0);
    }
    // Six pages emptied at once, the fifth chunk's and the sixth's have no room left among the empty.
    let chunks = [(3, 2), (3, 0), (3, 5), (3, 1), (3, 4), (3, 3)];
    assert_eq!(heap.give_chunks(CLASS, &list, &chunks, 7), Ok(vec![4, 4, 4, 4, 5, 5, 9]));
    // The empty pages last in first out, carved anew, then the cold ones newest first.
    for (page, virgin) in [(1, false), (5, false), (0, false), (2, false), (3, true), (4, true)] {
        let first = page * 4_096;
        let expected = vec![first + 2_051, first + 1_027, first + 3];
        assert_eq!(heap.take(Family::Small, CLASS, ALL), Ok((expected, virgin)));
    }
}

#[test]
fn chunks_give_their_runs_in_order() {
    // No page is kept.
    let mut heap = Heap::open_with(16, &[0, 75, 0, 0]);
    let pages: Vec<_> = (0..4).map(|_| heap.take(Family::Small, CLASS, ALL).expect("class 45").0).collect();
    let list = [&pages[0][..], &pages[2]].concat();
    assert_eq!(heap.give_chunks(CLASS, &list, &[(3, 2), (3, 0)], 2), Ok(vec![6, 6]));
    assert_eq!(holes(&heap), [(2, 1), (0, 1)]);
}

#[test]
fn a_page_that_a_chunk_came_back_to_is_not_virgin() {
    let mut heap = Heap::open(4);
    let (blocks, virgin) = heap.take(Family::Small, 0, ALL).expect("class 0");
    assert_eq!((blocks[0], blocks[63], virgin), (66, 3, true));
    // 61 are still out, and the page has more than it was asked for so far.
    assert_eq!(heap.give_chunks(0, &[66, 65, 64], &[(3, 0)], 1), Ok(vec![0]));
    let expected = (67..=127).rev().chain([64, 65, 66]).collect();
    assert_eq!(heap.take(Family::Small, 0, ALL), Ok((expected, false)));
}

#[test]
fn of_two_chunks_that_give_the_first_is_stored_where_one_fits() {
    // No page is kept. The holes have 65,535 pages, so that one more is stored, and another abandoned.
    let mut heap = Heap::open_with(65_540, &[0, 75, 0, 0]);
    assert_eq!(heap.commit(ALL, 65_535), Ok(Some((0, true))));
    let pages: Vec<_> = (0..3).map(|_| heap.take(Family::Small, CLASS, ALL).expect("class 45").0).collect();
    assert_eq!(heap.release(ALL, 0, 65_535), Ok(()));
    let list = [&pages[0][..], &pages[2]].concat();
    assert_eq!(heap.give_chunks(CLASS, &list, &[(3, 65_537), (3, 65_535)], 2), Ok(vec![6, 6]));
    assert_eq!(heap.report(), [4, 0, 1, 1, 65_538, 0]);
    assert_eq!(heap.commit(ALL, 1), Ok(Some((65_537, false))));
}
