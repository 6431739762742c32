//! The order of blocks: on one page, over several, and of pages in the partial list.

use crate::heap::{Family, Heap, ALL};

/// Three blocks to a page: granules 2051, 1027 and 3 of it, as first taken.
const CLASS: u32 = 45;

fn take(heap: &mut Heap) -> Vec<u64> {
    heap.take(Family::Small, CLASS, ALL).expect("class 45").0
}

fn give(heap: &mut Heap, granules: &[u64]) {
    assert_eq!(heap.give(Family::Small, CLASS, ALL, granules), Ok(0));
}

#[test]
fn a_released_list_comes_before_the_pages_free_list() {
    let mut heap = Heap::open(4);
    assert_eq!(take(&mut heap), [2_051, 1_027, 3]);
    give(&mut heap, &[2_051]);
    give(&mut heap, &[1_027]);
    // 1027 is popped first, and the latest popped is listed first.
    assert_eq!(take(&mut heap), [2_051, 1_027]);
}

#[test]
fn a_page_that_has_blocks_again_heads_the_partial_list() {
    let mut heap = Heap::open(4);
    for first in [2_051, 6_147, 10_243] {
        assert_eq!(take(&mut heap), [first, first - 1_024, first - 2_048]);
    }
    // The pages in the order 1, 0, 2; one in the list keeps its place.
    for granule in [10_243, 3, 4_099, 1_027] {
        give(&mut heap, &[granule]);
    }
    assert_eq!(take(&mut heap), [10_243, 3, 1_027, 4_099]);
}

#[test]
fn medium_spans_alike() {
    let mut heap = Heap::open(8);
    // Two spans of 3 pages, ten blocks of 1,152 granules; the second starts at page 3.
    for first in [4, 12_292] {
        let (blocks, virgin) = heap.take(Family::Medium, 0, ALL).expect("medium class 0");
        assert_eq!((blocks[0], blocks[9], virgin), (first, first + 9 * 1_152, true));
    }
    for granule in [4, 12_292, 1_156] {
        assert_eq!(heap.give(Family::Medium, 0, ALL, &[granule]), Ok(0));
    }
    assert_eq!(heap.take(Family::Medium, 0, ALL), Ok((vec![4, 1_156, 12_292], false)));
}

#[test]
fn a_take_over_several_pages_is_virgin_if_each_is() {
    // 71 blocks to a page: 64, then 7, then 64 of the next page, which has 7 left.
    let mut heap = Heap::open(4);
    let counts = [64, 7, 64].map(|count| {
        let (blocks, virgin) = heap.take(Family::Small, 21, ALL).expect("class 21");
        assert!(virgin);
        assert_eq!(blocks.len(), count);
        blocks[0]
    });
    // The first page, released to, heads the list; the second is virgin still.
    assert_eq!(heap.give(Family::Small, 21, ALL, &counts[..1]), Ok(0));
    let (blocks, virgin) = heap.take(Family::Small, 21, ALL).expect("class 21");
    assert_eq!((blocks.len(), blocks[7], virgin), (8, counts[0], false));
}

/// Class 21's page has 71 blocks of 57 granules: these, from a high one down to a low one.
fn falling(high: u64, low: u64) -> Vec<u64> {
    (low..=high).rev().map(|block| 3 + 57 * block).collect()
}

/// The arena's one page, wholly out; blocks 1 to `last` are released, 64 of them taken, then the others.
fn taken_again(last: u64) {
    let mut heap = Heap::open(1);
    assert_eq!(heap.take(Family::Small, 21, ALL), Ok((falling(63, 0), true)));
    assert_eq!(heap.take(Family::Small, 21, ALL), Ok((falling(70, 64), true)));
    let released: Vec<u64> = falling(last, 1).into_iter().rev().collect();
    assert_eq!(heap.give(Family::Small, 21, ALL, &released), Ok(0));
    assert_eq!(heap.take(Family::Small, 21, ALL), Ok((falling(64, 1), false)));
    assert_eq!(heap.take(Family::Small, 21, ALL), Ok((falling(last, 65), false)));
    assert_eq!(heap.take(Family::Small, 21, ALL), Ok((vec![], false)));
}

#[test]
fn what_a_take_leaves_free_on_a_carved_page_is_taken_next() {
    taken_again(70);
}

#[test]
fn so_is_one_block_alone() {
    taken_again(65);
    // Two spans of ten blocks, five of the first back and six of the second, which heads the list.
    let mut heap = Heap::open(6);
    for first in [4, 12_292] {
        assert_eq!(heap.take(Family::Medium, 0, ALL).expect("medium class 0").0[0], first);
    }
    assert_eq!(heap.give(Family::Medium, 0, ALL, &[4, 1_156, 2_308, 3_460, 4_612]), Ok(0));
    assert_eq!(heap.give(Family::Medium, 0, ALL, &[12_292, 13_444, 14_596, 15_748, 16_900, 18_052]), Ok(0));
    let ten = vec![3_460, 2_308, 1_156, 4, 18_052, 16_900, 15_748, 14_596, 13_444, 12_292];
    assert_eq!(heap.take(Family::Medium, 0, ALL), Ok((ten, false)));
    assert_eq!(heap.take(Family::Medium, 0, ALL), Ok((vec![4_612], false)));
}
