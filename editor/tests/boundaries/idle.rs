//! Document 02, A.5: "Idle shall also count pages in the empty and cold stores of every class." They stay held, and the report
//! says how many pages are both.

use crate::heap::{Family, Heap, ALL};

/// Pages of the spans of each medium class.
const SPANS: [u64; 12] = [3, 3, 3, 4, 4, 5, 5, 6, 6, 7, 8, 8];

/// Three blocks to a page.
const CLASS: u32 = 45;

/// Pages held, idle pages, and how many are both.
fn pages(heap: &Heap) -> [u64; 3] {
    let [.., held, idle, overlap] = heap.report();
    [held, idle, overlap]
}

/// So many runs of a class, each with the blocks of a take.
fn take(heap: &mut Heap, family: Family, class: u32, runs: usize) -> Vec<Vec<u64>> {
    (0..runs).map(|_| heap.take(family, class, ALL).expect("a class").0).collect()
}

fn give(heap: &mut Heap, family: Family, class: u32, runs: &[Vec<u64>]) -> Vec<u32> {
    runs.iter().map(|blocks| heap.give(family, class, ALL, blocks).expect("a run's blocks")).collect()
}

#[test]
fn every_class_has_its_empty_run_counted_by_pages() {
    let mut heap = Heap::open(200);
    let small = (0..64).map(|class| (Family::Small, class, 1));
    let medium = (0..12).zip(SPANS).map(|(class, pages)| (Family::Medium, class, pages));
    let mut parked = 0;
    for (family, class, run) in small.chain(medium) {
        let taken = take(&mut heap, family, class, 1);
        assert_eq!(pages(&heap), [parked + run, 200 - run, parked]);
        assert_eq!(give(&mut heap, family, class, &taken), [0]);
        parked += run;
        assert_eq!(pages(&heap), [parked, 200, parked]);
    }
    assert_eq!(parked, 64 + SPANS.iter().sum::<u64>());
}

#[test]
fn cold_pages_are_counted_until_the_arena_has_them() {
    let mut heap = Heap::open(300);
    let taken = take(&mut heap, Family::Small, CLASS, 261);
    assert_eq!(pages(&heap), [261, 39, 0]);
    assert_eq!(give(&mut heap, Family::Small, CLASS, &taken[..4]), [0; 4]);
    assert_eq!(pages(&heap), [261, 43, 4]);
    assert_eq!(give(&mut heap, Family::Small, CLASS, &taken[4..5]), [1]);
    assert_eq!(pages(&heap), [261, 44, 5]);
    assert_eq!(give(&mut heap, Family::Small, CLASS, &taken[5..260]), [1; 255]);
    assert_eq!(pages(&heap), [261, 299, 260]);
    assert_eq!(give(&mut heap, Family::Small, CLASS, &taken[260..]), [2]);
    assert_eq!(pages(&heap), [260, 300, 260]);
    // Taken again, they are not idle.
    take(&mut heap, Family::Small, CLASS, 260);
    assert_eq!(pages(&heap), [260, 40, 0]);
}

#[test]
fn cold_spans_are_counted_by_pages() {
    for (class, run) in (0..12).zip(SPANS) {
        // As many empty as the class keeps, and three cold ones.
        let runs = 3 + (128 / run).min(32);
        let mut heap = Heap::open(200);
        let taken = take(&mut heap, Family::Medium, class, runs as usize);
        assert_eq!(pages(&heap), [runs * run, 200 - runs * run, 0]);
        assert_eq!(give(&mut heap, Family::Medium, class, &taken), vec![0; taken.len()]);
        assert_eq!(pages(&heap), [runs * run, 200, runs * run]);
    }
}

#[test]
fn a_page_with_a_block_out_is_not_idle() {
    let mut heap = Heap::open(8);
    let taken = take(&mut heap, Family::Small, CLASS, 1).remove(0);
    assert_eq!(heap.give(Family::Small, CLASS, ALL, &taken[..2]), Ok(0));
    assert_eq!(pages(&heap), [1, 7, 0]);
    assert_eq!(heap.give(Family::Small, CLASS, ALL, &taken[2..]), Ok(0));
    assert_eq!(pages(&heap), [1, 8, 1]);
}

#[test]
fn retired_pages_are_counted_empty_and_cold() {
    let mut heap = Heap::open(8);
    let taken = take(&mut heap, Family::Small, CLASS, 6);
    // Of the first five pages all blocks, of the sixth all but one.
    let list: Vec<u64> = taken.concat()[..17].to_vec();
    let chunks = [(3, 0), (3, 1), (3, 2), (3, 3), (3, 4), (2, 5)];
    assert_eq!(heap.give_chunks(CLASS, &list, &chunks, 6), Ok(vec![4, 4, 4, 4, 5, 0]));
    assert_eq!(pages(&heap), [6, 7, 5]);
}

#[test]
fn direct_runs_and_holes_are_not_both() {
    let mut heap = Heap::open(8);
    assert_eq!(heap.commit(ALL, 3), Ok(Some((0, true))));
    assert_eq!(pages(&heap), [3, 5, 0]);
    assert_eq!(heap.release(ALL, 1, 1), Ok(()));
    assert_eq!(pages(&heap), [2, 6, 0]);
}

/// So its time does not grow with the arena, nor with the holes.
#[test]
fn a_report_reads_no_word_of_a_page_or_a_hole() {
    let mut heap = Heap::open(300);
    let taken = take(&mut heap, Family::Small, CLASS, 9);
    give(&mut heap, Family::Small, CLASS, &taken[2..]);
    let due = heap.report();
    heap.book[1_376..].fill(u32::MAX);
    assert_eq!(heap.report(), due);
}
