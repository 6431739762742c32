//! Document 02, A.4: a given run joins the hole that ends where it starts and the hole that starts where it ends. Where the joined
//! hole stands is seen in the book alone, all else by later answers.

use crate::heap::{Family, Heap, ALL, NO_COMMIT};
use crate::holes::{comb, fresh, give, holes, reused, ungranted};

/// Sixteen pages are held, and these runs of them are given back in turn.
fn given(runs: &[(u64, u64)]) -> Heap {
    let mut heap = Heap::open(20);
    fresh(&mut heap, 16, 0);
    runs.iter().for_each(|&(first, pages)| give(&mut heap, first, pages));
    heap
}

/// On such a heap there is a hole of so many pages at a page: it serves them, and not one more.
fn hole_at(first: u32, pages: u64, heap: impl Fn() -> Heap) {
    assert_ne!(heap().commit(ALL, pages + 1), Ok(Some((first, false))));
    reused(&mut heap(), pages, first);
}

mod stands {
    use super::*;

    #[test]
    fn at_the_index_of_the_hole_before() {
        assert_eq!(holes(&given(&[(0, 2), (4, 2), (8, 1), (6, 1)])), [(0, 2), (4, 3), (8, 1)]);
        // The last one.
        assert_eq!(holes(&given(&[(0, 2), (4, 2), (6, 1)])), [(0, 2), (4, 3)]);
    }

    #[test]
    fn at_the_index_of_the_hole_after_if_there_is_none_before() {
        assert_eq!(holes(&given(&[(0, 2), (6, 2), (10, 1), (4, 2)])), [(0, 2), (4, 4), (10, 1)]);
        assert_eq!(holes(&given(&[(0, 1), (6, 2), (5, 1)])), [(0, 1), (5, 3)]);
    }

    #[test]
    fn at_the_index_of_the_hole_before_where_both_join_and_the_last_takes_the_others() {
        // Before at 1, after at 0, two more behind.
        assert_eq!(holes(&given(&[(6, 2), (2, 2), (10, 1), (13, 2), (4, 2)])), [(13, 2), (2, 6), (10, 1)]);
        // Before at 0, after at 2.
        assert_eq!(holes(&given(&[(2, 2), (10, 1), (6, 2), (13, 2), (4, 2)])), [(2, 6), (10, 1), (13, 2)]);
    }

    #[test]
    fn with_the_last_hole_the_one_after() {
        assert_eq!(holes(&given(&[(2, 2), (10, 1), (6, 2), (4, 2)])), [(2, 6), (10, 1)]);
        assert_eq!(holes(&given(&[(2, 2), (6, 2), (4, 2)])), [(2, 6)]);
    }

    #[test]
    fn with_the_last_hole_the_joined_one() {
        // It takes the index of the one after.
        assert_eq!(holes(&given(&[(6, 2), (10, 1), (2, 2), (4, 2)])), [(2, 6), (10, 1)]);
        assert_eq!(holes(&given(&[(10, 1), (6, 2), (2, 2), (4, 2)])), [(10, 1), (2, 6)]);
        assert_eq!(holes(&given(&[(6, 2), (2, 2), (4, 2)])), [(2, 6)]);
    }

    #[test]
    fn a_run_that_touches_none_is_appended() {
        assert_eq!(holes(&given(&[(0, 2), (4, 2), (8, 3)])), [(0, 2), (4, 2), (8, 3)]);
    }

    /// On a damaged book two holes end where the run starts, or two start where it ends.
    #[test]
    fn at_the_lowest_index_of_two() {
        for places in [[0, 39], [3, 35], [30, 31], [31, 32], [38, 39]] {
            for (hole, joined) in [((81, 2), (81, 3)), ((84, 2), (83, 3))] {
                // Holes of one page: 0, 2, .. 78. Page 83 is held.
                let mut heap = comb(100, 44, 1, 40);
                for place in places {
                    [heap.book[2_048 + 2 * place], heap.book[2_049 + 2 * place]] = [hole.0, hole.1];
                }
                let mut due = holes(&heap);
                due[places[0]] = joined;
                give(&mut heap, 83, 1);
                assert_eq!(holes(&heap), due);
            }
        }
    }

    /// Example P12: "now ends with the one hole (0,4)".
    #[test]
    fn p12() {
        let mut heap = Heap::open(64);
        fresh(&mut heap, 4, 0);
        give(&mut heap, 0, 4);
        ungranted(&mut heap, 2);
        assert_eq!(holes(&heap), [(0, 4)]);
    }
}

#[test]
fn a_run_joins_before_after_and_both() {
    hole_at(4, 3, || given(&[(4, 2), (6, 1)]));
    hole_at(4, 4, || given(&[(6, 2), (4, 2)]));
    for runs in [[(2, 2), (6, 2), (4, 2)], [(6, 2), (2, 2), (4, 2)], [(2, 2), (4, 2), (6, 2)], [(6, 2), (4, 2), (2, 2)]]
    {
        hole_at(2, 6, || given(&runs));
    }
    // A page between them is held: they stay apart.
    hole_at(2, 2, || given(&[(2, 2), (5, 2)]));
}

#[test]
fn every_page_given_by_itself_is_one_hole_in_the_end() {
    let mut order: Vec<u64> = (0..16).map(|page| page * 7 % 16).collect();
    for _ in 0..16 {
        order.rotate_left(1);
        let runs: Vec<(u64, u64)> = order.iter().map(|&page| (page, 1)).collect();
        let mut heap = given(&runs);
        assert_eq!(heap.report(), [1, 0, 0, 0, 20, 0]);
        reused(&mut heap, 16, 0);
    }
}

#[test]
fn an_ungranted_commit_joins_what_it_was_cut_from() {
    hole_at(12, 4, || {
        let mut heap = given(&[(12, 4)]);
        ungranted(&mut heap, 3);
        ungranted(&mut heap, 4);
        heap
    });
}

#[test]
fn an_ungranted_commit_from_the_frontier_joins_the_hole_before_it() {
    hole_at(15, 4, || {
        let mut heap = given(&[(15, 1)]);
        ungranted(&mut heap, 3);
        heap
    });
}

#[test]
fn an_ungranted_growth_joins_where_its_run_is_given() {
    let grown = || {
        let mut heap = given(&[(12, 2)]);
        assert_eq!(heap.grow(NO_COMMIT, 14, 2, 4), Ok(false));
        heap
    };
    // Its two pages are a hole behind the run, which is held still.
    hole_at(12, 2, grown);
    hole_at(12, 6, || {
        let mut heap = grown();
        give(&mut heap, 14, 2);
        heap
    });
}

#[test]
fn with_4_096_holes_a_give_that_touches_is_stored() {
    // Holes of 1 page at 0, 2, .. 8190; pages 8191 to 8199 are held.
    for (first, pages, hole, length) in [(8_191, 1, 8_190, 2), (8_191, 3, 8_190, 4), (1, 1, 0, 3), (4_001, 1, 4_000, 3)]
    {
        let mut heap = comb(9_000, 4_100, 1, 4_096);
        give(&mut heap, first, pages);
        assert_eq!(heap.report()[2], 0, "{first} {pages}");
        reused(&mut heap, length, hole);
    }
    // After it alone: the page before the first hole.
    let mut heap = Heap::open(9_000);
    fresh(&mut heap, 1, 0);
    fresh(&mut heap, 1, 1);
    for run in 0..4_096 {
        fresh(&mut heap, 1, 2 + 2 * run);
        fresh(&mut heap, 1, 3 + 2 * run);
    }
    for run in 0..4_096 {
        give(&mut heap, 2 + 2 * run, 1);
    }
    give(&mut heap, 1, 1);
    assert_eq!(heap.report()[2], 0);
    reused(&mut heap, 2, 1);
}

#[test]
fn with_4_096_holes_a_give_that_touches_none_is_abandoned() {
    let mut heap = comb(9_000, 4_100, 1, 4_096);
    give(&mut heap, 8_193, 1);
    assert_eq!(heap.report()[2], 1);
    // Two that become one leave a slot.
    give(&mut heap, 1, 1);
    give(&mut heap, 8_196, 1);
    assert_eq!(heap.report()[2], 1);
    give(&mut heap, 8_198, 1);
    assert_eq!(heap.report()[2], 2);
}

#[test]
fn a_total_of_65_537_is_abandoned_even_where_it_touches() {
    let mut heap = Heap::open(65_560);
    fresh(&mut heap, 65_540, 0);
    give(&mut heap, 2, 65_535);
    // Two pages before, behind: too many. One is not.
    give(&mut heap, 0, 2);
    give(&mut heap, 65_537, 2);
    assert_eq!(heap.report(), [1, 0, 2, 1, 65_555, 0]);
    give(&mut heap, 65_539, 1);
    assert_eq!(heap.report(), [1, 0, 2, 0, 65_556, 0]);
    // It touches none, since the pages between are lost.
    reused(&mut heap, 1, 65_539);
    reused(&mut heap, 65_535, 2);
    // Between two holes, with one page too many and with just enough.
    for (pages, abandoned) in [(2, 1), (1, 0)] {
        let mut heap = Heap::open(65_560);
        fresh(&mut heap, 65_540, 0);
        give(&mut heap, 0, 65_000);
        give(&mut heap, 65_000 + pages, 535);
        give(&mut heap, 65_000, pages);
        assert_eq!(heap.report()[2], abandoned);
        assert_eq!(heap.commit(ALL, 65_535 + pages).map(|run| run.is_some()), Ok(abandoned == 0));
    }
}

/// A class whose stores are full gives page after page to the arena: by list, and several in one call by chunks.
#[test]
fn pages_that_a_class_gives_become_one_hole() {
    const CLASS: u32 = 45;
    let filled = || {
        let mut heap = Heap::open(272);
        let pages: Vec<Vec<u64>> =
            (0..270).map(|_| heap.take(Family::Small, CLASS, ALL).expect("class 45").0).collect();
        for blocks in &pages[..260] {
            assert!(heap.give(Family::Small, CLASS, ALL, blocks).is_ok_and(|fate| fate < 2));
        }
        (heap, pages)
    };
    let (mut heap, pages) = filled();
    for page in [262, 264, 263, 260, 261] {
        assert_eq!(heap.give(Family::Small, CLASS, ALL, &pages[page]), Ok(2));
    }
    reused(&mut heap, 5, 260);
    let (mut heap, pages) = filled();
    let chunks: Vec<(u64, u64)> = [265, 261, 263, 262, 264].map(|page| (3, page)).to_vec();
    assert_eq!(heap.give_chunks(CLASS, &pages[261..266].concat(), &chunks, 5), Ok(vec![6; 5]));
    reused(&mut heap, 5, 261);
}

/// Spans alike, beside a run that was given by hand.
#[test]
fn spans_that_a_class_gives_join_too() {
    let mut heap = Heap::open(1_000);
    let spans: Vec<Vec<u64>> = (0..290).map(|_| heap.take(Family::Medium, 0, ALL).expect("medium class 0").0).collect();
    fresh(&mut heap, 2, 870);
    for blocks in &spans[..288] {
        assert_eq!(heap.give(Family::Medium, 0, ALL, blocks), Ok(0));
    }
    give(&mut heap, 870, 2);
    for span in [289, 288] {
        assert_eq!(heap.give(Family::Medium, 0, ALL, &spans[span]), Ok(2));
    }
    reused(&mut heap, 8, 864);
}
