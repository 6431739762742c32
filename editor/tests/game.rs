//! Can an asker break a small arena, against document 02's sentences.

use vigbuso::{asker_wins, Refusal};

fn wins(pages: u64, live: u64, moves: u64) -> bool {
    asker_wins(pages, live, moves).expect("within the bounds")
}

#[test]
fn three_pages_break_in_six_moves_and_no_arena_in_none() {
    assert!(wins(3, 3, 6));
    for pages in 1..=6 {
        for live in 1..=pages {
            assert!(!wins(pages, live, 0), "{pages} {live}");
        }
    }
}

#[test]
fn more_moves_never_hurt_and_neither_does_a_higher_limit() {
    for pages in 1..=6 {
        for live in 1..=pages {
            for moves in 0..8 {
                assert!(!wins(pages, live, moves) || wins(pages, live, moves + 1), "{pages} {live} {moves}");
                assert!(
                    live == pages || !wins(pages, live, moves) || wins(pages, live + 1, moves),
                    "{pages} {live} {moves}"
                );
            }
        }
    }
}

#[test]
fn numbers_outside_are_refused() {
    for (pages, live, moves) in
        [(0, 0, 0), (0, 1, 0), (7, 1, 0), (3, 0, 6), (3, 4, 6), (3, 3, 9), (u64::MAX, u64::MAX, u64::MAX)]
    {
        assert_eq!(asker_wins(pages, live, moves), Err(Refusal::Game), "{pages} {live} {moves}");
    }
}
