//! The examples `undo`, `typed`, `server`, `resume` and `mixed`, run as a user would, and their length.
#![allow(clippy::cast_possible_truncation, clippy::cast_precision_loss, clippy::float_cmp)] // small whole numbers

#[path = "../examples/mixed.rs"]
#[allow(dead_code)] // its `main`
mod mixed;
#[path = "../examples/resume.rs"]
#[allow(dead_code)]
mod resume;
#[path = "../examples/server.rs"]
#[allow(dead_code)]
mod server;
#[path = "../examples/typed.rs"]
#[allow(dead_code)]
mod typed;
#[path = "../examples/undo.rs"]
#[allow(dead_code)]
mod undo;

use vigbuso::{Error, LoadError, Refusal};

#[test]
fn a_search_undoes_all() {
    for (queens, solutions) in [(1, 1), (2, 0), (4, 2), (6, 4), (8, 92)] {
        let mut search = undo::Search::new(queens).expect("a region");
        search.run().expect("there is room");
        assert_eq!((search.solutions, search.left()), (solutions, 0), "{queens} queens");
        assert!(search.records >= queens.min(3));
    }
}

#[test]
fn a_grid_of_typed_values() {
    let mut grid = typed::Grid::open(4).expect("four pages");
    let slots: Vec<_> = (0..30).map(|row| grid.add(row, 0, row % 2 == 0).expect("there is room")).collect();
    let mut first = None;
    for turn in 0..1_000 {
        let slot = slots[turn * 7 % slots.len()];
        let word = grid.set(slot, [b'A' + (turn % 26) as u8; 5], turn as f32).expect("there is room");
        first.get_or_insert(word);
    }
    assert_eq!((grid.slots.iter().count(), grid.tries.iter().count()), (30, 30), "the words before were removed");
    assert_eq!(first.map(|word| grid.tries.get(word)), Some(None));
    assert_eq!(grid.score(), (970..1_000).map(|turn| turn as f32).sum::<f32>());
    assert!(grid.list().map(|slot| slot.row).eq((0..30).rev()));
    let gone = grid.slots.remove(slots[3]).expect("it is there");
    assert_eq!(gone.row, 3);
    assert_eq!(grid.set(slots[3], *b"HERON", 0.0), Err(Error::Stale(slots[3].erase())));
}

#[test]
fn a_server_of_mixed_sizes_goes_on() {
    let steps = if cfg!(debug_assertions) { 50_000 } else { 2_000_000 };
    for pages in [16, 64, 256] {
        let mut server = server::Server::open(pages).expect("a region");
        for number in 0..steps {
            server.step(number).expect("the oldest bodies go where there is no room");
        }
        assert!(server.evicted as u64 > steps / 100 && server.resized as u64 > steps / 10, "{pages} pages");
    }
}

#[test]
fn a_square_is_gone_on_with() {
    let list = include_str!("../examples/words.txt");
    let mut square = resume::Square::new(list, None).expect("an empty one");
    assert!(square.fill(3).is_ok_and(|found| found));
    let (half, mut saved) = (square.lines(), square.save());
    let mut again = resume::Square::new(list, Some(&saved)).expect("as it was saved");
    assert_eq!((again.lines(), half.len()), (half, 3));
    for square in [&mut square, &mut again] {
        assert!(square.fill(5).is_ok_and(|found| found));
    }
    assert_eq!(again.lines(), square.lines());
    let letters: Vec<Vec<u8>> = again.lines().into_iter().map(String::into_bytes).collect();
    assert!((0..25).all(|at| letters[at / 5][at % 5] == letters[at % 5][at / 5]), "{:?}", again.lines());
    saved[100] ^= 1;
    assert!(resume::Square::new(list, Some(&saved)).is_err_and(|error| error == LoadError::Changed.into()));
    let filled = |list| resume::Square::new(list, None).expect("an empty one").fill(5).expect("there is room");
    assert!(filled("bbbbb\naaaaa") && !filled("abcde"));
}

/// Answers of every length and states beside each other, some of them of one size; every answer stays as it was written.
#[test]
fn a_search_beside_its_answers() {
    let mut jugs = mixed::Jugs::open(16).expect("16 pages");
    let mut answers = Vec::new();
    for (one, two, litres) in (1..12).flat_map(|one| (1..12).map(move |two| (one, two, (one + two) / 2))) {
        let (block, len) = jugs.solve([one, two], litres).expect("there is room");
        let text = String::from_utf8_lossy(&jugs.arena[block.range(len)]).into_owned();
        let can = litres <= one.max(two)
            && (1..=one).rev().find(|by| one % by == 0 && two % by == 0).is_some_and(|by| litres % by == 0);
        assert_eq!(text.ends_with("never"), !can, "{one} and {two}: {text}");
        answers.push((block, text));
    }
    assert!(jugs.states.is_empty());
    for (block, text) in &answers {
        assert_eq!(jugs.arena[block.range(text.len())], *text.as_bytes());
    }
    let report = jugs.pool.report().expect("an opened book");
    assert_eq!(report.used, answers.len());
    let short = answers.iter().find(|(block, _)| jugs.pool.class_of(*block) == Some(jugs.class)).expect("a short one");
    let error = jugs.pool.heap_mut().release(jugs.class, &[short.0]).expect_err("it is the pool's");
    assert_eq!(error.refusal(), Refusal::NotOut);
    for (block, _) in answers {
        jugs.pool.free(block).expect("it is out");
    }
    jugs.pool.release_run(jugs.seen).expect("it is held");
    jugs.pool.flush().expect("an opened book");
    assert_eq!(jugs.pool.report().map(|report| report.arena.held), Ok(0));
}

#[test]
fn they_are_short() {
    let programs = [
        include_str!("../examples/mixed.c"),
        include_str!("../examples/mixed.rs"),
        include_str!("../examples/resume.rs"),
        include_str!("../examples/server.rs"),
        include_str!("../examples/typed.rs"),
        include_str!("../examples/undo.rs"),
    ];
    assert!(programs.iter().all(|program| program.lines().count() <= 100));
}
