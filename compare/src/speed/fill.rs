//! A workload like a fill of a grid: a search goes down, takes blocks for the scores of each square, and gives them back
//! when it turns, the latest first; now and then it holds a run of pages for a while. It gives back just what each take gave, or, as
//! a program's fill does, single blocks on its way too, and the blocks of many squares at once where it turns back far: these are of
//! several pages, and go back in groups.
//!
//! The search is rehearsed once on the side itself, so that every list stands ready when the measuring starts. What an
//! application does with its blocks is left out. A block that was used has lost its link, so the original makes each
//! chain anew within what is measured.

use super::meter::Meter;
use super::rounds::Round;
use super::scenarios::measure_takes;
use super::sides::{Class, PortSide, Side, HOST, PAGES};
use crate::call::{Call, Lent};
use crate::random::Random;
use crate::words::{chunk_word, page_of, Family, Word, SMALL_BATCH};

/// Takes and releases of a search.
const TURNS: usize = 600;
/// How deep it goes.
const DEEPEST: usize = 60;
/// The classes of the scores: blocks of 16, 64 and 208 bytes.
const CLASSES: [u32; 3] = [0, 3, 10];
/// One turn in so many is a run's.
const RUNS: u64 = 40;
/// One turn in so many that go back goes back by more than a square, by so many at most.
const FAR: u64 = 4;
const FARTHEST: usize = 24;

/// What a search gives back.
#[derive(Clone, Copy, PartialEq, Eq)]
pub enum Style {
    /// What each take gave, take by take.
    Takes,
    /// Single blocks and groups too.
    Mixed,
}

pub fn row(style: Style) -> String {
    match style {
        Style::Takes => format!("a fill: {TURNS} takes, releases of whole takes and runs, classes 0, 3, 10; each"),
        Style::Mixed => {
            format!("a fill: {TURNS} takes, releases of one, of takes, by groups, and runs, classes 0, 3, 10; each")
        }
    }
}

/// A call of the search with its lists.
enum Turn {
    Take(Class),
    Release(Class, Vec<Word>),
    Chunks(Class, Vec<Word>, Vec<Word>),
    Commit,
    Give(u32),
}

/// The calls of a search on a newly opened port, as they are made in turn.
pub fn calls() -> Vec<Call> {
    let mut side = PortSide::open(PAGES);
    side.reopen(PAGES);
    rehearse(&mut side, &Meter::calibrated_clock(), Style::Takes).0.into_iter().map(as_call).collect()
}

fn as_call(turn: Turn) -> Call {
    let host = HOST;
    match turn {
        Turn::Take(Class(family, class)) => {
            Call::Take { family, class, host, lent: Lent { len: SMALL_BATCH, fill: 0 } }
        }
        Turn::Release(Class(family, class), list) => Call::ReleaseBlocks { family, class, host, list },
        Turn::Chunks(Class(_, class), list, chunks) => {
            let lent = Lent { len: chunks.len(), fill: 0 };
            Call::ReleaseChunks { class, host, list, chunks, lent }
        }
        Turn::Commit => Call::Commit { host, pages: 2 },
        Turn::Give(first) => Call::Release { host, first: u64::from(first), pages: 2 },
    }
}

pub fn round<S: Side>(side: &mut S, meter: &Meter, style: Style) -> Round {
    let (turns, answers) = rehearse(side, meter, style);
    side.reopen(PAGES);
    let mut taken = S::Taken::default();
    let number = turns.len();
    let ((), cost) = meter.measure(number, || turns.iter().for_each(|turn| take_turn(side, turn, &mut taken)));
    let mut told = answers;
    told.extend(CLASSES.iter().map(|&class| measure_takes(side, meter, small(class), 1).0.concat().len() as u32));
    Round::new(vec![cost], told)
}

fn small(class: u32) -> Class {
    Class(Family::Small, class)
}

fn take_turn<S: Side>(side: &mut S, turn: &Turn, taken: &mut S::Taken) {
    match turn {
        Turn::Take(class) => side.take(*class, taken),
        Turn::Release(class, words) => side.release_list(*class, words),
        Turn::Chunks(class, words, chunks) => side.release_with_chunks(*class, words, chunks),
        Turn::Commit => {
            side.commit(2);
        }
        Turn::Give(first) => side.give(*first, 2),
    }
}

/// The search's calls, by the answers of a first run, and how many blocks each take answered and how many pages each release has: on
/// which pages they are is not the same on both sides once a run came from one of several equal holes.
fn rehearse<S: Side>(side: &mut S, meter: &Meter, style: Style) -> (Vec<Turn>, Vec<u32>) {
    let mut random = Random::new(1);
    // Of twenty turns; who goes back far goes down more often.
    let downs = if style == Style::Mixed { 17 } else { 11 };
    let (mut turns, mut answers) = (Vec::new(), Vec::new());
    let (mut path, mut runs): (Vec<(Class, Vec<Word>)>, Vec<u32>) = (Vec::new(), Vec::new());
    while turns.len() < TURNS {
        if random.chance(1, RUNS) {
            turns.push(run_turn(side, &mut runs));
            continue;
        }
        let down = path.is_empty() || path.len() < DEEPEST && random.chance(downs, 20);
        let mut given = Vec::new();
        if down {
            let class = small(random.pick(&CLASSES));
            let mut words = measure_takes(side, meter, class, 1).0.concat();
            answers.push(words.len() as u32);
            turns.push(Turn::Take(class));
            if style == Style::Mixed && words.len() > 1 && random.chance(1, 2) {
                given.push((class, vec![words.swap_remove(random.index(words.len()))]));
            }
            path.push((class, words));
        } else {
            let far = style == Style::Mixed && random.chance(1, FAR);
            let squares = if far { 1 + random.index(FARTHEST) } else { 1 };
            given = together(path.split_off(path.len().saturating_sub(squares)));
        }
        for (class, words) in given {
            let turn = back(class, words);
            take_turn(side, &turn, &mut S::Taken::default());
            answers.push(if let Turn::Chunks(_, _, chunks) = &turn { chunks.len() as u32 } else { 1 });
            turns.push(turn);
        }
    }
    (turns, answers)
}

/// What is given back of each class, the latest first.
fn together(mut squares: Vec<(Class, Vec<Word>)>) -> Vec<(Class, Vec<Word>)> {
    let mut given: Vec<(Class, Vec<Word>)> = Vec::new();
    while let Some((class, words)) = squares.pop() {
        match given.iter_mut().find(|(of, _)| *of == class) {
            Some((_, all)) => all.extend(words),
            None => given.push((class, words)),
        }
    }
    given
}

fn run_turn<S: Side>(side: &mut S, runs: &mut Vec<u32>) -> Turn {
    if runs.len() < 3 {
        runs.push(side.commit(2));
        return Turn::Commit;
    }
    let first = runs.remove(0);
    side.give(first, 2);
    Turn::Give(first)
}

/// Blocks of one page go back by list, those of several by groups.
fn back(class: Class, words: Vec<Word>) -> Turn {
    let mut chunks: Vec<(u64, u32)> = Vec::new();
    for &word in &words {
        match chunks.iter_mut().find(|(page, _)| *page == page_of(word)) {
            Some((_, count)) => *count += 1,
            None => chunks.push((page_of(word), 1)),
        }
    }
    if chunks.len() == 1 {
        return Turn::Release(class, words);
    }
    let chunks = chunks.into_iter().map(|(page, count)| chunk_word(count, page)).collect();
    Turn::Chunks(class, words, chunks)
}

/// How many turns of a search on a newly opened port are takes, releases of one block, of more, by groups of several pages, and runs'.
#[cfg(test)]
pub fn kinds(style: Style) -> [usize; 5] {
    let mut side = PortSide::open(PAGES);
    side.reopen(PAGES);
    let (turns, _) = rehearse(&mut side, &Meter::calibrated_clock(), style);
    assert!(side.is_sound(), "no call is refused");
    let mut kinds = [0; 5];
    for turn in &turns {
        kinds[match turn {
            Turn::Take(_) => 0,
            Turn::Release(_, words) if words.len() == 1 => 1,
            Turn::Release(..) => 2,
            Turn::Chunks(..) => 3,
            Turn::Commit | Turn::Give(_) => 4,
        }] += 1;
    }
    kinds
}
