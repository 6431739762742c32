//! What joining is for (document 02, A.4): "Long fills leave many short holes side by side, and a span is then taken from the
//! frontier." Runs come and go as in a long fill, by the judge's rule and by the same rule with holes left apart; the port must
//! answer as the first.

use crate::arguments::Arguments;
use crate::call::{Answer, Call};
use crate::memory::Fence;
use crate::oracle::rules::Rules;
use crate::port::{self, Room};
use crate::random::Random;
use crate::reference::Reference;
use crate::words::{book_words, HOST_ALL};

const PAGES: u32 = 16_384;
/// Pages that a turn asks for, and how many of its runs stay until the next: one in so many.
const TURN_PAGES: u64 = 2_000;
const STAY: usize = 20;
/// Pages of a run, turn by turn: those of small blocks, then spans of the medium classes.
const LENGTHS: [u64; 7] = [1, 3, 4, 5, 6, 7, 8];

pub fn run(words: &[String]) -> Result<bool, String> {
    let arguments = Arguments::read(words, &["turns", "seed"])?;
    let turns: usize = arguments.number("turns")?.unwrap_or(LENGTHS.len());
    let seed: u64 = arguments.number("seed")?.unwrap_or(1);
    println!("{PAGES} pages; each of {turns} turns takes {TURN_PAGES} in runs of one length, {LENGTHS:?} in turn,");
    println!("and gives them back in any order, but for one in {STAY}, which stays until the next turn's end");
    println!(
        "| holes that touch | spans | from holes | from the frontier | none | holes left | pages in them | frontier |"
    );
    println!("|---|---|---|---|---|---|---|---|");
    let [_, joined] = [("stay apart", Rules::Apart), ("become one", Rules::Amended)].map(|(name, rules)| {
        let mut reference = Reference::open_with(PAGES, &[], rules);
        let told = fill(turns, seed, |call| reference.answer(call));
        let ((holes, pages), below) = (reference.holes(), reference.frontier());
        let [from_holes, fresh, none] = told.spans;
        println!(
            "| {name} | {} | {from_holes} | {fresh} | {none} | {holes} | {pages} | {below} |",
            from_holes + fresh + none
        );
        told
    });
    let (mut book, mut room) = (vec![0; book_words(PAGES)], Room::new(Fence::Back));
    assert_eq!(port::open(&mut book, u64::from(PAGES)), 0, "an arena of {PAGES} pages opens");
    let same = fill(turns, seed, |call| port::ask(&mut book, &mut room, call)) == joined;
    println!("{} calls; the port answers {} the second", joined.answers.len(), if same { "as" } else { "NOT as" });
    Ok(same)
}

#[derive(Default, PartialEq, Eq)]
struct Told {
    /// Spans from holes, from the frontier, and those that found no place.
    spans: [usize; 3],
    answers: Vec<Answer>,
}

/// The runs of a fill, asked of whatever answers.
fn fill(turns: usize, seed: u64, mut ask: impl FnMut(&Call) -> Answer) -> Told {
    let mut random = Random::new(seed);
    let (mut told, mut stayed) = (Told::default(), Vec::new());
    for pages in LENGTHS.into_iter().cycle().take(turns) {
        let mut runs = Vec::new();
        for _ in 0..TURN_PAGES / pages {
            let answer = ask(&Call::Commit { host: HOST_ALL, pages });
            let source = match answer {
                Answer::Run { first, fresh } => {
                    runs.push((u64::from(first), pages));
                    usize::from(fresh)
                }
                _ => 2,
            };
            told.spans[source] += usize::from(pages > 1);
            told.answers.push(answer);
        }
        random.shuffle(&mut runs);
        let stay = runs.split_off(runs.len() - runs.len() / STAY);
        for (first, pages) in runs.into_iter().chain(std::mem::replace(&mut stayed, stay)) {
            told.answers.push(ask(&Call::Release { host: HOST_ALL, first, pages }));
        }
    }
    told
}
