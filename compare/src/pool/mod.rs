//! The pool's calls (docs/CALLS.md, "The pool") on the port, alone or mixed with all others (`mixed.rs`), against a plain pool over the
//! original's takes and releases (`stocks.rs`, `reference.rs`). The original has no pool: its heaps stand twice over one arena, once for
//! the heap's classes and once for the pool's.
//!
//! Each call is made on two equal books, but one that is due to be refused on the first alone: so what it leaves is compared, word by
//! word, with what stood there.

mod apart;
pub mod crossed;
mod events;
pub mod mixed;
mod scenarios;
pub mod wrong;

use std::ops::Range;

pub use self::apart::Apart;
pub use self::scenarios::{plan, Scenario, SCENARIOS};
use crate::arguments::Arguments;
use crate::call::{Answer, Call};
use crate::history::{self, History};
use crate::memory::{Fence, Reserved};
use crate::plan::Plan;
use crate::port::{self, Room};
use crate::progress::Progress;
use crate::random::Random;
use crate::reference::Reference;
use crate::run::Difference;
use crate::shrink::shrink;
use crate::tally::Tally;
use crate::words::{book_words, MAX_PAGES};

/// Random histories of one of the scenarios, each compared call by call.
pub fn run(words: &[String], scenarios: &[Scenario]) -> Result<bool, String> {
    let arguments = Arguments::read(words, &["calls", "seed", "scenario"])?;
    let calls: u64 = arguments.number("calls")?.unwrap_or(1_000_000);
    let scenario = arguments.text("scenario");
    if scenario.is_some_and(|name| scenarios.iter().all(|known| known.name != name)) {
        let names: Vec<&str> = scenarios.iter().map(|known| known.name).collect();
        return Err(format!("the scenarios are: {}", names.join(", ")));
    }
    let mut random = Random::new(arguments.number("seed")?.unwrap_or(1));
    let (mut books, mut tally, mut progress) = (Books::new(), Tally::default(), Progress::begin());
    let (mut ruled, mut refused) = (0, 0);
    while tally.calls() < calls {
        let plan = plan(&mut random, scenarios, scenario);
        tally.begin(plan.scenario);
        let before = tally.calls();
        let found = compare(&plan, &mut books, |call, answer, reference, happened| {
            tally.count(call, answer);
            tally.count_holes(reference);
            happened.into_iter().flatten().for_each(|event| tally.event(event));
            refused += u64::from(matches!(answer, Answer::Refused(_)));
        });
        ruled += if plan.rows.is_empty() { 0 } else { tally.calls() - before };
        if let Some(difference) = found {
            println!("{tally}\n1 difference, in a history of {} steps ({}):", plan.steps.len(), plan.scenario);
            print_smallest(&plan, difference, &mut books);
            return Ok(false);
        }
        progress.show(tally.calls(), calls, "calls");
    }
    println!("{tally}");
    println!("  {ruled} calls on heaps with parking rules of their own");
    println!("  {refused} refused calls, after which every word of the book was as before");
    println!("{:.1} s\n0 differences", progress.seconds());
    Ok(true)
}

/// Two books of every history, with whatever the one before left in them.
struct Books {
    words: [Reserved; 2],
    room: Room,
}

/// The longest arena all of whose words are compared and overwritten, and the pages at the end of a longer one that are.
const WHOLE: u32 = 1_024;
const LOOKED_AT: u32 = 512;

impl Books {
    fn new() -> Books {
        let words = || Reserved::new(book_words(MAX_PAGES));
        Books { words: [words(), words()], room: Room::new(Fence::Back) }
    }

    /// Two equal books of just the length that is asked for, with the same words in them: anything, or what is left of the history before.
    fn soiled(&mut self, plan: &Plan) -> ([&mut [u32]; 2], &mut Room) {
        let chance = plan.steps.last().map_or(0, |step| step.chance);
        let [one, other] = &mut self.words;
        let [one, other] = [one, other].map(|book| &mut book.words_mut()[..book_words(plan.pages)]);
        for part in looked_at(plan.pages) {
            let mut random = Random::new(chance);
            match chance % 4 {
                0 => one[part.clone()].fill(chance as u32),
                1 => one[part.clone()].iter_mut().for_each(|word| *word = random.word() as u32),
                2 => one[part.clone()].fill(0),
                _ => {}
            }
            other[part.clone()].copy_from_slice(&one[part]);
        }
        ([one, other], &mut self.room)
    }
}

/// All words of a short book, those of a long one that are no page's, and its last pages': histories on a long arena keep to these.
fn looked_at(pages: u32) -> [Range<usize>; 2] {
    // Who holds a page stands in the record of the first of 256.
    let first = if pages <= WHOLE { 0 } else { (pages - LOOKED_AT) / 256 * 256 };
    [0..book_words(1.min(first)), book_words(first)..book_words(pages)]
}

fn same(one: &[u32], other: &[u32], pages: u32) -> Result<(), String> {
    for part in looked_at(pages) {
        if one[part.clone()] != other[part.clone()] {
            let at = part.clone().find(|&at| one[at] != other[at]).unwrap_or(part.start);
            return Err(format!("word {at} of the book is {} and not {}", one[at], other[at]));
        }
    }
    Ok(())
}

/// Runs a plan on the plain pool and on the port; tells `seen` each call that was compared, with what happened at it.
fn compare(
    plan: &Plan,
    books: &mut Books,
    mut seen: impl FnMut(&Call, &Answer, &Reference, [Option<&'static str>; 3]),
) -> Option<Difference> {
    let mut reference = Reference::open(plan.pages, &plan.rows);
    let ([one, other], room) = books.soiled(plan);
    for book in [&mut *one, &mut *other] {
        assert_eq!(port::open_with(book, u64::from(plan.pages), &plan.rows), 0, "{} pages open", plan.pages);
    }
    let mut apart = Apart::new(plan.pages);
    for (step, wanted) in plan.steps.iter().enumerate() {
        let Some(call) = wanted.call(&reference.ledger, reference.frontier()) else { continue };
        let due = reference.answer(&call);
        let got = port::ask(one, room, &call);
        let checked = match &due {
            _ if got != due => Err(got),
            Answer::Refused(number) => {
                let what = |what| Answer::Broken(format!("refused as {number}, and {what}"));
                same(one, other, plan.pages).map_err(what)
            }
            _ => again(other, room, &call, &due).and_then(|()| apart.note(&call, &due)).map_err(Answer::Broken),
        };
        if let Err(got) = checked {
            return Some(Difference { step, call, due, got });
        }
        // A refused call leaves the ledger as it was.
        let fault = match due {
            Answer::Refused(number) => events::fault(&reference.ledger, &call, number),
            _ => None,
        };
        let happened =
            [fault, events::happened(&call, &due, &reference), events::found(&call, &due, &reference.ledger)];
        seen(&call, &due, &reference, happened);
    }
    let end = same(one, other, plan.pages).map_err(|what| format!("equal calls leave different books: {what}"));
    let last = |what| Difference {
        step: plan.steps.len() - 1,
        call: Call::Report,
        due: reference.answer(&Call::Report),
        got: Answer::Broken(what),
    };
    end.err().map(last)
}

/// The same call on the other book answers the same.
fn again(book: &mut [u32], room: &mut Room, call: &Call, due: &Answer) -> Result<(), String> {
    let got = port::ask(book, room, call);
    if got == *due {
        return Ok(());
    }
    Err(format!("on an equal book: {}", history::line(call, &got)))
}

/// Prints the failing history, made as small as it goes, with the answers that are due and the port's last one.
fn print_smallest(plan: &Plan, found: Difference, books: &mut Books) {
    let small = shrink(plan, |plan| compare(plan, books, |_, _, _, _| {}).map(|difference| difference.step));
    let mut calls = Vec::new();
    let last = compare(&small, books, |call, due, _, _| calls.push((call.clone(), due.clone()))).unwrap_or(found);
    calls.push((last.call.clone(), last.due));
    print!("{}", History { pages: small.pages, rows: small.rows, calls }.text());
    println!("# the port answers:\n# {}", history::line(&last.call, &last.got));
}
