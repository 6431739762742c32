//! A plan run on the original and on the port, call by call; and again on the original as it is, as far as document 02 lets
//! the two agree.

use crate::call::{Answer, Call, Due, Kind};
use crate::memory::{Fence, Reserved};
use crate::oracle::rules::{self, Rules};
use crate::plan::Plan;
use crate::port::{self, Room};
use crate::reference::Reference;
use crate::words::{book_words, MAX_PAGES};

/// The first call on which the port differs.
#[derive(Debug)]
pub struct Difference {
    /// Place of the step in the plan.
    pub step: usize,
    pub call: Call,
    pub due: Answer,
    pub got: Answer,
}

/// The book of every history, with whatever the one before left in it, and the room for lists.
pub struct Book {
    words: Reserved,
    room: Room,
}

/// Pages whose words are overwritten before each history.
const SOILED_PAGES: u32 = 8;

impl Book {
    pub fn new() -> Book {
        Book { words: Reserved::new(book_words(MAX_PAGES)), room: Room::new(Fence::Back) }
    }

    /// All words are 0.
    pub fn clear(&mut self) {
        self.words.forget();
    }

    /// A book of just the length that is asked for, its first words full of one content: an opening must not care.
    fn soiled(&mut self, pages: u32, content: u32) -> (&mut [u32], &mut Room) {
        let book = &mut self.words.words_mut()[..book_words(pages)];
        book[..book_words(pages.min(SOILED_PAGES))].fill(content);
        (book, &mut self.room)
    }
}

/// Content of the book before a history, told from its steps so that it is the same when the history is run again.
fn soil(plan: &Plan) -> u32 {
    let chance = plan.steps.last().map_or(0, |step| step.chance);
    [0, u32::MAX, chance as u32, 1 + (chance as u32 & 0xFF)][(chance >> 32) as usize % 4]
}

/// Runs a plan on both; tells `seen` each call that was compared.
pub fn compare(plan: &Plan, book: &mut Book, mut seen: impl FnMut(&Call, &Answer, &Reference)) -> Option<Difference> {
    let mut reference = Reference::open(plan.pages, &plan.rows);
    let (book, room) = book.soiled(plan.pages, soil(plan));
    let opened = port::open_with(book, u64::from(plan.pages), &plan.rows);
    assert!(opened == 0, "an opening of {} pages is refused as {opened}", plan.pages);
    for (step, wanted) in plan.steps.iter().enumerate() {
        let Some(call) = wanted.call(&reference.ledger, reference.frontier()) else { continue };
        let due = reference.answer(&call);
        let got = port::ask(book, room, &call);
        if got != due {
            return Some(Difference { step, call, due, got });
        }
        seen(&call, &due, &reference);
    }
    None
}

/// Asks the original as it is the calls of a history without rows, with the answers that are due, up to the first at which document 02's
/// rule does something else. How many calls were compared, and the first that differs.
pub fn compare_plain(pages: u32, calls: &[Due]) -> (u64, Option<Difference>) {
    let mut reference = Reference::open_with(pages, &[], Rules::Watched);
    let mut compared = 0;
    for (step, (call, due)) in calls.iter().enumerate() {
        let got = reference.answer(call);
        if rules::departed() {
            break;
        }
        if got != *due {
            return (compared, Some(Difference { step, call: call.clone(), due: due.clone(), got }));
        }
        compared += 1;
    }
    (compared, None)
}

/// The judge's answers to the calls of a history.
pub fn answered(pages: u32, rows: &[u32], calls: Vec<Call>) -> Vec<Due> {
    let mut reference = Reference::open(pages, rows);
    calls.into_iter().map(|call| (call.clone(), reference.answer(&call))).collect()
}

/// Runs a plan on the original alone, leaving out what is not asked.
pub fn record(plan: &Plan, asked: impl Fn(Kind) -> bool) -> Vec<Due> {
    record_by(Rules::Amended, plan, asked)
}

pub fn record_by(rules: Rules, plan: &Plan, asked: impl Fn(Kind) -> bool) -> Vec<Due> {
    let mut reference = Reference::open_with(plan.pages, &plan.rows, rules);
    let mut history = Vec::new();
    for wanted in &plan.steps {
        let Some(call) = wanted.call(&reference.ledger, reference.frontier()) else { continue };
        if asked(call.kind()) {
            let due = reference.answer(&call);
            history.push((call, due));
        }
    }
    history
}
