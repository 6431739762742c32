//! Two equal books, one against an unmapped page at its end and one at its front, and what they were before a call.

use super::damage::Damage;
use crate::call::{Answer, Call};
use crate::history;
use crate::memory::{Fence, Fenced};
use crate::port::{self, Room};

/// A book and the lists' room, all against unmapped pages on the same side.
struct Side {
    book: Fenced<u32>,
    room: Room,
}

pub struct Twins {
    front: Side,
    back: Side,
    before: Vec<u32>,
}

impl Twins {
    pub fn new(words: usize, content: u32) -> Twins {
        let side = |fence| {
            let mut book = Fenced::new(words, fence);
            book.words_mut().fill(content);
            Side { book, room: Room::new(fence) }
        };
        Twins { front: side(Fence::Front), back: side(Fence::Back), before: vec![content; words] }
    }

    pub fn len(&self) -> usize {
        self.before.len()
    }

    pub fn words(&self) -> &[u32] {
        &self.before
    }

    /// Overwrites one word of both books.
    pub fn put(&mut self, at: usize, word: u32) {
        self.front.book.words_mut()[at] = word;
        self.back.book.words_mut()[at] = word;
        self.before[at] = word;
    }

    /// Both books hold these words.
    pub fn restore(&mut self, words: &[u32]) {
        self.front.book.words_mut().copy_from_slice(words);
        self.back.book.words_mut().copy_from_slice(words);
        self.before.copy_from_slice(words);
    }

    pub fn open(&mut self, pages: u64, rows: &[u32], due: u32) -> Result<(), String> {
        let numbers = [&mut self.front, &mut self.back].map(|side| {
            let lent = side.room.lend_rows(rows);
            port::open_with(side.book.words_mut(), pages, lent)
        });
        if numbers != [due, due] {
            return Err(format!("an opening of {pages} pages with {rows:?} answers {numbers:?}, not {due} both times"));
        }
        self.same(due != 0).map_err(|what| format!("an opening of {pages} pages with {rows:?}: {what}"))?;
        self.before.copy_from_slice(self.front.book.words());
        Ok(())
    }

    /// The answer, the same on both books; `changes` is told where they changed.
    pub fn ask(&mut self, call: &Call, changes: &mut Damage) -> Result<Answer, String> {
        let [front, back] =
            [&mut self.front, &mut self.back].map(|side| port::ask(side.book.words_mut(), &mut side.room, call));
        if front != back {
            let lines = [front, back].map(|answer| history::line(call, &answer));
            return Err(format!("equal calls on equal books answer differently:\n{}\n{}", lines[0], lines[1]));
        }
        if let Answer::Broken(_) = front {
            return Err(history::line(call, &front));
        }
        let reads = matches!(call, Call::Contains { .. } | Call::Report | Call::Look(_));
        let unchanged = reads || matches!(front, Answer::Refused(_));
        self.same(unchanged).map_err(|what| format!("{what}: {}", history::line(call, &front)))?;
        if !unchanged {
            self.take_over(changes);
        }
        Ok(front)
    }

    /// The books are equal, and as before if they must not change.
    fn same(&self, unchanged: bool) -> Result<(), &'static str> {
        let (front, back) = (self.front.book.words(), self.back.book.words());
        if unchanged && (front != self.before || back != self.before) {
            return Err("the book has changed, though nothing may");
        }
        if front != back {
            return Err("equal calls on equal books leave different books");
        }
        Ok(())
    }

    /// What the books hold now is what they held before the next call.
    fn take_over(&mut self, changes: &mut Damage) {
        const STRETCH: usize = 256;
        let now = self.front.book.words().chunks(STRETCH);
        for (number, (before, now)) in self.before.chunks_mut(STRETCH).zip(now).enumerate() {
            if before != now {
                let changed = (0..now.len()).filter(|&at| before[at] != now[at]);
                changed.for_each(|at| changes.saw(number * STRETCH + at));
                before.copy_from_slice(now);
            }
        }
    }
}
