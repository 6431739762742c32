//! One history on the original, with document 02's parts in it or without them: its answers, with the numbers of refused calls and the pages held from the ledger.

use crate::call::{Answer, Call, Look, PoolRequest};
use crate::ledger::{pool_id, Ledger};
use crate::oracle::rules::Rules;
use crate::oracle::Original;
use crate::planned::{family, CLASSES};
use crate::words::{Owner, Word};

pub struct Reference {
    original: Original,
    pub ledger: Ledger,
    /// What was answered to the take or release of the pool's class that the last call of the pool made, if it made one.
    pub heap: Option<Answer>,
}

impl Reference {
    /// By document 02's rules. The rows of the opening are not refused.
    pub fn open(pages: u32, rows: &[u32]) -> Reference {
        Reference::open_with(pages, rows, Rules::Amended)
    }

    pub fn open_with(pages: u32, rows: &[u32], rules: Rules) -> Reference {
        Reference { original: Original::open(pages, rows, rules), ledger: Ledger::new(pages), heap: None }
    }

    /// Pages below the frontier.
    pub fn frontier(&self) -> u32 {
        self.original.frontier()
    }

    /// Stored holes and their pages together.
    pub fn holes(&self) -> (usize, u32) {
        (self.original.holes(), self.original.hole_pages())
    }

    /// The answer that is due. A refused call is not passed on to the original.
    pub fn answer(&mut self, call: &Call) -> Answer {
        if let Some(number) = self.ledger.refusal(call) {
            return Answer::Refused(number);
        }
        let answer = self.ask(call);
        let original = &self.original;
        self.ledger.note(call, &answer, |family, word| original.run_of(family, word));
        answer
    }

    fn ask(&mut self, call: &Call) -> Answer {
        if let Call::Pool { request, class, host } = *call {
            return self.pool(request, class, host);
        }
        let original = &mut self.original;
        match call {
            Call::Take { family, class, host, .. } => {
                let (words, virgin) = original.take_blocks(Owner::Heap, *family, *class, *host);
                Answer::Taken { virgin, words }
            }
            Call::ReleaseBlocks { family, class, host, list } => {
                Answer::Fate(original.release_blocks(Owner::Heap, *family, *class, *host, list))
            }
            Call::ReleaseChunks { class, host, list, chunks, .. } => {
                Answer::Fates(original.release_bin_chunks(*class, *host, list, chunks))
            }
            Call::Commit { host, pages } => match original.commit(*host, *pages) {
                Some((first, fresh)) => Answer::Run { first, fresh },
                None => Answer::NoRun,
            },
            Call::Grow { host, first, old, new } => Answer::Grown(original.grow_frontier(*host, *first, *old, *new)),
            Call::Release { host, first, pages } => {
                original.release(*host, *first, *pages);
                Answer::Released
            }
            Call::Contains { offset, length } => Answer::Contains(original.contains(*offset, *length)),
            Call::Report => {
                let [commits, reuses, abandoned] = original.counts();
                let (held, idle) = (self.ledger.held(), original.idle_pages());
                Answer::Report([commits, reuses, abandoned, held, idle, original.parked_pages()])
            }
            Call::Look(look) => Answer::Told(self.look(*look)),
            Call::Pool { .. } => unreachable!("answered above"),
        }
    }

    fn look(&self, look: Look) -> u32 {
        let stocks = &self.ledger.stocks;
        match look {
            Look::ClassOf(block) => self.ledger.class_of(block),
            Look::Granted { class, .. } | Look::Stocked { class } if class >= CLASSES => 0,
            Look::Granted { class, block } => u32::from(stocks.granted(class).contains(&block)),
            Look::Stocked { class } => stocks.stock(class).len() as u32,
        }
    }

    /// The pool's calls, over takes and releases of its own classes by the original. A free's block is granted in the class.
    fn pool(&mut self, request: PoolRequest, class: u32, host: u32) -> Answer {
        self.heap = None;
        match request {
            PoolRequest::Alloc => match self.ledger.stocks.pop(class) {
                Some(word) => Answer::Block(word),
                None => {
                    let mut words = self.taken(class, host);
                    let granted = words.pop();
                    self.ledger.stocks.fill(class, words);
                    Answer::Block(granted.unwrap_or(0))
                }
            },
            PoolRequest::Free(word) => {
                if !self.ledger.stocks.push(class, word) {
                    self.give_back(class, host, word);
                }
                Answer::Freed
            }
            PoolRequest::Trim => match self.ledger.stocks.pop(class) {
                Some(word) => {
                    self.give_back(class, host, word);
                    Answer::Block(word)
                }
                None => Answer::Block(0),
            },
        }
    }

    fn taken(&mut self, class: u32, host: u32) -> Vec<Word> {
        let (family, number) = family(class);
        let (words, virgin) = self.original.take_blocks(Owner::Pool, family, number, host);
        let original = &self.original;
        self.ledger.note_taken(pool_id(class), &words, |word| original.run_of(family, word));
        self.heap = Some(Answer::Taken { virgin, words: words.clone() });
        words
    }

    fn give_back(&mut self, class: u32, host: u32, word: Word) {
        let (family, number) = family(class);
        assert_eq!(self.ledger.count_out(pool_id(class), &[word]), 1, "the pool gives back what is out in its class");
        let fate = self.original.release_blocks(Owner::Pool, family, number, host, &[word]);
        self.ledger.note_released(pool_id(class), &[word], fate);
        self.heap = Some(Answer::Fate(fate));
    }
}
