//! The search: the open slot with the fewest words that fit goes first, its most promising words first. It goes on after a
//! fill, for a better one, and turns back where no word fits or none could make a better fill. It goes in rounds: in the
//! first a choice tries two words, in each further round one more, so that early choices are not stuck with for long.
//!
//! Each open slot has a record of the words that still fit into it, each choice one of its candidates and their scores. A
//! word that is placed narrows the slots that it crosses: they get new records, which are freed as the search turns back.

use std::ops::ControlFlow;

use super::bits::Bits;
use super::blocks::Class;
use super::candidates::{self, Candidate};
use super::grid::{Crossing, Grid};
use super::history::{History, Sample};
use super::index::Index;
use super::pages::Pages;
use super::store::{Record, Store};
use super::words::{Word, Words};
use super::Outcome;

/// A fill of the grid.
pub struct Fill {
    pub score: u32,
    /// By square, # for a block.
    pub letters: Vec<u8>,
}

/// Why the search came to an end.
#[derive(Clone, Copy, PartialEq, Eq, Debug)]
pub enum Stop {
    /// Everything was tried or could not make a better fill.
    Tried,
    Turns,
    Full,
}

/// How far the search is.
pub struct Progress {
    pub turns: usize,
    pub standing: usize,
    pub best: Option<u32>,
    pub blocks_out: usize,
}

/// The words that still fit into a slot.
#[derive(Clone, Copy)]
struct Domain {
    /// Their numbers, a bit each. Words have their numbers by score, the best first.
    record: Record,
    count: usize,
    /// The best word's score.
    best: u32,
}

pub struct Search<'a> {
    grid: &'a Grid,
    words: &'a Words,
    index: Index,
    /// By slot.
    domains: Vec<Domain>,
    /// By slot: the number of its word.
    standing: Vec<Option<usize>>,
    /// The best fill so far. Its room is there from the start, so that it is kept however full the arena gets.
    best: Record,
    best_score: Option<u32>,
    fills: usize,
    history: History,
    turns: usize,
    /// How many words a choice tries in this round, and whether one had more.
    tries: usize,
    cut_short: bool,
}

/// Whether the search goes on, or why not and with which pages.
type Flow = ControlFlow<(Stop, Pages)>;

/// Takes the value out, or says that there was no room for it.
macro_rules! or_full {
    ($value:expr) => {
        match $value {
            Some(value) => value,
            None => return Ok(None),
        }
    };
}

impl<'a> Search<'a> {
    /// None if the arena has no room for what the search needs from the start.
    pub fn new(grid: &'a Grid, words: &'a Words, store: &mut Store) -> Outcome<Option<Search<'a>>> {
        let index = or_full!(Index::new(grid, words, store)?);
        let best = or_full!(store.put(&vec![b'#'; grid.squares()])?);
        let history = or_full!(History::new(store)?);
        let mut domains = Vec::new();
        for slot in grid.slots() {
            let list = words.of_length(slot.len());
            let mut bits = Bits::below(list.len());
            for (place, letter) in grid.set_in(slot) {
                bits.keep(index.row(store, slot.len(), place, letter)?);
            }
            domains.push(or_full!(domain(store, list, &bits)?));
        }
        let standing = vec![None; domains.len()];
        Ok(Some(Search {
            grid,
            words,
            index,
            domains,
            standing,
            best,
            best_score: None,
            fills: 0,
            history,
            turns: 0,
            tries: 0,
            cut_short: false,
        }))
    }

    /// The class of most of its records: the words that still fit into a slot, of which a length has the most.
    pub fn class(grid: &Grid, words: &Words) -> Option<Class> {
        let lists = grid.slots().iter().map(|slot| words.of_length(slot.len()).len());
        Class::for_size(Bits::bytes_for(lists.max()?))
    }

    /// Searches until it has turned back so many times, tried everything or has no room left. Answers why it came to an
    /// end, and the pages as they were then.
    pub fn run(&mut self, store: &mut Store, turns: usize, watch: &mut dyn FnMut(&Progress)) -> Outcome<(Stop, Pages)> {
        let mut limit = Limit { turns, watch };
        for tries in 2.. {
            (self.tries, self.cut_short) = (tries, false);
            if let ControlFlow::Break(end) = self.descend(store, 0, &mut limit)? {
                return Ok(end);
            }
            if !self.cut_short {
                break;
            }
        }
        Ok((Stop::Tried, store.pages()?))
    }

    /// Fills the open slots as well as it can, and leaves them as they were.
    fn descend(&mut self, store: &mut Store, score: u32, limit: &mut Limit) -> Outcome<Flow> {
        let fewest = self.open().min_by_key(|&slot| self.domains[slot].count);
        let flow = match fewest {
            Some(slot) => self.fill_slot(store, score, slot, limit)?,
            None => self.keep_fill(store, score)?,
        };
        match flow {
            ControlFlow::Continue(()) => self.turn_back(store, limit),
            ControlFlow::Break(end) => Ok(ControlFlow::Break(end)),
        }
    }

    /// The slots that have no word.
    fn open(&self) -> impl Iterator<Item = usize> + '_ {
        (0..self.standing.len()).filter(|&slot| self.standing[slot].is_none())
    }

    fn fill_slot(&mut self, store: &mut Store, score: u32, slot: usize, limit: &mut Limit) -> Outcome<Flow> {
        let candidates = self.candidates(store, score, slot)?;
        if candidates.is_empty() {
            return Ok(ControlFlow::Continue(()));
        }
        let Some(record) = store.put(&candidates::to_bytes(candidates))? else {
            return stop(store, Stop::Full);
        };
        let flow = self.try_each(store, score, (slot, record), limit)?;
        store.free(record)?;
        Ok(flow)
    }

    /// Tries the candidates of a record one after the other, until none could make a better fill.
    fn try_each(
        &mut self,
        store: &mut Store,
        score: u32,
        (slot, record): (usize, Record),
        limit: &mut Limit,
    ) -> Outcome<Flow> {
        for (place, tried) in candidates::places(record.bytes()).zip(0..) {
            let candidate = candidates::from_bytes(store.get(record, place)?);
            if !self.is_better(candidate.at_most) {
                break;
            }
            if tried == self.tries {
                self.cut_short = true;
                break;
            }
            let flow = self.try_word(store, score, (slot, candidate.number), limit)?;
            if flow.is_break() {
                return Ok(flow);
            }
        }
        Ok(ControlFlow::Continue(()))
    }

    /// Goes on with a word in its slot, and takes it out again.
    fn try_word(
        &mut self,
        store: &mut Store,
        score: u32,
        (slot, number): (usize, usize),
        limit: &mut Limit,
    ) -> Outcome<Flow> {
        let word = &self.list(slot)[number];
        self.standing[slot] = Some(number);
        let mut before = Vec::new();
        let flow = if self.narrow(store, slot, &word.letters, &mut before)? {
            self.descend(store, score + u32::from(word.score), limit)?
        } else {
            stop(store, Stop::Full)?
        };
        for (other, domain) in before {
            let narrowed = std::mem::replace(&mut self.domains[other], domain);
            store.free(narrowed.record)?;
        }
        self.standing[slot] = None;
        Ok(flow)
    }

    /// The words that fit into a slot, do not stand elsewhere and could make a better fill.
    fn candidates(&self, store: &Store, score: u32, slot: usize) -> Outcome<Vec<Candidate>> {
        let crossings: Vec<&Crossing> = self.open_crossings(slot).collect();
        let ahead = crossings.iter().map(|crossing| self.ahead(store, crossing)).collect::<Outcome<Vec<_>>>()?;
        let elsewhere = self.open().filter(|&other| other != slot && crossings.iter().all(|it| it.other != other));
        let score: u32 = score + elsewhere.map(|other| self.domains[other].best).sum::<u32>();
        let bits = Bits::from_bytes(store.get(self.domains[slot].record, 0..self.domains[slot].record.bytes())?);
        let at_most = |number: usize| {
            let Word { letters, score: own } = &self.list(slot)[number];
            let crossed = crossings.iter().zip(&ahead).map(|(it, best)| best[usize::from(letters[it.here] - b'a')]);
            Some(score + u32::from(*own) + crossed.sum::<Option<u32>>()?)
        };
        let fitting = bits.numbers().filter(|&number| !self.stands(slot, number));
        let candidates = fitting.filter_map(|number| Some(Candidate { number, at_most: at_most(number)? }));
        Ok(candidates.filter(|candidate| self.is_better(candidate.at_most)).collect())
    }

    /// For each letter at a crossing the best score of a word that the other slot could have then.
    fn ahead(&self, store: &Store, crossing: &Crossing) -> Outcome<Vec<Option<u32>>> {
        let (domain, list) = (self.domains[crossing.other], self.list(crossing.other));
        let bits = Bits::from_bytes(store.get(domain.record, 0..domain.record.bytes())?);
        let rows = self.index.rows(store, self.grid.slots()[crossing.other].len(), crossing.there)?;
        Ok(rows.map(|row| bits.first_in(row).map(|number| u32::from(list[number].score))).collect())
    }

    /// Narrows the open slots that a word crosses. The former domains are added to a list; no if there is no room.
    fn narrow(
        &mut self,
        store: &mut Store,
        slot: usize,
        letters: &[u8],
        before: &mut Vec<(usize, Domain)>,
    ) -> Outcome<bool> {
        let crossings: Vec<Crossing> = self.open_crossings(slot).copied().collect();
        for Crossing { here, other, there } in crossings {
            let old = self.domains[other];
            let mut bits = Bits::from_bytes(store.get(old.record, 0..old.record.bytes())?);
            bits.keep(self.index.row(store, self.grid.slots()[other].len(), there, letters[here])?);
            let Some(new) = domain(store, self.list(other), &bits)? else {
                return Ok(false);
            };
            self.domains[other] = new;
            before.push((other, old));
        }
        Ok(true)
    }

    fn open_crossings(&self, slot: usize) -> impl Iterator<Item = &'a Crossing> + '_ {
        self.grid.crossings(slot).iter().filter(|crossing| self.standing[crossing.other].is_none())
    }

    /// The words of a slot's length.
    fn list(&self, slot: usize) -> &'a [Word] {
        self.words.of_length(self.grid.slots()[slot].len())
    }

    /// Whether a word of a slot's length stands somewhere.
    fn stands(&self, slot: usize, number: usize) -> bool {
        let length = |slot: usize| self.grid.slots()[slot].len();
        (0..self.standing.len()).any(|other| self.standing[other] == Some(number) && length(other) == length(slot))
    }

    fn is_better(&self, score: u32) -> bool {
        self.best_score.is_none_or(|best| score > best)
    }

    /// Keeps a fill if it is better than all before.
    fn keep_fill(&mut self, store: &mut Store, score: u32) -> Outcome<Flow> {
        self.fills += 1;
        if self.is_better(score) {
            store.set(self.best, &self.letters())?;
            self.best_score = Some(score);
        }
        Ok(ControlFlow::Continue(()))
    }

    fn letters(&self) -> Vec<u8> {
        let mut letters = self.grid.set();
        for (slot, number) in self.standing.iter().enumerate() {
            let word = number.map(|number| &self.list(slot)[number].letters);
            for (&square, &letter) in self.grid.slots()[slot].iter().zip(word.into_iter().flatten()) {
                letters[square] = letter;
            }
        }
        letters
    }

    fn turn_back(&mut self, store: &mut Store, limit: &mut Limit) -> Outcome<Flow> {
        self.turns += 1;
        let standing = self.standing.iter().flatten().count();
        self.history.note(store, self.turns, standing)?;
        let (turns, best) = (self.turns, self.best_score);
        (limit.watch)(&Progress { turns, standing, best, blocks_out: store.tally().out });
        if turns < limit.turns {
            Ok(ControlFlow::Continue(()))
        } else {
            stop(store, Stop::Turns)
        }
    }

    pub fn turns(&self) -> usize {
        self.turns
    }

    /// How many fills were found.
    pub fn fills(&self) -> usize {
        self.fills
    }

    pub fn best(&self, store: &Store) -> Outcome<Option<Fill>> {
        let letters = store.get(self.best, 0..self.best.bytes())?.to_vec();
        Ok(self.best_score.map(|score| Fill { score, letters }))
    }

    pub fn history(&self, store: &Store) -> Outcome<Vec<Sample>> {
        self.history.samples(store)
    }

    /// Gives back all that the search has kept.
    pub fn release(self, store: &mut Store) -> Outcome<()> {
        for domain in self.domains {
            store.free(domain.record)?;
        }
        store.free(self.best)?;
        self.index.release(store)?;
        self.history.release(store)
    }
}

/// When to stop, and whom to tell how far it is.
struct Limit<'a> {
    turns: usize,
    watch: &'a mut dyn FnMut(&Progress),
}

/// Breaks the search off, while all its records are there.
fn stop(store: &Store, stop: Stop) -> Outcome<Flow> {
    Ok(ControlFlow::Break((stop, store.pages()?)))
}

/// A record of the words that fit; none if there is no room for it.
fn domain(store: &mut Store, list: &[Word], bits: &Bits) -> Outcome<Option<Domain>> {
    let best = bits.numbers().next().map_or(0, |number| u32::from(list[number].score));
    let record = store.put(&bits.to_bytes())?;
    Ok(record.map(|record| Domain { record, count: bits.count(), best }))
}
