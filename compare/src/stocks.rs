//! The pool, plainly (docs/CALLS.md, "The pool"): of each class the blocks in stock and the granted ones, each a list.

use std::collections::VecDeque;

use crate::oracle;
use crate::planned::{family, CLASSES};
use crate::words::{kind_of, Word};

/// Bytes of blocks that a free lets a stock hold, and how many at least and at most.
const STOCK_BYTES: usize = 262_144;
const STOCK_LEAST: usize = 8;
const STOCK_LIMIT: usize = 255;

/// So many of the blocks that were given back are known.
pub const KNOWN: usize = 400;

/// A block that is out of the heap and that nobody has.
#[derive(Clone, Copy, PartialEq, Eq, Debug)]
pub struct Stocked {
    pub word: Word,
    /// A free brought it, and no take.
    pub freed: bool,
}

pub struct Stocks {
    /// By class; the last is granted next.
    stock: Vec<Vec<Stocked>>,
    /// By class, in the order of granting.
    granted: Vec<Vec<Word>>,
    /// Granted once, with their class: freed, or trimmed since.
    gone: VecDeque<(u32, Word)>,
}

/// How many blocks a free lets a class's stock hold.
pub fn stock_most(class: u32) -> usize {
    let (family, number) = family(class);
    (STOCK_BYTES / oracle::block_bytes(family, number)).clamp(STOCK_LEAST, STOCK_LIMIT)
}

impl Stocks {
    pub fn new() -> Stocks {
        let none = || vec![Vec::new(); CLASSES as usize];
        Stocks { stock: vec![Vec::new(); CLASSES as usize], granted: none(), gone: VecDeque::new() }
    }

    pub fn stock(&self, class: u32) -> &[Stocked] {
        &self.stock[class as usize]
    }

    /// Whether the block is in a class's stock.
    pub fn has(&self, class: u32, word: Word) -> bool {
        self.stock(class).iter().any(|stocked| stocked.word == word)
    }

    pub fn granted(&self, class: u32) -> &[Word] {
        &self.granted[class as usize]
    }

    pub fn gone(&self) -> &VecDeque<(u32, Word)> {
        &self.gone
    }

    /// The next to be granted leaves the stock.
    pub fn pop(&mut self, class: u32) -> Option<Word> {
        self.stock[class as usize].pop().map(|stocked| stocked.word)
    }

    /// A take's blocks, but the one that it grants, are the stock.
    pub fn fill(&mut self, class: u32, words: Vec<Word>) {
        assert!(self.stock[class as usize].is_empty(), "a take is made for an empty stock alone");
        self.stock[class as usize] = words.into_iter().map(|word| Stocked { word, freed: false }).collect();
    }

    /// Whether the stock had room for the block.
    pub fn push(&mut self, class: u32, word: Word) -> bool {
        let room = self.stock[class as usize].len() < stock_most(class);
        if room {
            self.stock[class as usize].push(Stocked { word, freed: true });
        }
        room
    }

    pub fn grant(&mut self, class: u32, word: Word) {
        self.granted[class as usize].push(word);
    }

    pub fn take_back(&mut self, class: u32, word: Word) {
        self.granted[class as usize].retain(|&granted| granted != word);
        self.gone.push_back((class, word));
        self.gone.drain(..self.gone.len().saturating_sub(KNOWN));
    }

    /// 9 or 10, if a free is refused. The class is one of the 76.
    pub fn refusal(&self, class: u32, word: Word) -> Option<u32> {
        if kind_of(word) != family(class).0.kind() {
            return Some(9);
        }
        (!self.granted(class).contains(&word)).then_some(10)
    }
}
