//! That no byte is two owners': the entries of takes and the grants that were not given back, and the pages held by hand, share none.
//! Told from calls and answers alone.

use std::collections::BTreeMap;

use crate::call::{Answer, Call, PoolRequest};
use crate::ledger::class_id;
use crate::oracle;
use crate::planned::family;
use crate::words::{granule_of, Word, GRANULE_BYTES, PAGE_BYTES};

/// What somebody has, each entry and each page by itself: its first byte, and the one after its last.
pub struct Apart {
    /// Bytes of the arena.
    end: u64,
    had: BTreeMap<u64, u64>,
}

impl Apart {
    pub fn new(pages: u32) -> Apart {
        Apart { end: u64::from(pages) * PAGE_BYTES as u64, had: BTreeMap::new() }
    }

    /// Takes in a call that was carried out. Says what shares a byte, or is given back and nobody's.
    pub fn note(&mut self, call: &Call, answer: &Answer) -> Result<(), String> {
        match (call, answer) {
            (Call::Take { family, class, .. }, Answer::Taken { words, .. }) => {
                let number = class_id(*family, *class) as u32;
                words.iter().try_for_each(|&word| self.hand_out(number, word))
            }
            (Call::ReleaseBlocks { list, .. }, Answer::Fate(_))
            | (Call::ReleaseChunks { list, .. }, Answer::Fates(_)) => {
                list.iter().try_for_each(|&word| self.take_back(first_byte(word)))
            }
            (Call::Pool { request: PoolRequest::Alloc, class, .. }, Answer::Block(word)) if *word != 0 => {
                self.hand_out(*class, *word)
            }
            (Call::Pool { request: PoolRequest::Free(word), .. }, Answer::Freed) => self.take_back(first_byte(*word)),
            (Call::Commit { pages, .. }, Answer::Run { first, .. }) => self.hold(u64::from(*first), *pages),
            (Call::Grow { first, old, new, .. }, Answer::Grown(true)) => self.hold(first + old, new - old),
            (Call::Release { first, pages, .. }, Answer::Released) => {
                (*first..first + pages).try_for_each(|page| self.take_back(page * PAGE_BYTES as u64))
            }
            _ => Ok(()),
        }
    }

    fn hand_out(&mut self, number: u32, word: Word) -> Result<(), String> {
        let (family, class) = family(number);
        let first = first_byte(word);
        let end = first + oracle::block_bytes(family, class) as u64;
        self.put(first, end).map_err(|what| format!("block {word} of class {number} {what}"))
    }

    fn hold(&mut self, first: u64, pages: u64) -> Result<(), String> {
        (first..first + pages).try_for_each(|page| {
            let byte = page * PAGE_BYTES as u64;
            self.put(byte, byte + PAGE_BYTES as u64).map_err(|what| format!("page {page}, held by hand, {what}"))
        })
    }

    fn put(&mut self, first: u64, end: u64) -> Result<(), String> {
        if end > self.end {
            return Err("ends beyond the arena".into());
        }
        match self.had.range(..end).next_back().filter(|(_, &last)| last > first) {
            Some((other, _)) => Err(format!("shares a byte with what somebody has at byte {other}")),
            None => {
                self.had.insert(first, end);
                Ok(())
            }
        }
    }

    fn take_back(&mut self, first: u64) -> Result<(), String> {
        match self.had.remove(&first) {
            Some(_) => Ok(()),
            None => Err(format!("what was given back at byte {first} was nobody's")),
        }
    }
}

fn first_byte(word: Word) -> u64 {
    granule_of(word) * GRANULE_BYTES as u64
}
