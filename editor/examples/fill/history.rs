//! What the search held at each of its turns, in a run of pages that grows: in place where the run ends at the frontier,
//! otherwise by moving to a run twice as long, which leaves a hole behind. Once it is long enough, or has no room to grow,
//! every second sample goes: the history of a long search is no longer than that of a short one.

use super::blocks::{Run, PAGE_BYTES};
use super::store::Store;
use super::Outcome;

/// Bytes of a sample.
const SAMPLE: usize = 16;

/// The trace has a report each time so many turns have passed.
const REPORTED: u32 = 100;

/// Pages that the history grows to.
const MOST: u64 = 4;

#[derive(Clone, Copy, PartialEq, Eq, Debug)]
pub struct Sample {
    /// How often the search had turned back.
    pub turn: u32,
    /// Words that stood.
    pub standing: u32,
    pub pages_held: u32,
    pub blocks_out: u32,
}

pub struct History {
    run: Run,
    /// What was written, to compare with.
    written: Vec<Sample>,
    /// A sample is kept each time so many turns have passed.
    every: u32,
}

impl History {
    /// None if the arena has no room for it.
    pub fn new(store: &mut Store) -> Outcome<Option<History>> {
        Ok(store.commit(1)?.map(|run| History { run, written: Vec::new(), every: 1 }))
    }

    /// Keeps how things are at a turn.
    pub fn note(&mut self, store: &mut Store, turn: usize, standing: usize) -> Outcome<()> {
        let turn = turn as u32;
        if turn % self.every == 0 {
            let pages_held = store.report()?.held as u32;
            let sample = Sample { turn, standing: standing as u32, pages_held, blocks_out: store.tally().out as u32 };
            self.push(store, sample)?;
        }
        if turn % REPORTED == 0 {
            store.note();
        }
        Ok(())
    }

    fn push(&mut self, store: &mut Store, sample: Sample) -> Outcome<()> {
        if self.end() == self.run.pages as usize * PAGE_BYTES && !self.grow(store)? {
            self.thin_out(store);
        }
        let end = self.end();
        store.run_mut(self.run)[end..end + SAMPLE].copy_from_slice(&to_bytes(sample));
        self.written.push(sample);
        Ok(())
    }

    fn end(&self) -> usize {
        self.written.len() * SAMPLE
    }

    /// Whether the history has more room now.
    fn grow(&mut self, store: &mut Store) -> Outcome<bool> {
        if self.run.pages >= MOST {
            return Ok(false);
        }
        if let Some(longer) = store.grow(self.run)? {
            self.run = longer;
            return Ok(true);
        }
        let longer = store.commit(MOST.min(2 * self.run.pages) as usize)?;
        if let Some(longer) = longer {
            store.copy_run(self.run, longer);
            store.release_run(self.run)?;
            self.run = longer;
        }
        Ok(longer.is_some())
    }

    fn thin_out(&mut self, store: &mut Store) {
        self.every *= 2;
        self.written.retain(|sample| sample.turn % self.every == 0);
        let bytes: Vec<u8> = self.written.iter().flat_map(|&sample| to_bytes(sample)).collect();
        store.run_mut(self.run)[..bytes.len()].copy_from_slice(&bytes);
    }

    /// Reads all samples back.
    pub fn samples(&self, store: &Store) -> Outcome<Vec<Sample>> {
        let read: Vec<Sample> = store.run(self.run)[..self.end()].chunks_exact(SAMPLE).map(from_bytes).collect();
        if read != self.written {
            return Err("the history is not what was written".into());
        }
        store.count_read();
        Ok(read)
    }

    pub fn release(self, store: &mut Store) -> Outcome<()> {
        store.release_run(self.run)
    }
}

fn to_bytes(sample: Sample) -> [u8; SAMPLE] {
    let mut bytes = [0; SAMPLE];
    let numbers = [sample.turn, sample.standing, sample.pages_held, sample.blocks_out];
    for (bytes, number) in bytes.chunks_exact_mut(4).zip(numbers) {
        bytes.copy_from_slice(&number.to_le_bytes());
    }
    bytes
}

fn from_bytes(bytes: &[u8]) -> Sample {
    let number = |at: usize| u32::from_le_bytes(bytes[at..at + 4].try_into().expect("four bytes"));
    Sample { turn: number(0), standing: number(4), pages_held: number(8), blocks_out: number(12) }
}
