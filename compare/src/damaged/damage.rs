//! Which words are overwritten, and with what. The layout is not used, but for the first words and FORMAT: the words that calls were
//! seen to change are chosen more often than the others.

use std::collections::HashSet;

use super::book::Twins;
use crate::random::Random;
use crate::words::{FORMAT, FORMAT_WORD, MAX_PAGES};

#[derive(Default)]
pub struct Damage {
    /// Words that some call has changed, each once.
    seen: Vec<usize>,
    known: HashSet<usize>,
    /// The book as it was before the damage.
    sound: Option<Vec<u32>>,
}

impl Damage {
    /// After the opening, whose words count as seen: it writes the first ones, and further ones that are not 0.
    pub fn begin(&mut self, words: &[u32]) {
        (0..160).chain((160..1_376).filter(|&at| words[at] != 0)).for_each(|at| self.saw(at));
    }

    pub fn saw(&mut self, at: usize) {
        if self.known.insert(at) {
            self.seen.push(at);
        }
    }

    pub fn is_done(&self) -> bool {
        self.sound.is_some()
    }

    /// Overwrites one word, a few or a stretch; says how many.
    pub fn spoil(&mut self, random: &mut Random, twins: &mut Twins) -> u64 {
        if self.sound.is_none() {
            self.sound = Some(twins.words().to_vec());
        }
        if random.chance(1, 10) {
            return self.spoil_stretch(random, twins);
        }
        let number = random.weighted(&[(6, 1), (2, 2), (1, 8)]);
        for _ in 0..number {
            let at = self.place(random, twins.len());
            let word = self.content(random, twins, at);
            twins.put(at, word);
        }
        number
    }

    /// Many words one after the other, all with anything.
    fn spoil_stretch(&self, random: &mut Random, twins: &mut Twins) -> u64 {
        let first = self.place(random, twins.len());
        let words = first..(first + random.index(300)).min(twins.len());
        words.clone().for_each(|at| twins.put(at, random.word() as u32));
        words.len() as u64
    }

    pub fn mend(&mut self, twins: &mut Twins) {
        if let Some(words) = self.sound.take() {
            twins.restore(&words);
        }
    }

    fn place(&self, random: &mut Random, len: usize) -> usize {
        // The latest changes concern what the next calls will read.
        let recent = self.seen.len().saturating_sub(60);
        let at = match random.below(10) {
            0 => random.index(len),
            1 if random.chance(1, 4) => FORMAT_WORD,
            1 => random.index(16),
            2..=4 => self.seen[recent + random.index(self.seen.len() - recent)],
            5 => random.pick(&self.seen) + random.index(4),
            _ => random.pick(&self.seen),
        };
        at.min(len - 1)
    }

    /// A limit of document 01 or a number that the book has, a neighbour of the old word, another word of the book, or anything.
    fn content(&self, random: &mut Random, twins: &Twins, at: usize) -> u32 {
        const LIMITS: [u32; 17] =
            [0, 1, 2, 3, 16, 64, 76, 128, 152, 153, 256, 4_093, 4_096, 65_536, MAX_PAGES, FORMAT, 1 << 31];
        let old = twins.words()[at];
        match random.below(8) {
            0 => random.pick(&LIMITS),
            1 => random.pick(&LIMITS).wrapping_add(1),
            2 => old.wrapping_add(1),
            3 => old.wrapping_sub(1),
            4 => old ^ (1 << random.below(32)),
            5 => twins.words()[random.pick(&self.seen)],
            6 => random.below(50) as u32,
            _ => random.word() as u32,
        }
    }
}
