//! Calls with any arguments, many of them made of what earlier calls answered.

use std::collections::{BTreeMap, VecDeque};

use crate::call::{Answer, Call, Kind, Lent, Look, PoolRequest};
use crate::oracle;
use crate::planned::family;
use crate::random::Random;
use crate::words::{
    block_word, chunk_word, page_of, Family, Owner, Word, CHUNK_PAGE_BITS, HOST_ALL, HOST_COMMIT, MAX_CHUNKS,
    MAX_PAGES, PAGE_BYTES, PAGE_GRANULES, RUN_LIMIT, SMALL_CLASSES,
};

/// Words and runs that are kept to make arguments of.
const KEPT: usize = 600;

/// A block with its class.
#[derive(Clone, Copy)]
struct Block {
    owner: Owner,
    family: Family,
    class: u32,
    word: Word,
}

impl Block {
    fn is_of(&self, owner: Owner, family: Family, class: u32) -> bool {
        (self.owner, self.family, self.class) == (owner, family, class)
    }
}

/// What is known of the calls before.
pub struct Known {
    pages: u32,
    kinds: &'static [Kind],
    classes: Vec<(Family, u32)>,
    /// Blocks that were handed out.
    words: VecDeque<Block>,
    /// Blocks that were given back.
    gone: VecDeque<Block>,
    runs: VecDeque<(u64, u64)>,
}

impl Known {
    pub fn new(random: &mut Random, pages: u32, kinds: &'static [Kind]) -> Known {
        let classes = (0..random.between(1, 3)).map(|_| match random.below(3) {
            0 => (Family::Medium, random.below(12) as u32),
            1 => (Family::Small, random.below(64) as u32),
            _ => (Family::Small, random.between(40, 46) as u32),
        });
        let classes = classes.collect();
        Known { pages, kinds, classes, words: VecDeque::new(), gone: VecDeque::new(), runs: VecDeque::new() }
    }

    pub fn pages(&self) -> u32 {
        self.pages
    }

    pub fn note(&mut self, call: &Call, answer: &Answer) {
        match (call, answer) {
            (Call::Take { family, class, .. }, Answer::Taken { words, .. }) => {
                let block = |&word: &Word| Block { owner: Owner::Heap, family: *family, class: *class, word };
                self.words.extend(words.iter().map(block));
            }
            (Call::Commit { pages, .. }, Answer::Run { first, .. }) => self.runs.push_back((u64::from(*first), *pages)),
            (Call::ReleaseBlocks { list, .. }, Answer::Fate(_))
            | (Call::ReleaseChunks { list, .. }, Answer::Fates(_)) => {
                let back = |block: &&Block| list.contains(&block.word);
                self.gone.extend(self.words.iter().filter(back));
                self.words.retain(|block| !back(&block));
            }
            (Call::Release { first, .. }, Answer::Released) => self.runs.retain(|run| run.0 != *first),
            (Call::Pool { request: PoolRequest::Alloc, class, .. }, Answer::Block(word)) if *word != 0 => {
                let (family, class) = family(*class);
                self.words.push_back(Block { owner: Owner::Pool, family, class, word: *word });
            }
            (Call::Pool { request: PoolRequest::Free(word), class, .. }, Answer::Freed) => {
                let (family, class) = family(*class);
                self.words.retain(|block| block.word != *word);
                self.gone.push_back(Block { owner: Owner::Pool, family, class, word: *word });
            }
            _ => {}
        }
        self.words.drain(..self.words.len().saturating_sub(KEPT));
        self.gone.drain(..self.gone.len().saturating_sub(KEPT));
        self.runs.drain(..self.runs.len().saturating_sub(KEPT));
    }

    pub fn call(&self, random: &mut Random) -> Call {
        let host = host(random);
        let (family, class) = random.pick(&self.classes);
        let class = match random.below(40) {
            0 => random.word() as u32,
            1 => random.below(80) as u32,
            _ => class,
        };
        match random.pick(self.kinds) {
            Kind::TakeBlocks | Kind::MediumTakeBlocks => {
                Call::Take { family, class, host, lent: list(random, family, class) }
            }
            Kind::ReleaseBlocks | Kind::MediumReleaseBlocks => {
                Call::ReleaseBlocks { family, class, host, list: self.blocks(random, family, class, true) }
            }
            Kind::ReleaseBinChunks => self.chunks(random, class, host),
            Kind::Commit => Call::Commit { host, pages: self.length(random) },
            Kind::GrowFrontier => {
                let (first, old) = self.run(random);
                let new = match random.below(8) {
                    0 => self.length(random),
                    _ => old.wrapping_add(random.between(1, 4)),
                };
                Call::Grow { host, first, old, new }
            }
            Kind::Release => {
                let (first, pages) = self.run(random);
                Call::Release { host, first, pages }
            }
            Kind::Contains => {
                let bytes = u64::from(self.pages) * PAGE_BYTES as u64;
                Call::Contains { offset: random.word() % (bytes + 2), length: self.length(random).wrapping_mul(65_536) }
            }
            Kind::Report => Call::Report,
            Kind::Alloc => Call::Pool { request: PoolRequest::Alloc, class: one_number(random, family, class), host },
            Kind::Trim => Call::Pool { request: PoolRequest::Trim, class: one_number(random, family, class), host },
            Kind::Free => {
                let block = self.block(random, family, class);
                Call::Pool { request: PoolRequest::Free(block), class: one_number(random, family, class), host }
            }
            Kind::ClassOf => Call::Look(Look::ClassOf(self.block(random, family, class))),
            Kind::Granted => {
                let block = self.block(random, family, class);
                Call::Look(Look::Granted { class: one_number(random, family, class), block })
            }
            Kind::Stocked => Call::Look(Look::Stocked { class: one_number(random, family, class) }),
        }
    }

    /// A block that was granted, mostly in this class; one that a take handed out, one that was given back since, or any word.
    fn block(&self, random: &mut Random, family: Family, class: u32) -> Word {
        let any = block_word(family, random.below(u64::from(self.pages) * PAGE_GRANULES));
        let of_class = |list: &VecDeque<Block>, owner: Owner| -> Vec<Word> {
            list.iter().filter(|block| block.is_of(owner, family, class)).map(|block| block.word).collect()
        };
        let one = |random: &mut Random, words: &[Word]| if words.is_empty() { any } else { random.pick(words) };
        match random.below(16) {
            0 => random.word(),
            1 => any,
            2 => one(random, &of_class(&self.words, Owner::Pool)) ^ (1 << random.below(64)),
            3 => one(random, &of_class(&self.gone, Owner::Pool)),
            4 => one(random, &of_class(&self.gone, Owner::Heap)),
            5 => one(random, &self.words.iter().map(|block| block.word).collect::<Vec<Word>>()),
            6 | 7 => one(random, &of_class(&self.words, Owner::Heap)),
            _ => one(random, &of_class(&self.words, Owner::Pool)),
        }
    }

    fn length(&self, random: &mut Random) -> u64 {
        let most = u64::from(MAX_PAGES);
        match random.below(12) {
            0 => random.word() >> random.below(64),
            1 => random.pick(&[0, RUN_LIMIT - 1, RUN_LIMIT, u64::MAX, 1 << 32, most, most + 1]),
            2 => u64::from(self.pages) + random.below(2),
            _ => random.between(1, 3),
        }
    }

    fn run(&self, random: &mut Random) -> (u64, u64) {
        let known = if self.runs.is_empty() { (0, 1) } else { self.runs[random.index(self.runs.len())] };
        match random.below(10) {
            0 => (self.length(random), self.length(random)),
            1 => (known.0, self.length(random)),
            2 => (known.0.wrapping_add(random.below(3)), known.1),
            3 => (u64::MAX - random.below(3), random.between(1, 4)),
            _ => known,
        }
    }

    /// Blocks that were taken: of one page, or of any if they may be mixed; now and then with a wrong one among them, or the pool's.
    fn blocks(&self, random: &mut Random, family: Family, class: u32, one_page: bool) -> Vec<Word> {
        let any = random.chance(1, 20);
        let owner = if random.chance(1, 12) { Owner::Pool } else { Owner::Heap };
        let of_class = |block: &&Block| any || block.is_of(owner, family, class);
        let known: Vec<Word> = self.words.iter().filter(of_class).map(|block| block.word).collect();
        let mut list = match known.is_empty() {
            true => Vec::new(),
            false => {
                let page = page_of(random.pick(&known));
                let mut list: Vec<Word> =
                    known.into_iter().filter(|&word| !one_page || page_of(word) == page).collect();
                random.shuffle(&mut list);
                if random.chance(1, 2) {
                    list.truncate(random.between(1, list.len() as u64) as usize);
                }
                list
            }
        };
        for _ in 0..random.weighted(&[(10, 0), (1, 1), (1, 2)]) {
            let wrong = match random.below(5) {
                4 if !self.words.is_empty() => self.words[random.index(self.words.len())].word,
                0 => random.word(),
                1 => block_word(family, random.below(u64::from(self.pages) * PAGE_GRANULES)),
                2 => list.first().copied().unwrap_or(0),
                _ => list.last().copied().unwrap_or(0) ^ (1 << random.below(64)),
            };
            list.push(wrong);
        }
        list
    }

    fn chunks(&self, random: &mut Random, class: u32, host: u32) -> Call {
        let list = self.blocks(random, Family::Small, class, false);
        let mut counts: BTreeMap<u64, u32> = BTreeMap::new();
        list.iter().for_each(|&word| *counts.entry(page_of(word)).or_default() += 1);
        let mut chunks: Vec<Word> = counts.into_iter().map(|(page, count)| chunk_word(count & 0xFFF, page)).collect();
        random.shuffle(&mut chunks);
        match random.below(20) {
            0 => chunks.push(random.word()),
            1 => chunks.iter_mut().for_each(|chunk| *chunk ^= 1 << random.below(64)),
            2 => chunks.extend(chunks.clone()),
            3 => chunks.resize(MAX_CHUNKS + random.index(3), chunk_word(1, 0)),
            4 => chunks.truncate(chunks.len() / 2),
            5 if chunks.len() > 1 => {
                // Two counts that are wrong, though they add up.
                chunks[0] = chunks[0].wrapping_add(1 << CHUNK_PAGE_BITS);
                chunks[1] = chunks[1].wrapping_sub(1 << CHUNK_PAGE_BITS);
            }
            _ => {}
        }
        let room = if random.chance(1, 20) { random.index(chunks.len() + 1) } else { chunks.len() + random.index(3) };
        Call::ReleaseChunks { class, host, list, chunks, lent: Lent { len: room, fill: random.word() as u32 } }
    }
}

/// The pool names a class by one number.
fn one_number(random: &mut Random, family: Family, class: u32) -> u32 {
    match family {
        Family::Medium if !random.chance(1, 40) => class.saturating_add(SMALL_CLASSES),
        _ => class,
    }
}

fn host(random: &mut Random) -> u32 {
    match random.below(30) {
        0 => random.word() as u32,
        1 => 16,
        2..=4 => HOST_ALL - HOST_COMMIT,
        5..=8 => random.below(16) as u32,
        _ => HOST_ALL,
    }
}

fn list(random: &mut Random, family: Family, class: u32) -> Lent<Word> {
    let batch = if class < family.classes() { oracle::batch(family, class) } else { 64 };
    let len = if random.chance(1, 20) { random.index(batch + 1) } else { batch + random.index(2) };
    Lent { len, fill: random.word() }
}
