//! A history before it is run: steps that say what is wanted, and find their arguments in the ledger when their turn
//! comes. So a plan with some steps left out is again a plan of calls in document 01's domain.

use crate::call::{Call, Lent, Look, PoolRequest};
use crate::ledger::{Ledger, Out};
use crate::oracle;
use crate::pool::{crossed, wrong as wrong_pool};
use crate::random::Random;
use crate::words::{block_word, chunk_word, page_of, Family, Word, MAX_CHUNKS, PAGE_BYTES, PAGE_GRANULES, RUN_LIMIT};

/// How many of a page's blocks are given back.
#[derive(Clone, Copy, PartialEq, Eq, Debug)]
pub enum Portion {
    One,
    Some,
    All,
}

#[derive(Clone, Copy, PartialEq, Eq, Debug)]
pub enum Place {
    /// The run that ends at the frontier, if the direct calls hold one.
    Frontier,
    Anywhere,
}

#[derive(Clone, Copy, PartialEq, Eq, Debug)]
pub enum Piece {
    Whole,
    Part,
    /// So many pages at the front of a run.
    Front(u64),
}

/// Which granted block is freed.
#[derive(Clone, Copy, PartialEq, Eq, Debug)]
pub enum Which {
    Latest,
    Oldest,
    Any,
}

#[derive(Clone, PartialEq, Eq, Debug)]
pub enum Intent {
    Take {
        family: Family,
        class: u32,
    },
    ReleaseBlocks {
        family: Family,
        class: u32,
        portion: Portion,
    },
    ReleaseChunks {
        class: u32,
        most: usize,
        portion: Portion,
    },
    Commit {
        pages: u64,
    },
    Grow {
        place: Place,
        by: u64,
    },
    Release {
        piece: Piece,
    },
    /// This very run, if the direct calls hold it.
    ReleaseAt {
        first: u64,
        pages: u64,
    },
    Contains,
    Report,
    /// A call that is likely to be refused.
    Wrong {
        family: Family,
        class: u32,
    },
    /// The pool's calls name a class by one number.
    Alloc {
        class: u32,
    },
    Free {
        class: u32,
        which: Which,
    },
    Trim {
        class: u32,
    },
    /// A call of the pool that only reads.
    Look {
        class: u32,
    },
    /// A call of the pool that is likely to be refused, mostly a free.
    WrongPool {
        class: u32,
    },
    /// A call that names what the other of heap and pool has.
    Crossed {
        class: u32,
    },
}

#[derive(Clone, PartialEq, Eq, Debug)]
pub struct Step {
    pub intent: Intent,
    pub host: u32,
    /// Decides what the intent leaves open.
    pub chance: u64,
}

#[derive(Clone, Debug)]
pub struct Plan {
    pub scenario: &'static str,
    pub pages: u32,
    /// Parking rules; none are document 01's.
    pub rows: Vec<u32>,
    pub steps: Vec<Step>,
}

impl Step {
    /// The call, or none where nothing fits the intent now.
    pub fn call(&self, ledger: &Ledger, frontier: u32) -> Option<Call> {
        let mut random = Random::new(self.chance);
        let host = self.host;
        match self.intent {
            Intent::Take { family, class } => {
                Some(Call::Take { family, class, host, lent: list(&mut random, family, class) })
            }
            Intent::ReleaseBlocks { family, class, portion } => {
                let run = pick_run(&mut random, ledger.out(family, class))?;
                Some(Call::ReleaseBlocks { family, class, host, list: blocks(&mut random, run, portion) })
            }
            Intent::ReleaseChunks { class, most, portion } => chunks(&mut random, ledger, class, host, most, portion),
            Intent::Commit { pages } => Some(Call::Commit { host, pages }),
            Intent::Grow { place, by } => {
                let (first, old) = pick_direct(&mut random, ledger, place, frontier)?;
                Some(Call::Grow { host, first, old, new: old + by })
            }
            Intent::Release { piece } => {
                let (first, pages) = pick_direct(&mut random, ledger, Place::Anywhere, frontier)?;
                let (first, pages) = part(&mut random, first, pages, piece);
                Some(Call::Release { host, first, pages })
            }
            Intent::ReleaseAt { first, pages } => {
                let call = Call::Release { host, first, pages };
                ledger.refusal(&call).is_none().then_some(call)
            }
            Intent::Contains => Some(contains(&mut random, ledger.pages())),
            Intent::Report => Some(Call::Report),
            Intent::Wrong { family, class } => Some(wrong(&mut random, ledger, family, class, host)),
            Intent::Alloc { class } => Some(Call::Pool { request: PoolRequest::Alloc, class, host }),
            Intent::Free { class, which } => {
                let granted = ledger.stocks.granted(class);
                let word = match which {
                    Which::Latest => granted.last().copied(),
                    Which::Oldest => granted.first().copied(),
                    Which::Any => (!granted.is_empty()).then(|| random.pick(granted)),
                };
                Some(Call::Pool { request: PoolRequest::Free(word?), class, host })
            }
            Intent::Trim { class } => {
                // Seldom of an empty stock.
                let asked = !ledger.stocks.stock(class).is_empty() || random.chance(1, 10);
                asked.then_some(Call::Pool { request: PoolRequest::Trim, class, host })
            }
            Intent::Look { class } => Some(Call::Look(look(&mut random, ledger, class))),
            Intent::WrongPool { class } => Some(wrong_pool::call(&mut random, ledger, class, host)),
            Intent::Crossed { class } => crossed::call(&mut random, ledger, class, host),
        }
    }
}

fn look(random: &mut Random, ledger: &Ledger, class: u32) -> Look {
    let block = wrong_pool::any_block(random, ledger, class);
    let asked = if random.chance(1, 20) { random.below(80) as u32 } else { class };
    match random.below(3) {
        0 => Look::ClassOf(block),
        1 => Look::Granted { class: asked, block },
        _ => Look::Stocked { class: asked },
    }
}

fn list(random: &mut Random, family: Family, class: u32) -> Lent<Word> {
    let spare = random.weighted(&[(6, 0), (1, 1), (1, 9)]);
    Lent { len: oracle::batch(family, class) + spare, fill: random.word() }
}

fn pick_run<'a>(random: &mut Random, runs: &'a [Out]) -> Option<&'a Out> {
    (!runs.is_empty()).then(|| &runs[random.index(runs.len())])
}

/// Some of the blocks that are out of a run, in an order of chance.
fn blocks(random: &mut Random, run: &Out, portion: Portion) -> Vec<Word> {
    let mut words = run.words.clone();
    match random.below(4) {
        0 => words.sort_unstable(),
        1 => words.reverse(),
        2 => {}
        _ => random.shuffle(&mut words),
    }
    let keep = match portion {
        Portion::One => 1,
        Portion::Some => random.between(1, words.len() as u64) as usize,
        Portion::All => words.len(),
    };
    // Not always the first ones, so that neighbours in a page part company.
    let skip = random.index(words.len() - keep + 1);
    words[skip..skip + keep].to_vec()
}

fn chunks(random: &mut Random, ledger: &Ledger, class: u32, host: u32, most: usize, portion: Portion) -> Option<Call> {
    let mut runs: Vec<&Out> = ledger.out(Family::Small, class).iter().collect();
    if runs.is_empty() {
        return None;
    }
    random.shuffle(&mut runs);
    let most = most.min(MAX_CHUNKS);
    runs.truncate(if random.chance(1, 3) { most } else { 1 + random.index(most) });
    let (mut list, mut chunks) = (Vec::new(), Vec::new());
    for run in runs {
        let portion = if random.chance(1, 4) { Portion::All } else { portion };
        let words = blocks(random, run, portion);
        chunks.push(chunk_word(words.len() as u32, u64::from(run.first)));
        list.extend(words);
    }
    match random.below(3) {
        0 => {}
        1 => random.shuffle(&mut list),
        _ => random.shuffle(&mut chunks),
    }
    let lent = Lent { len: chunks.len() + random.weighted(&[(3, 0), (1, 2)]), fill: random.word() as u32 };
    Some(Call::ReleaseChunks { class, host, list, chunks, lent })
}

fn pick_direct(random: &mut Random, ledger: &Ledger, place: Place, frontier: u32) -> Option<(u64, u64)> {
    let runs = ledger.direct();
    let at = match place {
        Place::Frontier => frontier,
        Place::Anywhere => random.below(u64::from(frontier) + 1) as u32,
    };
    let near = runs.range(..=at).next_back().or_else(|| runs.range(at..).next());
    near.map(|(&first, &pages)| (u64::from(first), u64::from(pages)))
}

fn part(random: &mut Random, first: u64, pages: u64, piece: Piece) -> (u64, u64) {
    match piece {
        Piece::Whole => (first, pages),
        Piece::Front(most) => (first, pages.min(most)),
        Piece::Part => {
            let length = random.between(1, pages);
            (first + random.between(0, pages - length), length)
        }
    }
}

/// An offset and a length that are near the arena's ends as often as anywhere else.
fn contains(random: &mut Random, pages: u32) -> Call {
    let bytes = u64::from(pages) * PAGE_BYTES as u64;
    let mut number = || match random.below(6) {
        0 => 0,
        1 => random.below(bytes + 1),
        2 => bytes,
        3 => bytes + random.below(3),
        4 => bytes - random.below(3),
        _ => random.word() >> random.below(64),
    };
    let (offset, length) = (number(), number());
    match random.below(4) {
        0 => Call::Contains { offset: offset.min(bytes), length: bytes - offset.min(bytes) },
        1 => Call::Contains { offset, length: u64::MAX - offset },
        2 => Call::Contains { offset: 0_u64.wrapping_sub(length), length },
        _ => Call::Contains { offset, length },
    }
}

fn wrong(random: &mut Random, ledger: &Ledger, family: Family, class: u32, host: u32) -> Call {
    let host = match random.below(8) {
        0 => random.between(16, 40) as u32,
        1 => random.word() as u32,
        _ => host,
    };
    let class = match random.below(8) {
        0 => family.classes() + random.below(3) as u32,
        1 => random.word() as u32,
        _ => class,
    };
    match random.below(6) {
        0 => {
            let len = if class < family.classes() { oracle::batch(family, class) } else { 64 };
            Call::Take { family, class, host, lent: Lent { len: random.index(len + 1), fill: random.word() } }
        }
        1 => Call::ReleaseBlocks { family, class, host, list: wrong_list(random, ledger, family, class) },
        2 => wrong_chunks(random, ledger, class, host),
        3 => Call::Commit { host, pages: random.pick(&[0, RUN_LIMIT - 1, RUN_LIMIT, RUN_LIMIT + 1, u64::MAX]) },
        4 => wrong_run(random, ledger, host),
        _ => {
            let Call::Release { first, pages, .. } = wrong_run(random, ledger, host) else { unreachable!() };
            let new = match random.below(3) {
                0 => random.pick(&[0, pages, RUN_LIMIT, u64::MAX]),
                _ => pages.saturating_add(random.between(1, 4)),
            };
            Call::Grow { host, first, old: pages, new }
        }
    }
}

fn wrong_run(random: &mut Random, ledger: &Ledger, host: u32) -> Call {
    let mut number = |near: u64| match random.below(5) {
        0 => random.below(3),
        1 => near + random.below(3),
        2 => near.saturating_sub(random.below(3)),
        3 => random.pick(&[RUN_LIMIT - 1, RUN_LIMIT, u64::MAX, u64::MAX - near]),
        _ => random.below(near + 2),
    };
    let (first, pages) = (number(u64::from(ledger.pages())), number(u64::from(ledger.pages())));
    Call::Release { host, first, pages }
}

/// Blocks that are out, with one that is wrong or one more among them, or two, so that a list can have faults of two numbers.
fn wrong_list(random: &mut Random, ledger: &Ledger, family: Family, class: u32) -> Vec<Word> {
    let runs = if class < family.classes() { ledger.out(family, class) } else { &[] };
    let mut words = pick_run(random, runs).map_or_else(Vec::new, |run| blocks(random, run, Portion::Some));
    let any = || block_word(family, 0);
    for _ in 0..random.weighted(&[(1, 0), (4, 1), (2, 2)]) {
        let another = match random.below(5) {
            0 => random.word(),
            1 => block_word(family, random.below(u64::from(ledger.pages()) * PAGE_GRANULES)),
            2 => words.first().copied().unwrap_or_else(any),
            3 => words.first().map_or_else(any, |word| word ^ 1 << random.below(64)),
            _ => pick_run(random, runs).map_or_else(any, |run| random.pick(&run.words)),
        };
        words.insert(random.index(words.len() + 1), another);
    }
    words
}

fn wrong_chunks(random: &mut Random, ledger: &Ledger, class: u32, host: u32) -> Call {
    let list = wrong_list(random, ledger, Family::Small, class);
    let mut chunks: Vec<Word> = Vec::new();
    let mut pages: Vec<u64> = list.iter().map(|&word| page_of(word)).collect();
    pages.sort_unstable();
    while let Some(&page) = pages.first() {
        let count = pages.iter().take_while(|&&other| other == page).count();
        chunks.push(chunk_word(count as u32, page));
        pages.drain(..count);
    }
    match random.below(7) {
        0 => chunks.clear(),
        1 => chunks.extend(chunks.clone()),
        2 => chunks.push(chunk_word(random.below(3) as u32, random.below(u64::from(ledger.pages())))),
        3 => chunks.iter_mut().for_each(|chunk| *chunk ^= 1 << random.below(64)),
        4 => chunks.resize(chunks.len() + random.pick(&[MAX_CHUNKS, 3]), chunk_word(1, 0)),
        _ => {}
    }
    let len = match random.below(4) {
        0 => random.index(chunks.len() + 1),
        _ => chunks.len(),
    };
    Call::ReleaseChunks { class, host, list, chunks, lent: Lent { len, fill: random.word() as u32 } }
}
