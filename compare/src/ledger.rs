//! What the answers of a history say so far: who holds each page, which blocks are out, and which the pool has granted.
//!
//! From this the tool knows which calls lie in document 01's domain, and tells what the original does not: the number
//! of a refused call, and the report's pages held.

use std::collections::{BTreeMap, VecDeque};

use crate::call::{Answer, Call, PoolRequest};
use crate::oracle;
use crate::planned;
use crate::stocks::{Stocks, KNOWN};
use crate::words::{
    chunk_count, chunk_page, kind_of, page_of, Family, Owner, Word, CHUNK_KIND, HOST_ALL, MAX_CHUNKS, RUN_LIMIT,
    SMALL_CLASSES,
};

/// Small classes, then medium ones: the numbers that a caller can name.
pub const CLASSES: usize = 76;
/// The heap's classes, then the pool's.
const IDS: usize = 2 * CLASSES;

/// Who holds a page: nobody, a class by its id + 1, or the direct calls.
const NOBODY: u8 = 0;
const DIRECT: u8 = IDS as u8 + 1;
const NOWHERE: u32 = u32::MAX;

/// The blocks that are out of one page or span.
#[derive(Clone, Debug)]
pub struct Out {
    pub first: u32,
    pub words: Vec<Word>,
}

pub struct Ledger {
    pages: u32,
    owner: Vec<u8>,
    /// Of a page that a class holds: the first page of its page or span.
    run: Vec<u32>,
    /// Of such a first page: where its blocks stand in `out`, or nowhere.
    place: Vec<u32>,
    out: Vec<Vec<Out>>,
    direct: BTreeMap<u32, u32>,
    held: u64,
    /// Released blocks of the heap's classes, with their class's number.
    back: VecDeque<(u32, Word)>,
    /// Of the pool; what is in stock no answer tells.
    pub stocks: Stocks,
}

/// The id of a class of the heap, which is its number.
pub fn class_id(family: Family, class: u32) -> usize {
    match family {
        Family::Small => class as usize,
        Family::Medium => (SMALL_CLASSES + class) as usize,
    }
}

/// The id of the pool's class with a number.
pub fn pool_id(number: u32) -> usize {
    CLASSES + number as usize
}

/// The number of the class with an id.
fn number_of(id: usize) -> u32 {
    (id % CLASSES) as u32
}

impl Ledger {
    pub fn new(pages: u32) -> Ledger {
        let len = pages as usize;
        Ledger {
            pages,
            owner: vec![NOBODY; len],
            run: vec![0; len],
            place: vec![NOWHERE; len],
            out: vec![Vec::new(); IDS],
            direct: BTreeMap::new(),
            held: 0,
            back: VecDeque::new(),
            stocks: Stocks::new(),
        }
    }

    pub fn pages(&self) -> u32 {
        self.pages
    }

    /// Pages that a class or the direct calls hold.
    pub fn held(&self) -> u64 {
        self.held
    }

    /// Pages and spans of the heap's class that have blocks out.
    pub fn out(&self, family: Family, class: u32) -> &[Out] {
        &self.out[class_id(family, class)]
    }

    /// Pages and spans of the pool's class that have blocks out: granted ones, or in stock.
    pub fn pool_out(&self, number: u32) -> &[Out] {
        &self.out[pool_id(number)]
    }

    /// Whether a word is a block that is out in this class of the heap, which need not be there.
    pub fn is_out(&self, family: Family, class: u32, word: Word) -> bool {
        class < family.classes()
            && kind_of(word) == family.kind()
            && self.count_out(class_id(family, class), &[word]) == 1
    }

    /// The number of the heap's class in which a word is a block that is out.
    pub fn entry_class(&self, word: Word) -> Option<u32> {
        let (owner, number) = self.class_at(page_of(word))?;
        let (family, class) = planned::family(number);
        (owner == Owner::Heap && self.is_out(family, class, word)).then_some(number)
    }

    /// Released blocks of the heap's classes, with their class's number; the last ones alone.
    pub fn back(&self) -> &VecDeque<(u32, Word)> {
        &self.back
    }

    /// The first page of a block's page or span. The block is out.
    pub fn first_page(&self, word: Word) -> u32 {
        self.run[page_of(word) as usize]
    }

    /// The number of the class that has a block's page, be it the heap's or the pool's; 76 for none.
    pub fn class_of(&self, word: Word) -> u32 {
        self.class_at(page_of(word)).map_or(CLASSES as u32, |(_, number)| number)
    }

    /// The class that has a page, which need not be there.
    pub fn class_at(&self, page: u64) -> Option<(Owner, u32)> {
        let owner = *self.owner.get(usize::try_from(page).ok()?)?;
        if owner == NOBODY || owner == DIRECT {
            return None;
        }
        let id = usize::from(owner) - 1;
        Some((if id < CLASSES { Owner::Heap } else { Owner::Pool }, number_of(id)))
    }

    /// Runs of the direct calls, by first page.
    pub fn direct(&self) -> &BTreeMap<u32, u32> {
        &self.direct
    }

    fn own(&mut self, first: u32, pages: u32, owner: u8) {
        for held in &mut self.owner[first as usize..(first + pages) as usize] {
            self.held -= u64::from(*held != NOBODY);
            self.held += u64::from(owner != NOBODY);
            *held = owner;
        }
    }

    /// Takes in what a call answered. `run_of` tells the first page of a block's page or span.
    pub fn note(&mut self, call: &Call, answer: &Answer, run_of: impl Fn(Family, Word) -> u32) {
        match (call, answer) {
            (Call::Take { family, class, .. }, Answer::Taken { words, .. }) => {
                self.note_taken(class_id(*family, *class), words, |word| run_of(*family, word));
            }
            (Call::ReleaseBlocks { family, class, list, .. }, Answer::Fate(fate)) => {
                let id = class_id(*family, *class);
                self.note_released(id, list, *fate);
                self.note_back(id, list);
            }
            (Call::ReleaseChunks { class, list, chunks, .. }, Answer::Fates(fates)) => {
                let (id, gone) = (class_id(Family::Small, *class), sorted(list));
                for (&chunk, &fate) in chunks.iter().zip(fates) {
                    self.take_back(id, chunk_page(chunk) as u32, &gone, fate);
                }
                self.note_back(id, list);
            }
            (Call::Commit { pages, .. }, Answer::Run { first, .. }) => self.hold(*first, *pages as u32),
            (Call::Grow { first, old, new, .. }, Answer::Grown(true)) => {
                self.hold((first + old) as u32, (new - old) as u32);
            }
            (Call::Release { first, pages, .. }, Answer::Released) => self.let_go(*first as u32, *pages as u32),
            (Call::Pool { request: PoolRequest::Alloc, class, .. }, Answer::Block(word)) if *word != 0 => {
                self.stocks.grant(*class, *word);
            }
            (Call::Pool { request: PoolRequest::Free(word), class, .. }, Answer::Freed) => {
                self.stocks.take_back(*class, *word)
            }
            _ => {}
        }
    }

    /// Takes in the blocks of a take of the class with an id. `run_of` tells the first page of a block's page or span.
    pub fn note_taken(&mut self, id: usize, words: &[Word], run_of: impl Fn(Word) -> u32) {
        words.iter().for_each(|&word| self.hand_out(id, run_of(word), word));
    }

    /// Takes in the fate of a release of one page's or span's blocks, out in the class with an id.
    pub fn note_released(&mut self, id: usize, list: &[Word], fate: u32) {
        self.take_back(id, self.first_page(list[0]), &sorted(list), fate);
    }

    fn note_back(&mut self, id: usize, list: &[Word]) {
        self.back.extend(list.iter().take(KNOWN).map(|&word| (number_of(id), word)));
        self.back.drain(..self.back.len().saturating_sub(KNOWN));
    }

    fn hand_out(&mut self, id: usize, first: u32, word: Word) {
        if self.owner[first as usize] != id as u8 + 1 {
            let pages = run_pages(id);
            self.own(first, pages, id as u8 + 1);
            self.run[first as usize..(first + pages) as usize].fill(first);
            self.place[first as usize] = NOWHERE;
        }
        if self.place[first as usize] == NOWHERE {
            self.place[first as usize] = self.out[id].len() as u32;
            self.out[id].push(Out { first, words: Vec::new() });
        }
        self.out[id][self.place[first as usize] as usize].words.push(word);
    }

    /// Of the run at `first`, the words in `gone`, which is sorted, are out no more.
    fn take_back(&mut self, id: usize, first: u32, gone: &[Word], fate: u32) {
        let at = self.place[first as usize] as usize;
        self.out[id][at].words.retain(|word| gone.binary_search(word).is_err());
        if self.out[id][at].words.is_empty() {
            self.out[id].swap_remove(at);
            self.place[first as usize] = NOWHERE;
            if let Some(moved) = self.out[id].get(at) {
                self.place[moved.first as usize] = at as u32;
            }
        }
        if fate % 4 == 2 {
            self.own(first, run_pages(id), NOBODY);
        }
    }

    /// The direct calls hold a run. It joins the one before it, as a growth does.
    fn hold(&mut self, first: u32, pages: u32) {
        self.own(first, pages, DIRECT);
        match self.direct.range_mut(..first).next_back() {
            Some((before, length)) if before + *length == first => *length += pages,
            _ => {
                self.direct.insert(first, pages);
            }
        }
    }

    fn let_go(&mut self, first: u32, pages: u32) {
        self.own(first, pages, NOBODY);
        let end = first + pages;
        let start = self.direct.range(..=first).next_back().map_or(first, |(&start, _)| start);
        let met: Vec<(u32, u32)> = self.direct.range(start..end).map(|(&at, &length)| (at, length)).collect();
        for (at, length) in met {
            self.direct.remove(&at);
            if at < first {
                self.direct.insert(at, (at + length).min(first) - at);
            }
            if at + length > end {
                self.direct.insert(end, at + length - end);
            }
        }
    }

    /// The number that document 01 gives the call, if it refuses it. 1 and 2 concern the book, and 13 answers no call
    /// on a book that was reached from an opening.
    pub fn refusal(&self, call: &Call) -> Option<u32> {
        match call {
            Call::Take { family, class, host, lent } => self
                .class_refusal(*family, *class, *host)
                .or_else(|| (lent.len < oracle::batch(*family, *class)).then_some(5)),
            Call::ReleaseBlocks { family, class, host, list } => {
                self.class_refusal(*family, *class, *host).or_else(|| self.list_refusal(*family, *class, list))
            }
            Call::ReleaseChunks { class, host, list, chunks, lent } => self
                .class_refusal(Family::Small, *class, *host)
                .or_else(|| self.chunk_refusal(*class, list, chunks, lent.len)),
            Call::Commit { host, pages } => first_of(&[(3, *host > HOST_ALL), (6, bad_run(*pages))]),
            Call::Grow { host, first, old, new } => first_of(&[
                (3, *host > HOST_ALL),
                (6, bad_run(*old) || bad_run(*new) || new <= old),
                (12, !self.is_direct(*first, *old)),
            ]),
            Call::Release { host, first, pages } => {
                first_of(&[(3, *host > HOST_ALL), (6, bad_run(*pages)), (12, !self.is_direct(*first, *pages))])
            }
            Call::Pool { request, class, host } => first_of(&[(3, *host > HOST_ALL), (4, *class >= CLASSES as u32)])
                .or_else(|| match request {
                    PoolRequest::Free(word) => self.stocks.refusal(*class, *word),
                    PoolRequest::Alloc | PoolRequest::Trim => None,
                }),
            Call::Contains { .. } | Call::Report | Call::Look(_) => None,
        }
    }

    fn class_refusal(&self, family: Family, class: u32, host: u32) -> Option<u32> {
        first_of(&[(3, host > HOST_ALL), (4, class >= family.classes())])
    }

    fn list_refusal(&self, family: Family, class: u32, list: &[Word]) -> Option<u32> {
        if list.is_empty() {
            return Some(7);
        }
        let first = |word: Word| self.run[page_of(word) as usize];
        self.block_refusal(family, class, list)
            .or_else(|| list.iter().any(|&word| first(word) != first(list[0])).then_some(11))
    }

    /// Numbers 9, 15 and 10, each over the whole list.
    fn block_refusal(&self, family: Family, class: u32, list: &[Word]) -> Option<u32> {
        if list.iter().any(|&word| kind_of(word) != family.kind()) {
            return Some(9);
        }
        let id = class_id(family, class);
        let mut words = sorted(list);
        let twice: Vec<Word> = words.windows(2).filter(|pair| pair[0] == pair[1]).map(|pair| pair[0]).collect();
        if self.count_out(id, &twice) > 0 {
            return Some(15);
        }
        words.dedup();
        (self.count_out(id, &words) != words.len()).then_some(10)
    }

    /// How many of these words, which are sorted, are blocks out in the class with an id.
    pub fn count_out(&self, id: usize, words: &[Word]) -> usize {
        let held = |word: &&Word| self.owner.get(page_of(**word) as usize) == Some(&(id as u8 + 1));
        let mut runs: Vec<u32> = words.iter().filter(held).map(|&word| self.run[page_of(word) as usize]).collect();
        runs.dedup();
        let listed = |first: &u32| {
            let out = self.out[id].get(self.place[*first as usize] as usize);
            out.map_or(0, |out| out.words.iter().filter(|word| words.binary_search(word).is_ok()).count())
        };
        runs.iter().map(listed).sum()
    }

    fn chunk_refusal(&self, class: u32, list: &[Word], chunks: &[Word], room: usize) -> Option<u32> {
        if list.is_empty() || chunks.is_empty() {
            return Some(7);
        }
        if chunks.len() > MAX_CHUNKS || room < chunks.len() {
            return Some(8);
        }
        let wrong_kind = |word: &Word| kind_of(*word) != Family::Small.kind();
        if list.iter().any(wrong_kind) || chunks.iter().any(|&chunk| kind_of(chunk) != CHUNK_KIND) {
            return Some(9);
        }
        self.block_refusal(Family::Small, class, list).or_else(|| {
            let mut counts: BTreeMap<u64, u32> = BTreeMap::new();
            for &word in list {
                *counts.entry(page_of(word)).or_default() += 1;
            }
            let matched = chunks.iter().all(|&chunk| counts.remove(&chunk_page(chunk)) == Some(chunk_count(chunk)));
            (!matched || !counts.is_empty()).then_some(11)
        })
    }

    fn is_direct(&self, first: u64, pages: u64) -> bool {
        let length = u64::from(self.pages);
        first <= length
            && pages <= length - first
            && self.owner[first as usize..(first + pages) as usize].iter().all(|&owner| owner == DIRECT)
    }
}

/// Pages of a run of the class with an id.
fn run_pages(id: usize) -> u32 {
    let (family, class) = planned::family(number_of(id));
    oracle::run_pages(family, class)
}

fn sorted(list: &[Word]) -> Vec<Word> {
    let mut words = list.to_vec();
    words.sort_unstable();
    words
}

fn bad_run(pages: u64) -> bool {
    pages == 0 || pages >= RUN_LIMIT
}

fn first_of(tests: &[(u32, bool)]) -> Option<u32> {
    tests.iter().find(|(_, refused)| *refused).map(|(number, _)| *number)
}
