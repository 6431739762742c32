//! The two heaps behind one set of plain calls, so that a scenario is written once.
//!
//! What a caller of the original has at hand before it calls, a chain that is linked, is made before the measuring starts,
//! but for `release_list`. The host word grants reservation and commit and no discard: the comparison's stand-in for a
//! discard overwrites the page's header, which would count against the original.

use crate::memory::Reserved;
use crate::oracle::rules::Rules;
use crate::oracle::{self, Chain, Chunks, Original};
use crate::port;
use crate::sizes::original;
use crate::words::{book_words, Family, Owner, Word, HOST_COMMIT, HOST_RESERVE, MAX_CHUNKS, NO_PAGE, SMALL_BATCH};

pub const HOST: u32 = HOST_RESERVE | HOST_COMMIT;

/// The arena's length where no scenario says otherwise.
pub const PAGES: u32 = 8_192;

/// A family and a class of it.
#[derive(Clone, Copy, PartialEq, Eq, Debug)]
pub struct Class(pub Family, pub u32);

pub trait Side {
    /// What a take answers.
    type Taken: Clone + Default;
    /// A release list at hand.
    type List;
    /// A list and its groups at hand.
    type Chunks;

    /// A heap on which nothing was asked yet, with an arena of so many pages.
    fn reopen(&mut self, pages: u32);
    /// The class of a size of a family.
    fn class_of(&self, family: Family, size: u64) -> u32;
    /// First page, or none.
    fn commit(&mut self, pages: u64) -> u32;
    fn give(&mut self, first: u32, pages: u64);
    fn take(&mut self, class: Class, taken: &mut Self::Taken);
    fn words(class: Class, taken: &Self::Taken) -> Vec<Word>;
    fn list(class: Class, words: &[Word]) -> Self::List;
    fn release(&mut self, class: Class, list: &Self::List);
    /// A release with the making of the chain, where it needs one.
    fn release_list(&mut self, class: Class, words: &[Word]);
    fn make_chunks(words: &[Word], chunks: &[Word]) -> Self::Chunks;
    fn release_chunks(&mut self, class: Class, chunks: &mut Self::Chunks);
    /// A group release with the making of the chain, where it needs one.
    fn release_with_chunks(&mut self, class: Class, words: &[Word], chunks: &[Word]);
    /// Commits, reuses, abandoned.
    fn report(&mut self) -> [u32; 3];
    /// Whether no call was refused since the opening.
    fn is_sound(&self) -> bool;
}

pub struct OriginalSide(Original);

impl OriginalSide {
    /// With arenas of up to so many pages.
    pub fn open(longest: u32) -> OriginalSide {
        let mut original = Original::open(longest, &[], Rules::Plain);
        original.keep_fates(false);
        OriginalSide(original)
    }
}

impl Side for OriginalSide {
    type Taken = Option<(*mut u8, u32)>;
    type List = Chain;
    type Chunks = Chunks;

    fn reopen(&mut self, pages: u32) {
        self.0.reopen(pages);
    }

    #[inline]
    fn class_of(&self, family: Family, size: u64) -> u32 {
        original(family, size)
    }

    #[inline]
    fn commit(&mut self, pages: u64) -> u32 {
        self.0.commit(HOST, pages).map_or(NO_PAGE, |(first, _)| first)
    }

    #[inline]
    fn give(&mut self, first: u32, pages: u64) {
        self.0.release(HOST, u64::from(first), pages);
    }

    #[inline]
    fn take(&mut self, Class(family, class): Class, taken: &mut Self::Taken) {
        let (chain, count, _) = self.0.take_chain(Owner::Heap, family, class, HOST);
        *taken = Some((chain, count));
    }

    fn words(Class(family, _): Class, taken: &Self::Taken) -> Vec<Word> {
        taken.map_or(Vec::new(), |(chain, count)| oracle::words_of_chain(family, chain, count))
    }

    fn list(Class(family, _): Class, words: &[Word]) -> Chain {
        oracle::chain(family, words)
    }

    #[inline]
    fn release(&mut self, Class(family, class): Class, list: &Chain) {
        self.0.release_chain(Owner::Heap, family, class, HOST, list);
    }

    #[inline]
    fn release_list(&mut self, class: Class, words: &[Word]) {
        self.release(class, &oracle::chain(class.0, words));
    }

    fn make_chunks(words: &[Word], chunks: &[Word]) -> Chunks {
        oracle::make_chunks(words, chunks)
    }

    #[inline]
    fn release_chunks(&mut self, Class(_, class): Class, chunks: &mut Chunks) {
        self.0.release_chunks(class, HOST, chunks);
    }

    #[inline]
    fn release_with_chunks(&mut self, class: Class, words: &[Word], chunks: &[Word]) {
        self.release_chunks(class, &mut oracle::make_chunks(words, chunks));
    }

    #[inline]
    fn report(&mut self) -> [u32; 3] {
        self.0.counts().map(|count| count as u32)
    }

    fn is_sound(&self) -> bool {
        true
    }
}

impl Drop for OriginalSide {
    fn drop(&mut self) {
        self.0.keep_fates(true);
    }
}

pub struct PortSide {
    book: Reserved,
    /// Room for fates.
    fates: Vec<u32>,
    /// The numbers that were returned, or-ed.
    refused: u32,
}

impl PortSide {
    /// With arenas of up to so many pages.
    pub fn open(longest: u32) -> PortSide {
        PortSide { book: Reserved::new(book_words(longest)), fates: vec![0; MAX_CHUNKS], refused: 0 }
    }

    fn book(&mut self) -> &mut [u32] {
        self.book.words_mut()
    }
}

/// The list that a take is lent, and its count.
#[derive(Clone)]
pub struct Lent([Word; SMALL_BATCH], u32);

impl Default for Lent {
    fn default() -> Lent {
        Lent([0; SMALL_BATCH], 0)
    }
}

/// A list, its groups, and the room for their fates.
pub struct ChunkLists {
    words: Vec<Word>,
    chunks: Vec<Word>,
    fates: Vec<u32>,
}

impl Side for PortSide {
    type Taken = Lent;
    type List = Vec<Word>;
    type Chunks = ChunkLists;

    fn reopen(&mut self, pages: u32) {
        self.refused = port::open(self.book(), u64::from(pages));
    }

    #[inline]
    fn class_of(&self, _: Family, size: u64) -> u32 {
        port::size_class(size).expect("not too large").1
    }

    #[inline]
    fn commit(&mut self, pages: u64) -> u32 {
        let [number, first, _] = port::plain_commit(self.book(), HOST, pages);
        self.refused |= number;
        first
    }

    #[inline]
    fn give(&mut self, first: u32, pages: u64) {
        self.refused |= port::plain_release(self.book(), HOST, u64::from(first), pages);
    }

    #[inline]
    fn take(&mut self, Class(family, class): Class, taken: &mut Lent) {
        let [number, count, _] = port::plain_take(self.book(), family, [class, HOST], &mut taken.0);
        taken.1 = count;
        self.refused |= number;
    }

    fn words(_: Class, taken: &Lent) -> Vec<Word> {
        taken.0[..taken.1 as usize].to_vec()
    }

    fn list(_: Class, words: &[Word]) -> Vec<Word> {
        words.to_vec()
    }

    #[inline]
    fn release(&mut self, class: Class, list: &Vec<Word>) {
        self.release_list(class, list);
    }

    #[inline]
    fn release_list(&mut self, Class(family, class): Class, words: &[Word]) {
        let [number, _] = port::plain_release_blocks(self.book(), family, [class, HOST], words);
        self.refused |= number;
    }

    fn make_chunks(words: &[Word], chunks: &[Word]) -> ChunkLists {
        ChunkLists { words: words.to_vec(), chunks: chunks.to_vec(), fates: vec![0; chunks.len()] }
    }

    #[inline]
    fn release_chunks(&mut self, Class(_, class): Class, at_hand: &mut ChunkLists) {
        let ChunkLists { words, chunks, fates } = at_hand;
        self.refused |= port::plain_release_chunks(self.book(), [class, HOST], words, chunks, fates);
    }

    #[inline]
    fn release_with_chunks(&mut self, Class(_, class): Class, words: &[Word], chunks: &[Word]) {
        let book = self.book.words_mut();
        self.refused |= port::plain_release_chunks(book, [class, HOST], words, chunks, &mut self.fates);
    }

    #[inline]
    fn report(&mut self) -> [u32; 3] {
        let (number, [commits, reuses, abandoned, ..]) = port::plain_report(self.book());
        self.refused |= number;
        [commits, reuses, abandoned].map(|count| count as u32)
    }

    fn is_sound(&self) -> bool {
        self.refused == 0
    }
}
