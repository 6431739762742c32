//! Document 01's words and figures: what both sides of the comparison are fed with.

pub const PAGE_BYTES: usize = 65_536;
pub const GRANULE_BYTES: usize = 16;
pub const PAGE_GRANULES: u64 = (PAGE_BYTES / GRANULE_BYTES) as u64;
/// Document 02, A.11.
pub const MAX_PAGES: u32 = 1_048_576;
/// The most chunks of a group release. A chunk is document 01's group, as in the library.
pub const MAX_CHUNKS: usize = 2_056;
/// A run of this many pages or more is refused as 6.
pub const RUN_LIMIT: u64 = 1 << 48;
pub const SMALL_CLASSES: u32 = 64;
pub const MEDIUM_CLASSES: u32 = 12;
pub const SMALL_BATCH: usize = 64;
/// What `commit` writes as first page for none.
pub const NO_PAGE: u32 = u32::MAX;
/// How many figures a report has.
pub const FIGURES: usize = 6;

/// Words that a book for so many pages has at least.
pub const fn book_words(pages: u32) -> usize {
    40_000 + 4_112 * pages as usize
}

/// FORMAT (docs/RANGES.md): the word of a book that an opening writes and every other call tests, and what it writes there.
pub const FORMAT_WORD: usize = 12;
pub const FORMAT: u32 = 1_447_642_935;

/// The host word's bits.
pub const HOST_RESERVE: u32 = 1;
pub const HOST_COMMIT: u32 = 2;
pub const HOST_DISCARD: u32 = 4;
pub const HOST_ZEROES: u32 = 8;
pub const HOST_ALL: u32 = 15;

#[derive(Clone, Copy, PartialEq, Eq, PartialOrd, Ord, Debug)]
pub enum Family {
    Small,
    Medium,
}

impl Family {
    pub const fn kind(self) -> u32 {
        match self {
            Family::Small => 1,
            Family::Medium => 2,
        }
    }

    pub const fn classes(self) -> u32 {
        match self {
            Family::Small => SMALL_CLASSES,
            Family::Medium => MEDIUM_CLASSES,
        }
    }
}

/// Whose classes: those of the heap's own takes and releases, or the pool's, with the same sizes and limits.
#[derive(Clone, Copy, PartialEq, Eq, Debug)]
pub enum Owner {
    Heap,
    Pool,
}

/// A block's or a group's word (document 02, A.11): the kind in the top two bits.
pub type Word = u64;

/// Bits below the kind: a block's granule, or a group's count and page.
const KIND_SHIFT: u32 = 62;
/// Bits of a group's page.
pub const CHUNK_PAGE_BITS: u32 = 50;

pub const fn kind_of(word: Word) -> u32 {
    (word >> KIND_SHIFT) as u32
}

pub const fn block_word(family: Family, granule: u64) -> Word {
    ((family.kind() as Word) << KIND_SHIFT) | granule
}

pub const fn granule_of(word: Word) -> u64 {
    word & ((1 << KIND_SHIFT) - 1)
}

/// It may be beyond every arena.
pub const fn page_of(word: Word) -> u64 {
    granule_of(word) / PAGE_GRANULES
}

pub const CHUNK_KIND: u32 = 3;

pub const fn chunk_word(count: u32, page: u64) -> Word {
    ((CHUNK_KIND as Word) << KIND_SHIFT) | ((count as Word) << CHUNK_PAGE_BITS) | page
}

pub const fn chunk_count(word: Word) -> u32 {
    (word >> CHUNK_PAGE_BITS) as u32 & 0xFFF
}

/// It may be beyond every arena.
pub const fn chunk_page(word: Word) -> u64 {
    word & ((1 << CHUNK_PAGE_BITS) - 1)
}
