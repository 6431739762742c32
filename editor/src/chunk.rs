//! Chunk words.

use alloc::collections::BTreeMap;
use alloc::vec::Vec;
use core::fmt;

use crate::block::LOW_BITS;
use crate::{Block, Word};

const CHUNK_KIND: Word = 3;
const COUNT_BITS: u32 = 12;
const PAGE_BITS: u32 = LOW_BITS - COUNT_BITS;

/// A chunk (document 01's group) of a release of blocks on several pages: how many of the listed blocks are on one page.
///
/// It is a [`Word`] with kind 3, the count in the next 12 bits and the page in the others.
///
/// ```
/// use vigbuso::Chunk;
///
/// let chunk = Chunk::new(3, 7).expect("a count of 12 bits, a page of 50");
/// assert_eq!((chunk.count(), chunk.page(), chunk.word()), (3, 7, 3 << 62 | 3 << 50 | 7));
/// ```
#[derive(Clone, Copy, PartialEq, Eq, PartialOrd, Ord, Hash)]
#[repr(transparent)]
pub struct Chunk(Word);

impl Chunk {
    /// The most chunks of one release.
    ///
    /// ```
    /// assert_eq!(vigbuso::Chunk::MOST, 2_056);
    /// ```
    pub const MOST: usize = 2_056;

    /// Stands where no chunk was written.
    pub(crate) const FILLER: Chunk = Chunk(CHUNK_KIND << LOW_BITS);

    /// The most blocks that a count can tell.
    const MOST_BLOCKS: u32 = (1 << COUNT_BITS) - 1;

    /// Up to so many chunks a page is looked for one by one, beyond in a map.
    const SHORT: usize = 64;

    /// A chunk of so many blocks on a page; none if the count or the page has more bits than it has room.
    ///
    /// ```
    /// # use vigbuso::Chunk;
    /// assert!(Chunk::new(4_095, (1 << 50) - 1).is_some());
    /// assert!(Chunk::new(4_096, 0).is_none());
    /// ```
    #[must_use]
    pub const fn new(count: u32, page: u64) -> Option<Chunk> {
        if count > Chunk::MOST_BLOCKS || page >> PAGE_BITS != 0 {
            return None;
        }
        Some(Chunk((CHUNK_KIND << COUNT_BITS | count as Word) << PAGE_BITS | page))
    }

    /// The chunks of a list of small blocks: one for each page, in the order in which the pages first appear.
    ///
    /// ```
    /// # use vigbuso::{Block, Chunk};
    /// let blocks: Vec<Block> = [4_099, 3, 5_123].into_iter().filter_map(Block::small).collect();
    /// let chunks = Chunk::of(&blocks);
    /// assert_eq!(chunks, [Chunk::new(2, 1).unwrap(), Chunk::new(1, 0).unwrap()]);
    /// ```
    #[must_use]
    pub fn of(blocks: &[Block]) -> Vec<Chunk> {
        let mut chunks: Vec<Chunk> = Vec::new();
        let mut places = BTreeMap::new();
        for block in blocks {
            let page = block.page();
            let place = match chunks.len() {
                0..=Chunk::SHORT => chunks.iter().rposition(|chunk| chunk.page() == page),
                _ => places.get(&page).copied(),
            };
            // A page with more blocks than a count can tell starts another chunk, which the heap refuses: no page has
            // that many, so some block stands twice.
            let chunk = place.map(|place| &mut chunks[place]).filter(|chunk| chunk.count() < Chunk::MOST_BLOCKS);
            if let Some(chunk) = chunk {
                chunk.add();
                continue;
            }
            chunks.push(Chunk::one(page));
            if chunks.len() == Chunk::SHORT + 1 {
                places = places_of(&chunks);
            } else if chunks.len() > Chunk::SHORT {
                places.insert(page, chunks.len() - 1);
            }
        }
        chunks
    }

    /// A chunk of one block. A block's page has as many bits as a chunk's.
    pub(crate) const fn one(page: u64) -> Chunk {
        Chunk((CHUNK_KIND << COUNT_BITS | 1) << PAGE_BITS | page)
    }

    /// One block more.
    pub(crate) fn add(&mut self) {
        self.0 += 1 << PAGE_BITS;
    }

    /// The word that passes between editor and heap.
    ///
    /// ```
    /// # use vigbuso::Chunk;
    /// assert_eq!(Chunk::new(1, 0).map(Chunk::word), Some(3 << 62 | 1 << 50));
    /// ```
    #[must_use]
    pub const fn word(self) -> Word {
        self.0
    }

    /// How many of the listed blocks are on the page.
    ///
    /// ```
    /// # use vigbuso::Chunk;
    /// assert_eq!(Chunk::new(5, 9).map(Chunk::count), Some(5));
    /// ```
    #[must_use]
    #[allow(clippy::cast_possible_truncation)] // 12 bits
    pub const fn count(self) -> u32 {
        (self.0 >> PAGE_BITS) as u32 & Chunk::MOST_BLOCKS
    }

    /// The page.
    ///
    /// ```
    /// # use vigbuso::Chunk;
    /// assert_eq!(Chunk::new(5, 9).map(Chunk::page), Some(9));
    /// ```
    #[must_use]
    pub const fn page(self) -> u64 {
        self.0 & ((1 << PAGE_BITS) - 1)
    }
}

/// Where the last chunk of each page stands.
fn places_of(chunks: &[Chunk]) -> BTreeMap<u64, usize> {
    chunks.iter().enumerate().map(|(place, chunk)| (chunk.page(), place)).collect()
}

impl fmt::Debug for Chunk {
    fn fmt(&self, f: &mut fmt::Formatter) -> fmt::Result {
        write!(f, "Chunk({} on page {})", self.count(), self.page())
    }
}

#[cfg(test)]
mod tests {
    use super::*;

    fn blocks(granules: impl IntoIterator<Item = Word>) -> Vec<Block> {
        granules.into_iter().filter_map(Block::small).collect()
    }

    /// Few pages and many, in any order: each has its chunk where it first appears, with its number of blocks.
    #[test]
    fn a_chunk_for_each_page() {
        for pages in [1, 2, 63, 64, 65, 66, 300] {
            let list = blocks((0..5 * pages).map(|at| 4_096 * (at * 7 % pages) + 3 + at / pages));
            let chunks = Chunk::of(&list);
            assert_eq!(chunks.iter().map(|chunk| chunk.count() as usize).sum::<usize>(), list.len());
            let mut firsts: Vec<u64> = Vec::new();
            for page in list.iter().map(|block| block.page()) {
                if !firsts.contains(&page) {
                    firsts.push(page);
                }
            }
            assert_eq!(chunks.iter().map(|chunk| chunk.page()).collect::<Vec<_>>(), firsts, "{pages} pages");
        }
    }

    #[test]
    fn a_count_has_twelve_bits() {
        let chunks = Chunk::of(&blocks(core::iter::repeat_n(3, 5_000)));
        assert_eq!(chunks.iter().map(|chunk| chunk.count()).collect::<Vec<_>>(), [4_095, 905]);
    }
}
