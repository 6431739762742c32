//! Sizes and classes.

use core::fmt;

use crate::block::PAGE_GRANULES;
use crate::{ffi, Block, Kind, Word, GRANULE_BYTES, PAGE_BYTES};

/// The number of small classes.
const SMALL: u32 = 64;

/// The number of medium classes.
const MEDIUM: u32 = 12;

/// Bytes of each class's blocks, the small classes first. Tested against the library.
const BYTES: [u32; Class::COUNT] = [
    16, 32, 48, 64, 80, 96, 112, 128, 144, 176, 208, 240, 272, 320, 368, 416, 480, 544, 624, 704, 800, 912, 1_040,
    1_184, 1_344, 1_520, 1_712, 1_936, 2_192, 2_480, 2_800, 3_152, 3_552, 4_000, 4_512, 5_088, 5_728, 6_448, 7_264,
    8_176, 9_200, 10_352, 11_648, 13_104, 14_752, 16_384, 16_384, 16_384, 16_384, 16_384, 16_384, 16_384, 16_384,
    16_384, 16_384, 16_384, 16_384, 16_384, 16_384, 16_384, 16_384, 16_384, 16_384, 16_384, // medium from here on
    18_432, 20_736, 23_328, 26_256, 29_552, 33_248, 37_408, 42_096, 47_360, 53_280, 59_952, 65_472,
];

/// Bytes before the first block of a page, and of a span.
const PAGE_HEADER: usize = 48;
const SPAN_HEADER: usize = 64;

/// Blocks that a span has at least.
const SPAN_BLOCKS: usize = 8;

/// A class of blocks that have one size: one of 64 small classes, whose blocks stand on single pages, or of 12 medium ones,
/// whose blocks stand in spans of several pages.
///
/// [`Class::for_size`] finds the class of a record; takes and releases go by it. A [`Pool`](crate::Pool) has as many classes of its own,
/// of the same sizes and by the same names.
///
/// ```
/// use vigbuso::{Class, Heap, Kind};
///
/// let class = Class::for_size(20_000).expect("at most 65,472 bytes");
/// assert_eq!((class.kind(), class.bytes()), (Kind::Medium, 20_736));
/// let blocks = Heap::open(64)?.take(class)?;
/// assert_eq!(blocks.len(), class.capacity());
/// # Ok::<(), vigbuso::Refusal>(())
/// ```
#[derive(Clone, Copy, PartialEq, Eq, PartialOrd, Ord, Hash)]
pub struct Class(u8);

impl Class {
    /// The number of classes, small and medium.
    ///
    /// ```
    /// assert_eq!(vigbuso::Class::all().count(), vigbuso::Class::COUNT);
    /// ```
    pub const COUNT: usize = (SMALL + MEDIUM) as usize;

    /// Bytes of the largest block. A longer record is for a run of pages ([`Heap::commit`](crate::Heap::commit)).
    ///
    /// ```
    /// # use vigbuso::Class;
    /// assert!(Class::for_size(Class::MAX_BYTES).is_some());
    /// assert!(Class::for_size(Class::MAX_BYTES + 1).is_none());
    /// ```
    pub const MAX_BYTES: usize = BYTES[Class::COUNT - 1] as usize;

    /// The class for a record of so many bytes: the first whose blocks are not smaller, medium above 16,384; none above
    /// [`MAX_BYTES`](Class::MAX_BYTES).
    ///
    /// ```
    /// # use vigbuso::Class;
    /// assert_eq!([0, 16, 17].map(Class::for_size), [0, 0, 1].map(Class::small));
    /// assert_eq!(Class::for_size(16_384), Class::small(45));
    /// assert_eq!([16_385, 18_433].map(Class::for_size), [0, 1].map(Class::medium));
    /// assert_eq!(Class::for_size(65_473), None);
    /// ```
    #[must_use]
    #[inline]
    pub fn for_size(bytes: usize) -> Option<Class> {
        ffi::size_class(bytes as u64)
    }

    /// The small class with a number, 0 to 63.
    ///
    /// ```
    /// # use vigbuso::Class;
    /// assert_eq!(Class::small(1).map(Class::bytes), Some(32));
    /// assert_eq!(Class::small(64), None);
    /// ```
    #[must_use]
    pub const fn small(number: u32) -> Option<Class> {
        if number < SMALL {
            Some(Class::at(number as usize))
        } else {
            None
        }
    }

    /// The medium class with a number, 0 to 11.
    ///
    /// ```
    /// # use vigbuso::Class;
    /// assert_eq!(Class::medium(0).map(Class::bytes), Some(18_432));
    /// assert_eq!(Class::medium(12), None);
    /// ```
    #[must_use]
    pub const fn medium(number: u32) -> Option<Class> {
        if number < MEDIUM {
            Some(Class::at((SMALL + number) as usize))
        } else {
            None
        }
    }

    /// The class at a place among all, below [`COUNT`](Class::COUNT).
    #[allow(clippy::cast_possible_truncation)] // it is
    pub(crate) const fn at(place: usize) -> Class {
        Class(place as u8)
    }

    /// All classes, the small ones first.
    ///
    /// ```
    /// # use vigbuso::Class;
    /// let page_of_each: usize = Class::all().map(Class::pages).sum();
    /// assert_eq!(page_of_each, 64 + 62);
    /// ```
    pub fn all() -> impl DoubleEndedIterator<Item = Class> + ExactSizeIterator + Clone {
        (0..Class::COUNT).map(Class::at)
    }

    /// Its place among all classes: 0 to 63 small, 64 to 75 medium.
    ///
    /// ```
    /// # use vigbuso::Class;
    /// assert_eq!(Class::medium(0).map(Class::index), Some(64));
    /// ```
    #[must_use]
    pub const fn index(self) -> usize {
        self.0 as usize
    }

    /// Its number in its family: 0 to 63 small, 0 to 11 medium.
    ///
    /// ```
    /// # use vigbuso::Class;
    /// assert_eq!(Class::for_size(20_000).map(Class::number), Some(1));
    /// ```
    #[must_use]
    pub const fn number(self) -> u32 {
        match self.kind() {
            Kind::Small => self.0 as u32,
            Kind::Medium => self.0 as u32 - SMALL,
        }
    }

    /// Its family, which is also the kind of its blocks' words.
    ///
    /// ```
    /// # use vigbuso::{Class, Kind};
    /// assert_eq!(Class::for_size(16_385).map(Class::kind), Some(Kind::Medium));
    /// ```
    #[must_use]
    pub const fn kind(self) -> Kind {
        if (self.0 as u32) < SMALL {
            Kind::Small
        } else {
            Kind::Medium
        }
    }

    /// Bytes of each of its blocks.
    ///
    /// ```
    /// # use vigbuso::Class;
    /// assert_eq!(Class::for_size(100).map(Class::bytes), Some(112));
    /// ```
    #[must_use]
    pub const fn bytes(self) -> usize {
        BYTES[self.index()] as usize
    }

    /// Pages of one of its runs: 1, or the pages of a span.
    ///
    /// ```
    /// # use vigbuso::Class;
    /// assert_eq!((Class::small(0).map(Class::pages), Class::medium(0).map(Class::pages)), (Some(1), Some(3)));
    /// ```
    #[must_use]
    pub const fn pages(self) -> usize {
        match self.kind() {
            Kind::Small => 1,
            Kind::Medium => (SPAN_HEADER + SPAN_BLOCKS * self.bytes()).div_ceil(PAGE_BYTES),
        }
    }

    /// Blocks of a page, or of a span.
    ///
    /// ```
    /// # use vigbuso::Class;
    /// assert_eq!((Class::small(0).map(Class::capacity), Class::medium(0).map(Class::capacity)), (Some(4_093), Some(10)));
    /// ```
    #[must_use]
    pub const fn capacity(self) -> usize {
        (self.pages() * PAGE_BYTES - self.header()) / self.bytes()
    }

    const fn header(self) -> usize {
        match self.kind() {
            Kind::Small => PAGE_HEADER,
            Kind::Medium => SPAN_HEADER,
        }
    }

    /// The block of this class at a granule; none if it has more bits than a word has below its kind.
    pub(crate) const fn block_at(self, granule: Word) -> Option<Block> {
        match self.kind() {
            Kind::Small => Block::small(granule),
            Kind::Medium => Block::medium(granule),
        }
    }

    /// The blocks of the page or span that begins at a page.
    pub(crate) fn blocks(self, first_page: u64) -> impl Iterator<Item = Block> {
        let (header, size) = ((self.header() / GRANULE_BYTES) as u64, (self.bytes() / GRANULE_BYTES) as u64);
        let first = first_page * PAGE_GRANULES + header;
        (0..self.capacity() as u64).filter_map(move |index| self.block_at(first + index * size))
    }

    /// The first page of the page or span in which a block of this class starts here; none where no block of this class can
    /// start.
    ///
    /// ```
    /// # use vigbuso::{Block, Class};
    /// let class = Class::medium(0).unwrap();
    /// // Block 4 of the span that begins at page 7.
    /// let block = Block::medium(7 * 4_096 + 4 + 4 * 18_432 / 16).unwrap();
    /// assert_eq!((block.page(), class.first_page(block)), (8, Some(7)));
    /// assert_eq!(class.first_page(Block::medium(5).unwrap()), None);
    /// ```
    #[must_use]
    pub fn first_page(self, block: Block) -> Option<u64> {
        if block.kind() != self.kind() {
            return None;
        }
        let (header, size) = ((self.header() / GRANULE_BYTES) as u64, (self.bytes() / GRANULE_BYTES) as u64);
        let (granule, capacity) = (block.granule(), self.capacity() as u64);
        match self.kind() {
            Kind::Small => {
                let place = (granule % PAGE_GRANULES).checked_sub(header)?;
                (place % size == 0 && place / size < capacity).then_some(block.page())
            }
            Kind::Medium => {
                // No two blocks of a span have the same place on their pages, so at most one index fits.
                let mut firsts = (0..capacity).filter_map(|index| granule.checked_sub(header + index * size));
                Some(firsts.find(|first| first % PAGE_GRANULES == 0)? / PAGE_GRANULES)
            }
        }
    }
}

impl fmt::Display for Class {
    fn fmt(&self, f: &mut fmt::Formatter) -> fmt::Result {
        let family = match self.kind() {
            Kind::Small => "small",
            Kind::Medium => "medium",
        };
        write!(f, "{family} class {} of {} bytes", self.number(), self.bytes())
    }
}

impl fmt::Debug for Class {
    fn fmt(&self, f: &mut fmt::Formatter) -> fmt::Result {
        write!(f, "{:?}Class({})", self.kind(), self.number())
    }
}

#[cfg(test)]
mod tests {
    use super::*;
    use crate::Heap;
    use std::collections::HashSet;

    /// Of every size: the blocks of its class suffice, and those of the class before do not.
    #[test]
    fn the_block_sizes_are_the_librarys() {
        let mut before: Option<Class> = None;
        for bytes in 0..=Class::MAX_BYTES {
            let class = Class::for_size(bytes).expect("a size that is not too large");
            if before.is_some_and(|before| before != class) {
                assert_eq!(before.map(Class::bytes), Some(bytes - 1));
            }
            assert!(class.bytes() >= bytes);
            before = Some(class);
        }
        assert_eq!(before.map(Class::index), Some(Class::COUNT - 1));
        let too_large = [Class::MAX_BYTES + 1, usize::MAX];
        assert_eq!(too_large.map(Class::for_size), [None, None]);
        assert!((45..64).all(|number| Class::small(number).map(Class::bytes) == Some(16_384)));
    }

    /// A heap of one run has just a run's blocks, and each starts where the class says.
    #[test]
    fn capacities_and_places_are_the_librarys() {
        for class in Class::all() {
            let mut heap = Heap::open(class.pages() as u64).expect("a run");
            let mut granules = HashSet::new();
            loop {
                let taken = heap.take(class).expect("an opened book");
                if taken.is_empty() {
                    break;
                }
                assert!(taken.iter().all(|&block| class.first_page(block) == Some(0)), "{class}");
                granules.extend(taken.iter().map(|block| block.granule()));
            }
            assert_eq!(granules.len(), class.capacity(), "{class}");
            let all = 0..class.pages() as u64 * PAGE_GRANULES;
            let starts = all.filter(|&granule| class.first_page(class.block_at(granule).expect("62 bits")) == Some(0));
            assert_eq!(starts.collect::<HashSet<_>>(), granules, "{class}");
            assert_eq!(class.blocks(0).map(Block::granule).collect::<HashSet<_>>(), granules, "{class}");
        }
    }

    #[test]
    fn no_two_blocks_of_a_span_have_the_same_place() {
        for class in Class::all().filter(|class| class.kind() == Kind::Medium) {
            let places: HashSet<usize> =
                (0..class.capacity()).map(|index| index * class.bytes() % PAGE_BYTES).collect();
            assert_eq!(places.len(), class.capacity());
        }
    }
}
