//! Block words.

use core::fmt;
use core::num::NonZero;
use core::ops::Range;

use crate::{GRANULE_BYTES, PAGE_BYTES};

/// The word that names a block or a chunk between editor and heap. Its width is said here and nowhere else: the kind has
/// the top two bits.
///
/// ```
/// assert_eq!(vigbuso::Word::BITS, 64);
/// ```
pub type Word = u64;

/// Bits of a word below its kind.
pub(crate) const LOW_BITS: u32 = Word::BITS - 2;

/// Granules of a page.
pub(crate) const PAGE_GRANULES: Word = (PAGE_BYTES / GRANULE_BYTES) as Word;

/// What kind of block a word names, and which of the two families a class is of.
///
/// ```
/// # use vigbuso::{Block, Kind};
/// assert_eq!(Block::small(66).map(Block::kind), Some(Kind::Small));
/// ```
#[derive(Clone, Copy, PartialEq, Eq, PartialOrd, Ord, Hash, Debug)]
pub enum Kind {
    /// A block of at most 16,384 bytes, on a page with others of its class.
    Small = 1,
    /// A block of at most 65,472 bytes, in a span of several pages.
    Medium = 2,
}

/// A block that the heap hands out: a [`Word`] with the kind in its top two bits and the block's first granule, counted
/// from the arena's start, in the others.
///
/// It is only a number, as an index is: it borrows nothing, and a copy of it does not keep the block. So it may be stored as
/// its [`word`](Block::word), in the arena too, and read back. `Option<Block>` is no longer than `Block`.
///
/// # Stale and foreign blocks
///
/// - A *stale* block was released. Releasing it once more is refused as [`NotOut`](crate::Refusal::NotOut) and changes
///   nothing, but only until a take hands the same bytes out again: from then on the old copy names the new block, and no
///   call can tell the two apart. Nothing stops a program from reading or writing the arena by a stale block.
/// - A *foreign* block was never handed out by this heap: made from a number, or of another heap. A release refuses it as
///   `NotOut`, or as [`WrongKind`](crate::Refusal::WrongKind) if it is of the other family, unless the same block of this
///   heap happens to be out.
/// - A block that is out in another class is `NotOut` in this one. A [`Pool`](crate::Pool)'s classes are others than the heap's of the
///   same size: what the pool has granted is `NotOut` in a release, and what a take has handed out in a pool's free.
/// - A block that is out and stands twice in one list is refused as [`Repeated`](crate::Refusal::Repeated).
///
/// No such block makes a call read or write anything but the book. A [`Pool`](crate::Pool) refuses all of these at once, until it has
/// granted the same block again; a [`Handle`](crate::Handle) of a [`Region`](crate::Region) is refused for good.
///
/// ```
/// use vigbuso::{Block, Class, Heap, Kind};
///
/// let class = Class::for_size(16).unwrap();
/// let blocks = Heap::open(64)?.take(class)?;
/// let block = blocks[0];
/// assert_eq!((block.kind(), block.granule(), block.byte_offset()), (Kind::Small, 66, 1056));
/// assert_eq!(block.word(), 4_611_686_018_427_387_970);
/// assert_eq!(Block::from_word(4_611_686_018_427_387_970), Some(block));
/// assert_eq!(size_of::<Option<Block>>(), size_of::<Block>());
/// # Ok::<(), vigbuso::Refusal>(())
/// ```
#[derive(Clone, Copy, PartialEq, Eq, PartialOrd, Ord, Hash)]
#[repr(transparent)]
pub struct Block(NonZero<Word>);

impl Block {
    /// Stands where no block was written: granule 0 is a page's header, so no block has it.
    pub(crate) const FILLER: Block = match Block::small(0) {
        Some(filler) => filler,
        None => unreachable!(),
    };

    /// The block that a word names; none if it is of another kind.
    ///
    /// ```
    /// # use vigbuso::Block;
    /// assert_eq!(Block::from_word(0), None);
    /// assert_eq!(Block::from_word(1 << 62 | 3), Block::small(3));
    /// ```
    #[must_use]
    pub const fn from_word(word: Word) -> Option<Block> {
        match (word >> LOW_BITS, NonZero::new(word)) {
            (1 | 2, Some(word)) => Some(Block(word)),
            _ => None,
        }
    }

    /// The small block at a granule; none if it has more bits than a word has below its kind.
    ///
    /// ```
    /// # use vigbuso::Block;
    /// assert_eq!(Block::small(3).map(Block::byte_offset), Some(48));
    /// assert_eq!(Block::small(1 << 62), None);
    /// ```
    #[must_use]
    pub const fn small(granule: Word) -> Option<Block> {
        Block::of(Kind::Small, granule)
    }

    /// The medium block at a granule; none if it has more bits than a word has below its kind.
    ///
    /// ```
    /// # use vigbuso::Block;
    /// assert_eq!(Block::medium(4).map(Block::byte_offset), Some(64));
    /// ```
    #[must_use]
    pub const fn medium(granule: Word) -> Option<Block> {
        Block::of(Kind::Medium, granule)
    }

    /// Names a page to those that ask of a block's page alone: its first granule, in the page's header.
    pub(crate) const fn first_of(page: u64) -> Block {
        match Block::small(page * PAGE_GRANULES) {
            Some(block) => block,
            None => Block::FILLER,
        }
    }

    const fn of(kind: Kind, granule: Word) -> Option<Block> {
        match granule >> LOW_BITS {
            0 => Block::from_word((kind as Word) << LOW_BITS | granule),
            _ => None,
        }
    }

    /// The word that passes between editor and heap.
    ///
    /// ```
    /// # use vigbuso::Block;
    /// assert_eq!(Block::small(3).map(Block::word), Some(1 << 62 | 3));
    /// ```
    #[must_use]
    pub const fn word(self) -> Word {
        self.0.get()
    }

    /// Small or medium.
    ///
    /// ```
    /// # use vigbuso::{Block, Kind};
    /// assert_eq!(Block::medium(4).map(Block::kind), Some(Kind::Medium));
    /// ```
    #[must_use]
    pub const fn kind(self) -> Kind {
        match self.word() >> LOW_BITS {
            1 => Kind::Small,
            _ => Kind::Medium,
        }
    }

    /// The block's first granule, counted from the arena's start.
    ///
    /// ```
    /// # use vigbuso::Block;
    /// assert_eq!(Block::small(66).map(Block::granule), Some(66));
    /// ```
    #[must_use]
    pub const fn granule(self) -> Word {
        self.word() & ((1 << LOW_BITS) - 1)
    }

    /// The block's first byte, counted from the arena's start. Of a foreign block beyond 64 bits it is `u64::MAX`, where no arena
    /// has a byte.
    ///
    /// ```
    /// # use vigbuso::Block;
    /// assert_eq!(Block::small(66).map(Block::byte_offset), Some(66 * 16));
    /// assert_eq!(Block::small(1 << 60).map(Block::byte_offset), Some(u64::MAX));
    /// ```
    #[must_use]
    pub const fn byte_offset(self) -> u64 {
        self.granule().saturating_mul(GRANULE_BYTES as u64)
    }

    /// The block's first `len` bytes, to index the arena with. The block does not tell its size: `len` is at most its class's
    /// [`bytes`](crate::Class::bytes), or the range goes on into the next block. [`Pool::range`](crate::Pool::range) has just the
    /// block's bytes, and a [`Region`](crate::Region) reaches no other.
    ///
    /// ```
    /// use vigbuso::{Class, Heap, PAGE_BYTES};
    ///
    /// let mut arena = vec![0; PAGE_BYTES];
    /// let blocks = Heap::open(1)?.take(Class::for_size(5).unwrap())?;
    /// arena[blocks[0].range(5)].copy_from_slice(b"ASHEN");
    /// assert_eq!(blocks[0].range(5), 1056..1061);
    /// # Ok::<(), vigbuso::Refusal>(())
    /// ```
    #[must_use]
    pub const fn range(self, len: usize) -> Range<usize> {
        #[allow(clippy::cast_possible_truncation)] // the library links into 64-bit programs only
        let start = self.byte_offset() as usize;
        start..start.saturating_add(len)
    }

    /// The page of the block's first byte. Of a foreign block it may be beyond every arena.
    ///
    /// ```
    /// # use vigbuso::Block;
    /// assert_eq!(Block::small(4096 + 3).map(Block::page), Some(1));
    /// ```
    #[must_use]
    pub const fn page(self) -> u64 {
        self.granule() / PAGE_GRANULES
    }
}

impl fmt::Debug for Block {
    fn fmt(&self, f: &mut fmt::Formatter) -> fmt::Result {
        write!(f, "{:?}({})", self.kind(), self.granule())
    }
}

#[cfg(test)]
mod tests {
    use super::*;

    /// A kind is never 0, so no block's word is: `None` takes no place of its own.
    #[test]
    fn no_block_is_as_large_as_a_block() {
        assert_eq!((size_of::<Block>(), size_of::<Option<Block>>()), (8, 8));
        assert_eq!([0, 3, Word::MAX >> 2, 3 << LOW_BITS, Word::MAX].map(Block::from_word), [None; 5]);
        assert_eq!(Block::from_word(1 << LOW_BITS), Block::small(0));
        assert_eq!(Block::from_word(2 << LOW_BITS), Block::medium(0));
    }

    /// Every bit below the kind is the granule's, and nothing wraps.
    #[test]
    fn a_granule_has_62_bits() {
        let last = Block::small((1 << 62) - 1).expect("62 bits");
        assert_eq!((last.kind(), last.granule(), last.page()), (Kind::Small, (1 << 62) - 1, (1 << 50) - 1));
        assert_eq!((last.byte_offset(), last.range(5)), (u64::MAX, usize::MAX..usize::MAX));
        let far = Block::medium((1 << 32) + 3).expect("62 bits");
        assert_eq!((far.byte_offset(), far.page()), ((1 << 36) + 48, 1 << 20));
        assert_eq!(Block::small(1 << 62), None);
    }
}
