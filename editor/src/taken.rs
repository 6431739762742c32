//! What a take answers.

use core::fmt;
use core::ops::{Deref, DerefMut};

use crate::Block;

/// The most blocks of one take.
///
/// ```
/// # use vigbuso::{Class, Heap, BATCH};
/// let blocks = Heap::open(1)?.take(Class::for_size(16).unwrap())?;
/// assert_eq!(blocks.len(), BATCH);
/// # Ok::<(), vigbuso::Refusal>(())
/// ```
pub const BATCH: usize = 64;

/// The blocks of one take, as a slice: the latest popped first; empty if the heap had none to give. It needs no memory
/// of its own.
///
/// They may be on more than one page, as soon as the class has two partial pages: [`Heap::release_all`](crate::Heap::release_all)
/// takes them back together, [`Heap::release`](crate::Heap::release) page by page.
///
/// ```
/// use vigbuso::{Class, Heap};
///
/// let taken = Heap::open(64)?.take(Class::for_size(16_384).unwrap())?;
/// let granules: Vec<u64> = taken.iter().map(|block| block.granule()).collect();
/// assert_eq!(granules, [2051, 1027, 3]);
/// assert!(taken.is_virgin());
/// # Ok::<(), vigbuso::Refusal>(())
/// ```
#[derive(Clone)]
#[must_use = "the blocks are out until they are released"]
pub struct Taken {
    list: [Block; BATCH],
    count: usize,
    virgin: bool,
}

impl Taken {
    pub(crate) const NONE: Taken = Taken { list: [Block::FILLER; BATCH], count: 0, virgin: false };

    /// The whole list, to be lent to a take.
    pub(crate) fn room(&mut self) -> &mut [Block] {
        &mut self.list
    }

    /// What the take answered.
    pub(crate) fn set(&mut self, count: u32, virgin: u32) {
        self.count = count as usize;
        self.virgin = virgin == 1;
    }

    /// The blocks.
    ///
    /// ```
    /// # use vigbuso::{Class, Heap};
    /// let taken = Heap::open(64)?.take(Class::medium(0).unwrap())?;
    /// assert_eq!(taken.blocks().len(), 10);
    /// # Ok::<(), vigbuso::Refusal>(())
    /// ```
    #[must_use]
    pub fn blocks(&self) -> &[Block] {
        &self.list[..self.count]
    }

    /// Whether a block came and each came from a virgin page: no block was released to it since it came from the arena, or went
    /// cold with a discard that zeroed it. A span that comes back from cold never is virgin.
    ///
    /// It speaks of pages and not of bytes. The blocks read as zeroes only if whoever keeps the arena sees to it: pages were
    /// zero at the start, those that go back to the arena ([`Fate::Arena`](crate::Fate::Arena),
    /// [`Heap::release_run`](crate::Heap::release_run)) are zeroed or discarded, and the host word says no more than is done
    /// ([`Host::ALL`](crate::Host::ALL) with a plain `Vec` does not).
    ///
    /// ```
    /// # use vigbuso::{Class, Heap};
    /// let mut heap = Heap::open(64)?;
    /// let class = Class::for_size(16_384).unwrap();
    /// let taken = heap.take(class)?;
    /// heap.release(class, &taken)?;
    /// assert!(taken.is_virgin() && !heap.take(class)?.is_virgin());
    /// # Ok::<(), vigbuso::Refusal>(())
    /// ```
    #[must_use]
    pub fn is_virgin(&self) -> bool {
        self.virgin
    }
}

impl Deref for Taken {
    type Target = [Block];

    fn deref(&self) -> &[Block] {
        self.blocks()
    }
}

/// So that [`Heap::release_all`](crate::Heap::release_all) can sort them.
impl DerefMut for Taken {
    fn deref_mut(&mut self) -> &mut [Block] {
        &mut self.list[..self.count]
    }
}

impl<'a> IntoIterator for &'a Taken {
    type Item = &'a Block;
    type IntoIter = core::slice::Iter<'a, Block>;

    fn into_iter(self) -> Self::IntoIter {
        self.blocks().iter()
    }
}

impl IntoIterator for Taken {
    type Item = Block;
    type IntoIter = core::iter::Take<core::array::IntoIter<Block, BATCH>>;

    fn into_iter(self) -> Self::IntoIter {
        self.list.into_iter().take(self.count)
    }
}

impl PartialEq for Taken {
    fn eq(&self, other: &Taken) -> bool {
        self.blocks() == other.blocks() && self.virgin == other.virgin
    }
}

impl Eq for Taken {}

impl fmt::Debug for Taken {
    fn fmt(&self, f: &mut fmt::Formatter) -> fmt::Result {
        f.debug_struct("Taken").field("blocks", &self.blocks()).field("virgin", &self.virgin).finish_non_exhaustive()
    }
}
