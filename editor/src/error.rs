//! What a call can fail with beside its number.

use core::error;
use core::fmt;

use crate::{Block, Handle, Refusal};

/// All that a call of this crate can fail with. Every other error becomes one by `?`, so a program of several calls has one type.
/// Later versions may have more of them.
///
/// ```
/// use vigbuso::{Class, Error, Pool, Refusal};
///
/// fn both() -> Result<(), Error> {
///     let mut pool = Pool::try_open(64)?;
///     let block = pool.alloc(100)?;
///     pool.heap_mut().release(Class::for_size(100).unwrap(), &[block])?; // it is the pool's
///     pool.free(block)?;
///     Ok(())
/// }
/// assert_eq!(both().unwrap_err().refusal(), Some(Refusal::NotOut));
/// ```
#[derive(Clone, Copy, PartialEq, Eq, Debug)]
#[non_exhaustive]
pub enum Error {
    /// A call was refused.
    Refused(Refusal),
    /// Blocks were not released.
    Release(ReleaseError),
    /// A block was not freed.
    Free(FreeError),
    /// Nothing was opened.
    Open(OpenError),
    /// There is no block for a record.
    Alloc(AllocError),
    /// A save was not loaded.
    Load(LoadError),
    /// The handle's record was freed.
    Stale(Handle),
}

impl Error {
    /// The refusal of the library's call; none where the crate itself has found out.
    ///
    /// ```
    /// # use vigbuso::{AllocError, Error, Refusal};
    /// assert_eq!(Error::from(Refusal::NotOut).refusal(), Some(Refusal::NotOut));
    /// assert_eq!(Error::from(AllocError::Full).refusal(), None);
    /// ```
    #[must_use]
    pub const fn refusal(&self) -> Option<Refusal> {
        match self {
            Error::Refused(refusal)
            | Error::Open(OpenError::Refused(refusal))
            | Error::Alloc(AllocError::Refused(refusal))
            | Error::Load(LoadError::Refused(refusal)) => Some(*refusal),
            Error::Release(error) => Some(error.refusal()),
            Error::Free(error) => Some(error.refusal()),
            Error::Open(_) | Error::Alloc(_) | Error::Load(_) | Error::Stale(_) => None,
        }
    }
}

impl fmt::Display for Error {
    fn fmt(&self, f: &mut fmt::Formatter) -> fmt::Result {
        match self {
            Error::Refused(error) => error.fmt(f),
            Error::Release(error) => error.fmt(f),
            Error::Free(error) => error.fmt(f),
            Error::Open(error) => error.fmt(f),
            Error::Alloc(error) => error.fmt(f),
            Error::Load(error) => error.fmt(f),
            Error::Stale(handle) => write!(f, "the record of {handle:?} was freed, or was never here"),
        }
    }
}

impl error::Error for Error {
    /// It prints as the error that it is, so what is below is what caused that one.
    fn source(&self) -> Option<&(dyn error::Error + 'static)> {
        match self {
            Error::Refused(_) | Error::Stale(_) => None,
            Error::Release(error) => error.source(),
            Error::Free(error) => error.source(),
            Error::Open(error) => error.source(),
            Error::Alloc(error) => error.source(),
            Error::Load(error) => error.source(),
        }
    }
}

/// An error of one kind is one of all.
macro_rules! errors {
    ($($name:ident $error:ty)*) => {$(
        impl From<$error> for Error {
            fn from(error: $error) -> Error {
                Error::$name(error)
            }
        }
    )*};
}

errors! {
    Refused Refusal
    Release ReleaseError
    Free FreeError
    Open OpenError
    Alloc AllocError
    Load LoadError
}

/// Why blocks were not released: the refusal, and the first block to blame with its place in the list.
///
/// ```
/// use vigbuso::{Class, Heap, Refusal};
///
/// let mut heap = Heap::open(64)?;
/// let class = Class::for_size(24).unwrap();
/// let blocks = heap.take(class)?;
/// heap.release(class, &blocks[5..6])?;
/// let error = heap.release(class, &blocks).unwrap_err();
/// assert_eq!(error.refusal(), Refusal::NotOut);
/// assert_eq!(error.block(), Some((5, blocks[5])));
/// assert!(error.to_string().ends_with(": Small(119) at place 5 of the list"));
/// # Ok::<(), Refusal>(())
/// ```
#[derive(Clone, Copy, PartialEq, Eq, Debug)]
pub struct ReleaseError {
    refusal: Refusal,
    block: Option<(usize, Block)>,
    released: usize,
}

impl ReleaseError {
    pub(crate) fn new(refusal: Refusal, block: Option<(usize, Block)>) -> ReleaseError {
        ReleaseError { refusal, block, released: 0 }
    }

    /// The same error of a list of which this was the part from a place on.
    pub(crate) fn after(self, released: usize) -> ReleaseError {
        let block = self.block.map(|(place, block)| (released + place, block));
        ReleaseError { block, released, ..self }
    }

    /// The number of the refusal, and what it means.
    ///
    /// ```
    /// # use vigbuso::{Class, Heap, Refusal};
    /// let mut heap = Heap::open(64)?;
    /// let error = heap.release(Class::for_size(24).unwrap(), &[]).unwrap_err();
    /// assert_eq!(error.refusal(), Refusal::EmptyList);
    /// # Ok::<(), Refusal>(())
    /// ```
    #[must_use]
    pub const fn refusal(&self) -> Refusal {
        self.refusal
    }

    /// The first block of the list that the refusal is about, with its place, counted from 0; of one that stands twice, its second
    /// place. None where the refusal is about no block.
    ///
    /// ```
    /// # use vigbuso::{Class, Heap};
    /// let mut heap = Heap::open(64)?;
    /// let [small, medium] = [24, 20_000].map(|bytes| Class::for_size(bytes).unwrap());
    /// let mut list = heap.take(small)?.to_vec();
    /// list[7] = heap.take(medium)?[0];
    /// assert_eq!(heap.release(small, &list).unwrap_err().block(), Some((7, list[7])));
    /// # Ok::<(), vigbuso::Refusal>(())
    /// ```
    #[must_use]
    pub const fn block(&self) -> Option<(usize, Block)> {
        self.block
    }

    /// How many blocks, from the list's start on, are back nevertheless. It is 0 for all but
    /// [`release_all`](crate::Heap::release_all), which makes several calls of one list.
    ///
    /// ```
    /// # use vigbuso::{Class, Heap};
    /// let mut heap = Heap::open(64)?;
    /// let class = Class::for_size(24).unwrap();
    /// let error = heap.release(class, &[]).unwrap_err();
    /// assert_eq!(error.released(), 0);
    /// # Ok::<(), vigbuso::Refusal>(())
    /// ```
    #[must_use]
    pub const fn released(&self) -> usize {
        self.released
    }
}

impl From<ReleaseError> for Refusal {
    fn from(error: ReleaseError) -> Refusal {
        error.refusal
    }
}

impl fmt::Display for ReleaseError {
    fn fmt(&self, f: &mut fmt::Formatter) -> fmt::Result {
        self.refusal.fmt(f)?;
        match self.block {
            Some((place, block)) => write!(f, ": {block:?} at place {place} of the list"),
            None => Ok(()),
        }
    }
}

impl error::Error for ReleaseError {
    fn source(&self) -> Option<&(dyn error::Error + 'static)> {
        Some(&self.refusal)
    }
}

/// Why a pool did not take a block back: the refusal, and the block.
///
/// ```
/// use vigbuso::{Block, Pool, Refusal};
///
/// let error = Pool::open(64)?.free(Block::small(119).unwrap()).unwrap_err();
/// assert_eq!(error.refusal(), Refusal::NotOut);
/// assert_eq!(error.to_string(), "refused as 10: a block is not out in this class: Small(119)");
/// # Ok::<(), Refusal>(())
/// ```
#[derive(Clone, Copy, PartialEq, Eq, Debug)]
pub struct FreeError {
    refusal: Refusal,
    block: Block,
}

impl FreeError {
    pub(crate) const fn new(refusal: Refusal, block: Block) -> FreeError {
        FreeError { refusal, block }
    }

    /// The number of the refusal, and what it means.
    ///
    /// ```
    /// # use vigbuso::{Pool, Refusal};
    /// let mut pool = Pool::open(64)?;
    /// let block = pool.alloc(100)?;
    /// pool.free(block)?;
    /// assert_eq!(pool.free(block).unwrap_err().refusal(), Refusal::NotOut);
    /// # Ok::<(), vigbuso::Error>(())
    /// ```
    #[must_use]
    pub const fn refusal(&self) -> Refusal {
        self.refusal
    }

    /// The block.
    ///
    /// ```
    /// # use vigbuso::Pool;
    /// let mut pool = Pool::open(64)?;
    /// let block = pool.alloc(100)?;
    /// pool.free(block)?;
    /// assert_eq!(pool.free(block).unwrap_err().block(), block);
    /// # Ok::<(), vigbuso::Error>(())
    /// ```
    #[must_use]
    pub const fn block(&self) -> Block {
        self.block
    }
}

impl From<FreeError> for Refusal {
    fn from(error: FreeError) -> Refusal {
        error.refusal
    }
}

impl fmt::Display for FreeError {
    fn fmt(&self, f: &mut fmt::Formatter) -> fmt::Result {
        write!(f, "{}: {:?}", self.refusal, self.block)
    }
}

impl error::Error for FreeError {
    fn source(&self) -> Option<&(dyn error::Error + 'static)> {
        Some(&self.refusal)
    }
}

/// Why [`Heap::try_open`](crate::Heap::try_open), [`Pool::try_open`](crate::Pool::try_open) or
/// [`Region::open`](crate::Region::open) opened nothing.
///
/// ```
/// use vigbuso::{Heap, OpenError, Refusal};
///
/// assert_eq!(Heap::try_open(0), Err(OpenError::Refused(Refusal::ArenaLength)));
/// ```
#[derive(Clone, Copy, PartialEq, Eq, Debug)]
pub enum OpenError {
    /// The opening was refused.
    Refused(Refusal),
    /// There is no memory for so many bytes: of the book, or of a region's arena or marks.
    NoMemory {
        /// Bytes of it.
        bytes: usize,
    },
}

impl fmt::Display for OpenError {
    fn fmt(&self, f: &mut fmt::Formatter) -> fmt::Result {
        match self {
            OpenError::Refused(refusal) => refusal.fmt(f),
            OpenError::NoMemory { bytes } => write!(f, "no memory for {bytes} bytes"),
        }
    }
}

impl error::Error for OpenError {}

/// Why a [`Pool`](crate::Pool) has no block for a record, or a [`Region`](crate::Region) no place.
///
/// ```
/// use vigbuso::{AllocError, Pool};
///
/// let mut pool = Pool::open(1)?;
/// assert_eq!(pool.alloc(65_473), Err(AllocError::TooLarge));
/// assert_eq!(pool.alloc(20_000), Err(AllocError::Full)); // a span has three pages
/// # Ok::<(), vigbuso::Refusal>(())
/// ```
#[derive(Clone, Copy, PartialEq, Eq, Debug)]
pub enum AllocError {
    /// The record exceeds [`Class::MAX_BYTES`](crate::Class::MAX_BYTES), the most of a pool and of a store. A
    /// [`Region`](crate::Region) answers this from 2 GiB on.
    TooLarge,
    /// The arena has no page left for it; for a medium block or a record in pages of its own, not enough of them side by side.
    Full,
    /// The alignment is not a power of two up to [`PAGE_BYTES`](crate::PAGE_BYTES).
    Alignment,
    /// The take was refused, which only a damaged book can cause.
    Refused(Refusal),
}

impl fmt::Display for AllocError {
    fn fmt(&self, f: &mut fmt::Formatter) -> fmt::Result {
        match self {
            AllocError::TooLarge => f.write_str("the record is too large"),
            AllocError::Alignment => f.write_str("the alignment is not a power of two up to 65,536"),
            AllocError::Full => f.write_str("the arena has no page left for the record's class"),
            AllocError::Refused(refusal) => refusal.fmt(f),
        }
    }
}

impl error::Error for AllocError {}

/// Why bytes were not loaded as the heap, pool or region that they should be. Later versions may have more reasons.
///
/// ```
/// use vigbuso::{LoadError, Pool};
///
/// let saved = Pool::open(64)?.save();
/// let mut newer = saved.clone();
/// newer[8] = 9;
/// assert_eq!(Pool::load(&newer), Err(LoadError::Format(9)));
/// assert_eq!(Pool::load(&saved[..saved.len() - 1]), Err(LoadError::Cut));
/// # Ok::<(), vigbuso::Error>(())
/// ```
#[derive(Clone, Copy, PartialEq, Eq, Debug)]
#[non_exhaustive]
pub enum LoadError {
    /// They do not begin as a save does.
    NotASave,
    /// They are a save in another format: 1 was that of 0.6.0.
    Format(u32),
    /// They end too early.
    Cut,
    /// A byte was changed, or there are bytes behind the end: the checksum is another.
    Changed,
    /// They are a save of something else: of a heap, a pool or a region that was not asked for.
    Content,
    /// The checksum is right, and yet its parts do not fit each other.
    Damaged,
    /// The checksum is right, and yet the book is refused.
    Refused(Refusal),
    /// There is no memory for what it holds.
    NoMemory {
        /// Bytes of what there was no memory for.
        bytes: usize,
    },
}

impl fmt::Display for LoadError {
    fn fmt(&self, f: &mut fmt::Formatter) -> fmt::Result {
        match self {
            LoadError::NotASave => f.write_str("the bytes do not begin as a save does"),
            LoadError::Format(format) => write!(f, "the save has format {format}, which this version does not read"),
            LoadError::Cut => f.write_str("the save is cut off"),
            LoadError::Changed => f.write_str("the save was changed: its checksum is another"),
            LoadError::Content => f.write_str("it is a save of something else"),
            LoadError::Damaged => f.write_str("the parts of the save do not fit each other"),
            LoadError::Refused(refusal) => refusal.fmt(f),
            LoadError::NoMemory { bytes } => write!(f, "no memory for {bytes} bytes"),
        }
    }
}

impl error::Error for LoadError {}
