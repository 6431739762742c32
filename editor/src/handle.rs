//! Names of records in a region.

use core::cmp::Ordering;
use core::fmt;
use core::hash::{Hash, Hasher};
use core::marker::PhantomData;
use core::num::NonZero;

/// Names a record of a [`Region`](crate::Region), or of a [`Store`](crate::Store) of `T`. It is a number of 64 bits, as large as
/// `Option<Handle<T>>`: the granule at which the record's block begins, and how often that granule was used.
///
/// A handle borrows nothing and may be copied and kept anywhere, in records too ([`Record`](crate::Record)). In every build it is
/// good until its record is freed, and never after that: the next record at the same granule has another number, and one that has
/// used up all of its numbers is not given away any more. A region that is saved and loaded still tells its handles.
///
/// What it does not tell is the region. A handle of another region is refused, unless just that granule was used just as often
/// here.
///
/// ```
/// use vigbuso::{Handle, Region};
///
/// let mut region = Region::open(64)?;
/// let first = region.alloc(b"HERON")?;
/// region.free(first)?;
/// let second = region.alloc(b"ASHEN")?;
/// assert_eq!((first.granule(), first == second), (second.granule(), false));
/// assert_eq!((region.get(first), region.get(second)), (None, Some(&b"ASHEN"[..])));
/// assert_eq!(size_of::<Option<Handle>>(), 8);
/// # Ok::<(), vigbuso::Error>(())
/// ```
pub struct Handle<T: ?Sized = [u8]> {
    bits: NonZero<u64>,
    record: PhantomData<fn() -> T>,
}

impl<T: ?Sized> Handle<T> {
    /// A handle that no region has: its granule is a page's second one, where no block begins and no run does.
    pub(crate) const NOBODYS: Handle<T> = match Handle::new(1, 1) {
        Some(handle) => handle,
        None => unreachable!(),
    };

    /// The handle of a granule's use. The use is odd, as those of records are: the numbers between are of the times without one.
    pub(crate) const fn new(granule: u32, uses: u32) -> Option<Handle<T>> {
        match NonZero::new((granule as u64) << 32 | uses as u64) {
            Some(bits) if uses % 2 == 1 => Some(Handle { bits, record: PhantomData }),
            _ => None,
        }
    }

    /// The handle as a number, to be stored where handles cannot be.
    ///
    /// ```
    /// # use vigbuso::{Handle, Region};
    /// let handle = Region::open(1)?.alloc(b"HERON")?;
    /// assert_eq!(Handle::from_bits(handle.bits()), Some(handle));
    /// # Ok::<(), vigbuso::Error>(())
    /// ```
    #[must_use]
    pub const fn bits(self) -> u64 {
        self.bits.get()
    }

    /// The handle with such a number; none if no handle has it. Whether there is a record, and of which type, the region and the
    /// store find out.
    ///
    /// ```
    /// # use vigbuso::Handle;
    /// assert_eq!(Handle::<u32>::from_bits(0), None);
    /// ```
    #[must_use]
    #[allow(clippy::cast_possible_truncation)] // it is taken apart
    pub const fn from_bits(bits: u64) -> Option<Handle<T>> {
        Handle::new((bits >> 32) as u32, bits as u32)
    }

    /// The granule at which the record's block begins, counted from the arena's start.
    ///
    /// ```
    /// # use vigbuso::Region;
    /// assert_eq!(Region::open(1)?.alloc(b"HERON")?.granule(), 3);
    /// # Ok::<(), vigbuso::Error>(())
    /// ```
    #[must_use]
    #[allow(clippy::cast_possible_truncation)] // it is taken apart
    pub const fn granule(self) -> u32 {
        (self.bits() >> 32) as u32
    }

    /// Which use of the granule it is.
    #[allow(clippy::cast_possible_truncation)] // it is taken apart
    pub(crate) const fn uses(self) -> u32 {
        self.bits() as u32
    }

    /// The same record as bytes, for the methods of [`Region`](crate::Region).
    ///
    /// ```
    /// # use vigbuso::Store;
    /// let mut numbers = Store::<u32>::open(1)?;
    /// let handle = numbers.put(&7)?;
    /// assert_eq!(numbers.region().get(handle.erase()), Some(&[7, 0, 0, 0][..]));
    /// # Ok::<(), vigbuso::Error>(())
    /// ```
    #[must_use]
    pub const fn erase(self) -> Handle {
        Handle { bits: self.bits, record: PhantomData }
    }

    /// The same record as one of a type.
    pub(crate) const fn typed<U: ?Sized>(self) -> Handle<U> {
        Handle { bits: self.bits, record: PhantomData }
    }
}

impl<T: ?Sized> Clone for Handle<T> {
    fn clone(&self) -> Handle<T> {
        *self
    }
}

impl<T: ?Sized> Copy for Handle<T> {}

impl<T: ?Sized> PartialEq for Handle<T> {
    fn eq(&self, other: &Handle<T>) -> bool {
        self.bits == other.bits
    }
}

impl<T: ?Sized> Eq for Handle<T> {}

impl<T: ?Sized> PartialOrd for Handle<T> {
    fn partial_cmp(&self, other: &Handle<T>) -> Option<Ordering> {
        Some(self.cmp(other))
    }
}

impl<T: ?Sized> Ord for Handle<T> {
    fn cmp(&self, other: &Handle<T>) -> Ordering {
        self.bits.cmp(&other.bits)
    }
}

impl<T: ?Sized> Hash for Handle<T> {
    fn hash<H: Hasher>(&self, state: &mut H) {
        self.bits.hash(state);
    }
}

impl<T: ?Sized> fmt::Debug for Handle<T> {
    fn fmt(&self, f: &mut fmt::Formatter) -> fmt::Result {
        write!(f, "Handle({} use {})", self.granule(), self.uses().div_ceil(2))
    }
}
