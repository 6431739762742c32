//! Records of one type.

use alloc::rc::Rc;
use alloc::vec::Vec;
use core::cell::RefCell;
use core::fmt;
use core::marker::PhantomData;

use crate::{AllocError, Error, Handle, OpenError, Record, Region};

/// Where a [`Store`] has its region: its own, a borrowed one, or one that it shares with other stores. On a `&Region` a store can only
/// be read.
///
/// ```
/// use std::cell::RefCell;
/// use std::rc::Rc;
/// use vigbuso::{Region, Store};
///
/// let region = Rc::new(RefCell::new(Region::open(64)?));
/// let mut words = Store::<[u8; 5], _>::on(Rc::clone(&region), 0);
/// let mut scores = Store::<i32, _>::on(Rc::clone(&region), 1);
/// let (word, score) = (words.put(b"HERON")?, scores.put(&-3)?);
/// assert_eq!((words.get(word), scores.get(score)), (Some(*b"HERON"), Some(-3)));
/// assert_eq!(Store::on(&*region.borrow(), 1).get(score), Some(-3));
/// # Ok::<(), vigbuso::Error>(())
/// ```
pub trait Keep {
    /// Asks the region.
    fn ask<A>(&self, ask: impl FnOnce(&Region) -> A) -> A;
}

/// Where a [`Store`] has a region that it can change. A shared region is borrowed for one call at a time, so that stores do not find it in
/// use; a borrow of the program's own has to end before, or the call panics.
///
/// ```
/// use vigbuso::{Handle, KeepMut, Region, Store};
///
/// /// Numbers, wherever their store has its region.
/// fn put_all(store: &mut Store<u32, impl KeepMut>, numbers: &[u32]) -> Vec<Handle<u32>> {
///     numbers.iter().filter_map(|number| store.put(number).ok()).collect()
/// }
///
/// let mut region = Region::open(64)?;
/// assert_eq!(put_all(&mut Store::on(&mut region, 0), &[7, 8]).len(), 2);
/// # Ok::<(), vigbuso::Error>(())
/// ```
pub trait KeepMut: Keep {
    /// Has the region do something.
    fn act<A>(&mut self, act: impl FnOnce(&mut Region) -> A) -> A;
}

/// A region that is there for the store alone, or borrowed.
macro_rules! keeps {
    ($($region:ty)*) => {$(
        impl Keep for $region {
            fn ask<A>(&self, ask: impl FnOnce(&Region) -> A) -> A {
                ask(self)
            }
        }
    )*};
}

keeps!(Region &Region &mut Region);

impl Keep for Rc<RefCell<Region>> {
    fn ask<A>(&self, ask: impl FnOnce(&Region) -> A) -> A {
        ask(&self.borrow())
    }
}

impl KeepMut for Region {
    fn act<A>(&mut self, act: impl FnOnce(&mut Region) -> A) -> A {
        act(self)
    }
}

impl KeepMut for &mut Region {
    fn act<A>(&mut self, act: impl FnOnce(&mut Region) -> A) -> A {
        act(self)
    }
}

impl KeepMut for Rc<RefCell<Region>> {
    fn act<A>(&mut self, act: impl FnOnce(&mut Region) -> A) -> A {
        act(&mut self.borrow_mut())
    }
}

/// Values of one type, each in a place of its own in a [`Region`].
///
/// A value is kept as its bytes ([`Record`]) and read as a copy, so there is nothing to index. Its [`Handle<T>`](Handle) says its type: a
/// handle of another type does not compile. In every build a handle whose value was removed is refused from then on, and so is one
/// of another store of the same type in the same region: stores are told apart by a number.
///
/// A store owns its region, borrows one, or shares one with others ([`Keep`], [`KeepMut`]).
///
/// ```
/// use vigbuso::{Handle, Record, Store};
///
/// /// A word and the one before it.
/// #[derive(PartialEq, Debug)]
/// struct Link { word: [u8; 5], before: Option<Handle<Link>> }
///
/// impl Record for Link {
///     const BYTES: usize = 5 + 8;
///
///     fn write(&self, bytes: &mut [u8]) {
///         (self.word, self.before).write(bytes);
///     }
///
///     fn read(bytes: &[u8]) -> Link {
///         let (word, before) = Record::read(bytes);
///         Link { word, before }
///     }
/// }
///
/// let mut links = Store::open(64)?;
/// let first = links.put(&Link { word: *b"HERON", before: None })?;
/// let second = links.put(&Link { word: *b"ASHES", before: Some(first) })?;
/// let before = links.get(second).unwrap().before.unwrap();
/// assert_eq!(links.remove(before)?.word, *b"HERON");
/// assert_eq!(links.get(first), None);
/// # Ok::<(), vigbuso::Error>(())
/// ```
///
/// A handle of a word names no number:
///
/// ```compile_fail,E0308
/// # use vigbuso::Store;
/// let mut words = Store::<[u8; 5]>::open(1)?;
/// let numbers = Store::<u32>::open(1)?;
/// let word = words.put(b"HERON")?;
/// numbers.get(word);
/// # Ok::<(), vigbuso::Error>(())
/// ```
pub struct Store<T, R = Region> {
    region: R,
    number: u16,
    records: PhantomData<fn() -> T>,
}

impl<T: Record> Store<T> {
    /// A store with a region of its own of so many pages, and number 0 there.
    ///
    /// ```
    /// # use vigbuso::Store;
    /// let mut numbers = Store::<f64>::open(64)?;
    /// let half = numbers.put(&0.5)?;
    /// assert_eq!(numbers.get(half), Some(0.5));
    /// # Ok::<(), vigbuso::Error>(())
    /// ```
    ///
    /// # Errors
    ///
    /// As [`Region::open`].
    pub fn open(pages: u64) -> Result<Store<T>, OpenError> {
        Region::open(pages).map(|region| Store::on(region, 0))
    }

    /// The region, to be asked.
    ///
    /// ```
    /// # use vigbuso::Store;
    /// let mut numbers = Store::<u64>::open(64)?;
    /// numbers.put(&7)?;
    /// assert_eq!(numbers.region().len(), 1);
    /// # Ok::<(), vigbuso::Error>(())
    /// ```
    #[must_use]
    pub fn region(&self) -> &Region {
        &self.region
    }
}

impl<T: Record, R: Keep> Store<T, R> {
    /// The store with a number in a region: what it had there, if the region was [loaded](Region::load) or had the store before.
    /// Each store of a region has a number of its own.
    ///
    /// ```
    /// # use vigbuso::{Region, Store};
    /// let mut region = Region::open(64)?;
    /// let handle = Store::on(&mut region, 5).put(&1.5_f32)?;
    /// let region = Region::load(&region.save())?;
    /// assert_eq!(Store::<f32, _>::on(region, 5).get(handle), Some(1.5));
    /// # Ok::<(), vigbuso::Error>(())
    /// ```
    ///
    /// # Panics
    ///
    /// If the number is [`Region::STORES`] or more.
    pub fn on(region: R, number: u16) -> Store<T, R> {
        assert!(number < Region::STORES, "store {number} of a region: it tells {} apart", Region::STORES);
        Store { region, number, records: PhantomData }
    }

    /// The region back.
    ///
    /// ```
    /// # use vigbuso::{Region, Store};
    /// let mut numbers = Store::<u64>::open(64)?;
    /// numbers.put(&7)?;
    /// let region: Region = numbers.into_region();
    /// assert_eq!(region.len(), 1);
    /// # Ok::<(), vigbuso::Error>(())
    /// ```
    #[must_use]
    pub fn into_region(self) -> R {
        self.region
    }

    /// A value; none if it was removed.
    ///
    /// ```
    /// # use vigbuso::Store;
    /// let mut numbers = Store::open(64)?;
    /// let handle = numbers.put(&7_u32)?;
    /// assert_eq!(numbers.get(handle), Some(7));
    /// numbers.remove(handle)?;
    /// assert_eq!(numbers.get(handle), None);
    /// # Ok::<(), vigbuso::Error>(())
    /// ```
    #[must_use]
    pub fn get(&self, handle: Handle<T>) -> Option<T> {
        self.region.ask(|region| region.stored(handle.erase(), self.number, T::BYTES).map(T::read))
    }

    /// Several values at once; none if one of them was removed.
    ///
    /// ```
    /// # use vigbuso::Store;
    /// let mut numbers = Store::open(64)?;
    /// let handles = [7_u32, 8].map(|number| numbers.put(&number).unwrap());
    /// assert_eq!(numbers.get_many(handles), Some([7, 8]));
    /// # Ok::<(), vigbuso::Error>(())
    /// ```
    #[must_use]
    pub fn get_many<const N: usize>(&self, handles: [Handle<T>; N]) -> Option<[T; N]> {
        let found: Option<Vec<T>> = handles.into_iter().map(|handle| self.get(handle)).collect();
        found?.try_into().ok()
    }

    /// Whether a handle's value is there.
    ///
    /// ```
    /// # use vigbuso::Store;
    /// let mut numbers = Store::open(64)?;
    /// let handle = numbers.put(&7_u32)?;
    /// assert!(numbers.contains(handle));
    /// # Ok::<(), vigbuso::Error>(())
    /// ```
    #[must_use]
    pub fn contains(&self, handle: Handle<T>) -> bool {
        self.region.ask(|region| region.stored(handle.erase(), self.number, T::BYTES).is_some())
    }

    /// The handles of the values that are there now. All granules of pages that were ever used are gone over, as [`Region::iter`] does.
    ///
    /// ```
    /// # use vigbuso::Store;
    /// let mut numbers = Store::open(64)?;
    /// let handle = numbers.put(&7_u32)?;
    /// assert_eq!(numbers.handles(), [handle]);
    /// # Ok::<(), vigbuso::Error>(())
    /// ```
    #[must_use]
    pub fn handles(&self) -> Vec<Handle<T>> {
        let handles = self.region.ask(|region| region.handles(self.number, T::BYTES));
        handles.into_iter().map(Handle::typed).collect()
    }

    /// The values with their handles, in the order of their places.
    ///
    /// ```
    /// # use vigbuso::Store;
    /// let mut numbers = Store::open(64)?;
    /// for number in 0..10_u32 {
    ///     numbers.put(&number)?;
    /// }
    /// assert_eq!(numbers.iter().map(|(_, number)| number).sum::<u32>(), 45);
    /// # Ok::<(), vigbuso::Error>(())
    /// ```
    pub fn iter(&self) -> impl Iterator<Item = (Handle<T>, T)> + '_ {
        self.handles().into_iter().filter_map(|handle| Some((handle, self.get(handle)?)))
    }
}

impl<T: Record, R: KeepMut> Store<T, R> {
    /// Puts a value into a place of its own.
    ///
    /// ```
    /// # use vigbuso::Store;
    /// let mut pairs = Store::open(64)?;
    /// let handle = pairs.put(&(1_u8, -2_i64))?;
    /// assert_eq!(pairs.get(handle), Some((1, -2)));
    /// # Ok::<(), vigbuso::Error>(())
    /// ```
    ///
    /// # Errors
    ///
    /// As [`Region::alloc`]; [`AllocError::TooLarge`] above [`Class::MAX_BYTES`](crate::Class::MAX_BYTES).
    pub fn put(&mut self, record: &T) -> Result<Handle<T>, AllocError> {
        if T::BYTES > crate::Class::MAX_BYTES {
            return Err(AllocError::TooLarge);
        }
        let number = self.number;
        self.region.act(|region| {
            let (handle, bytes) = region.begin(T::BYTES, 1, Some(number))?;
            record.write(bytes);
            Ok(handle.typed())
        })
    }

    /// Replaces a value and answers the old one; none, and nothing is written, where [`get`](Store::get) is none.
    ///
    /// ```
    /// # use vigbuso::Store;
    /// let mut words = Store::open(64)?;
    /// let word = words.put(b"HERON")?;
    /// assert_eq!(words.replace(word, b"ASHES"), Some(*b"HERON"));
    /// # Ok::<(), vigbuso::Error>(())
    /// ```
    pub fn replace(&mut self, handle: Handle<T>, record: &T) -> Option<T> {
        let old = self.get(handle)?;
        self.region.act(|region| region.get_mut(handle.erase()).map(|bytes| record.write(bytes)))?;
        Some(old)
    }

    /// Changes a value where it stands; false where [`get`](Store::get) is none.
    ///
    /// ```
    /// # use vigbuso::Store;
    /// let mut numbers = Store::open(64)?;
    /// let handle = numbers.put(&7_u32)?;
    /// assert!(numbers.update(handle, |number| *number += 1));
    /// assert_eq!(numbers.get(handle), Some(8));
    /// # Ok::<(), vigbuso::Error>(())
    /// ```
    #[must_use = "it is false where there is no such value"]
    pub fn update(&mut self, handle: Handle<T>, change: impl FnOnce(&mut T)) -> bool {
        let Some(mut record) = self.get(handle) else { return false };
        change(&mut record);
        self.replace(handle, &record).is_some()
    }

    /// Removes a value and answers it. From now on its handle is refused.
    ///
    /// ```
    /// # use vigbuso::{Error, Store};
    /// let mut words = Store::open(64)?;
    /// let word = words.put(b"HERON")?;
    /// assert_eq!(words.remove(word), Ok(*b"HERON"));
    /// assert_eq!(words.remove(word), Err(Error::Stale(word.erase())));
    /// # Ok::<(), Error>(())
    /// ```
    ///
    /// # Errors
    ///
    /// [`Error::Stale`] where [`get`](Store::get) is none; else as [`Region::free`].
    pub fn remove(&mut self, handle: Handle<T>) -> Result<T, Error> {
        let record = self.get(handle).ok_or(Error::Stale(handle.erase()))?;
        self.region.act(|region| region.free(handle.erase()))?;
        Ok(record)
    }
}

impl<T, R: Clone> Clone for Store<T, R> {
    fn clone(&self) -> Store<T, R> {
        Store { region: self.region.clone(), ..*self }
    }
}

impl<T, R: fmt::Debug> fmt::Debug for Store<T, R> {
    fn fmt(&self, f: &mut fmt::Formatter) -> fmt::Result {
        f.debug_struct("Store").field("number", &self.number).field("region", &self.region).finish()
    }
}
