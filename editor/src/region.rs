//! Records in an arena of their own.

use alloc::vec::Vec;
use core::fmt;
use core::iter::FusedIterator;
use core::ops::{Index, IndexMut, Range};

use crate::arena::Arena;
use crate::block::PAGE_GRANULES;
use crate::book::{copy_used, frontier};
use crate::heap::zeroes;
use crate::save::{Content, Writer};
use crate::{
    AllocError, Class, Error, Handle, LoadError, OpenError, Pool, PoolReport, Refusal, Rules, Run, GRANULE_BYTES,
    PAGE_BYTES,
};

/// The most bytes of a record that is aligned in a block, its alignment included: a larger one has pages of its own.
const ALIGNED: usize = 16_384;

/// Records of any length, in an arena that is the region's own: one value that has the bytes, the [`Pool`] that deals them out and
/// the length of each record.
///
/// [`alloc`](Region::alloc) copies a record in and answers a [`Handle`], by which it is read, changed, resized and freed. A
/// record's bytes are just those that were given: no neighbour is ever reached. A handle whose record was freed is refused from then on,
/// in every build, whatever stands at its place now.
///
/// Records up to [`Class::MAX_BYTES`] bytes stand in the pool's blocks, longer ones, up to 2 GiB less a byte, in pages of their own.
/// Records of about one length share pages: each of 46 lengths of blocks needs a page at least, and each of 12 above 16,384 bytes three to
/// eight side by side. So a region for records of many lengths has some pages more than their bytes need, or the answer is soon
/// [`AllocError::Full`]. A page without a record serves every length again, unless so much went back that the arena has
/// [abandoned](crate::Report) pages.
///
/// Beside the arena, its book takes a quarter of its length and the marks of its granules a half. That is address space: only what
/// belongs to pages that were used is ever touched.
///
/// A region is a value: it is cloned, compared, and [saved](Region::save) and [loaded](Region::load) with all of its records. What the
/// pool does is proved; what the region does on top is tested.
///
/// ```
/// use vigbuso::Region;
///
/// let mut region = Region::open(64)?; // of 64 pages, 4 MiB
/// let word = region.alloc(b"CROSSWORD")?;
/// assert_eq!(region.get(word), Some(&b"CROSSWORD"[..]));
/// region[word][..5].copy_from_slice(b"PASSW");
/// assert_eq!(&region[word], b"PASSWWORD");
/// region.free(word)?;
/// assert!(region.free(word).is_err());
/// assert_eq!(region.get(word), None);
/// # Ok::<(), vigbuso::Error>(())
/// ```
pub struct Region {
    pool: Pool,
    arena: Arena,
    /// By granule: [`Mark`]s.
    marks: Vec<u64>,
    records: usize,
    bytes: u64,
}

/// What a region knows of a granule.
#[derive(Clone, Copy, Default)]
struct Mark {
    /// How often a record began and ended here: odd as long as one is here.
    uses: u32,
    /// Of a record in pages of its own its length, with [`Mark::PAGES`]. Else its length in the low 16 bits, and above them its store's
    /// number, with [`Mark::STORED`], or how many granules behind the block's start it stands.
    measure: u32,
}

impl Mark {
    const PAGES: u32 = 1 << 31;
    const STORED: u32 = 1 << 30;

    /// How many numbers stores can have.
    const STORES: u16 = 1 << 14;

    #[allow(clippy::cast_possible_truncation)] // it is taken apart
    const fn from_word(word: u64) -> Mark {
        Mark { uses: word as u32, measure: (word >> 32) as u32 }
    }

    const fn word(self) -> u64 {
        (self.measure as u64) << 32 | self.uses as u64
    }

    const fn lives(self) -> bool {
        self.uses % 2 == 1
    }

    /// Whether the record has pages of its own.
    const fn in_pages(self) -> bool {
        self.measure & Mark::PAGES != 0
    }

    const fn len(self) -> usize {
        let low = if self.in_pages() { Mark::PAGES - 1 } else { 0xffff };
        (self.measure & low) as usize
    }

    /// The same record with another length, which has room in the measure.
    #[allow(clippy::cast_possible_truncation)] // it has
    const fn with_len(self, len: usize) -> Mark {
        let high = if self.in_pages() { Mark::PAGES } else { 0xffff << 16 };
        Mark { measure: self.measure & high | len as u32, ..self }
    }

    /// Bytes between the start of the block and the record.
    const fn shift(self) -> usize {
        if self.measure & (Mark::PAGES | Mark::STORED) == 0 {
            (self.measure >> 16) as usize * GRANULE_BYTES
        } else {
            0
        }
    }

    /// The record's bytes, of a mark at this granule.
    const fn range(self, granule: u32) -> Range<usize> {
        let start = granule as usize * GRANULE_BYTES + self.shift();
        start..start + self.len()
    }

    /// The pages of a record that has its own.
    const fn run(self, granule: u32) -> Run {
        Run { first: granule as u64 / PAGE_GRANULES, pages: pages_of(self.len()) }
    }

    /// The number of the store that the record is of.
    #[allow(clippy::cast_possible_truncation)] // 14 bits
    const fn store(self) -> Option<u16> {
        if self.in_pages() || self.measure & Mark::STORED == 0 {
            return None;
        }
        Some((self.measure >> 16) as u16 & (Mark::STORES - 1))
    }
}

/// Pages of a record of so many bytes. One without bytes has a page too.
const fn pages_of(len: usize) -> u64 {
    match len.div_ceil(PAGE_BYTES) {
        0 => 1,
        pages => pages as u64,
    }
}

/// The measure of a record in pages of its own; none if it is too large.
fn measure_of(len: usize) -> Option<u32> {
    u32::try_from(len).ok().filter(|len| len & Mark::PAGES == 0).map(|len| Mark::PAGES | len)
}

/// The class of the block that a record has, with room for its alignment; none for one in pages of its own.
#[inline]
fn class_for(len: usize, align: usize) -> Option<Class> {
    let slack = align.saturating_sub(GRANULE_BYTES);
    let most = if slack == 0 { Class::MAX_BYTES } else { ALIGNED };
    len.checked_add(slack).filter(|&bytes| bytes <= most).and_then(Class::for_size)
}

impl Region {
    /// The most stores that a region can tell apart.
    ///
    /// ```
    /// assert_eq!(vigbuso::Region::STORES, 16_384);
    /// ```
    pub const STORES: u16 = Mark::STORES;

    /// An empty region with an arena of so many pages of 64 KiB, 1 to [`MAX_PAGES`](crate::MAX_PAGES). No class parks a run, as in
    /// [`Pool::open`].
    ///
    /// ```
    /// # use vigbuso::Region;
    /// let region = Region::open(64)?;
    /// assert_eq!((region.pages(), region.len()), (64, 0));
    /// # Ok::<(), vigbuso::Error>(())
    /// ```
    ///
    /// # Errors
    ///
    /// [`OpenError::Refused`] with [`Refusal::ArenaLength`], [`OpenError::NoMemory`].
    pub fn open(pages: u64) -> Result<Region, OpenError> {
        Region::open_with(pages, &Rules::every(0, 0))
    }

    /// An empty region with parking rules of its own, as [`Pool::open_with`].
    ///
    /// ```
    /// # use vigbuso::{Region, Rules};
    /// let region = Region::open_with(64, &Rules::every(8, 0))?;
    /// # Ok::<(), vigbuso::Error>(())
    /// ```
    ///
    /// # Errors
    ///
    /// As [`Region::open`], and with [`Refusal::Rows`] for a limit above [`Rules::MOST`].
    pub fn open_with(pages: u64, rules: &Rules) -> Result<Region, OpenError> {
        Region::on(Pool::try_open_with(pages, rules)?)
    }

    /// A region without a record, on a pool.
    fn on(pool: Pool) -> Result<Region, OpenError> {
        let pages = pool.pages();
        let granules = usize::try_from(pages * PAGE_GRANULES).unwrap_or(usize::MAX);
        Ok(Region { pool, arena: Arena::open(pages)?, marks: zeroes(granules)?, records: 0, bytes: 0 })
    }

    /// Copies a record in.
    ///
    /// ```
    /// # use vigbuso::Region;
    /// let mut region = Region::open(64)?;
    /// let [word, none, long] = [&b"HERON"[..], b"", &[1; 200_000]].map(|record| region.alloc(record).unwrap());
    /// assert_eq!([word, none, long].map(|handle| region[handle].len()), [5, 0, 200_000]);
    /// # Ok::<(), vigbuso::Error>(())
    /// ```
    ///
    /// # Errors
    ///
    /// [`AllocError::Full`] if the arena has no room for it, [`AllocError::TooLarge`] from 2 GiB on. [`AllocError::Refused`] only on a
    /// damaged book.
    #[inline]
    pub fn alloc(&mut self, record: &[u8]) -> Result<Handle, AllocError> {
        self.alloc_aligned(record, 1)
    }

    /// Copies a record in, to an address that is a multiple of a power of two up to [`PAGE_BYTES`]. Every record stands at a multiple
    /// of 16. One that is aligned to more stands in a block if its length and its alignment less 16 are at most 16,384 bytes together,
    /// else in pages of its own.
    ///
    /// ```
    /// # use vigbuso::{AllocError, Region};
    /// let mut region = Region::open(64)?;
    /// for align in [1, 64, 4_096, 65_536] {
    ///     let handle = region.alloc_aligned(b"HERON", align)?;
    ///     assert_eq!(region[handle].as_ptr() as usize % align, 0);
    /// }
    /// assert_eq!(region.alloc_aligned(b"HERON", 48), Err(AllocError::Alignment));
    /// # Ok::<(), vigbuso::Error>(())
    /// ```
    ///
    /// # Errors
    ///
    /// As [`Region::alloc`], and [`AllocError::Alignment`].
    #[inline]
    pub fn alloc_aligned(&mut self, record: &[u8], align: usize) -> Result<Handle, AllocError> {
        let (handle, bytes) = self.begin(record.len(), align, None)?;
        bytes.copy_from_slice(record);
        Ok(handle)
    }

    /// A record of so many bytes, all 0.
    ///
    /// ```
    /// # use vigbuso::Region;
    /// let mut region = Region::open(64)?;
    /// let row = region.alloc_zeroed(15)?;
    /// assert_eq!(region[row], [0; 15]);
    /// # Ok::<(), vigbuso::Error>(())
    /// ```
    ///
    /// # Errors
    ///
    /// As [`Region::alloc`].
    pub fn alloc_zeroed(&mut self, len: usize) -> Result<Handle, AllocError> {
        let (handle, bytes) = self.begin(len, 1, None)?;
        bytes.fill(0);
        Ok(handle)
    }

    /// A place for a record: its handle, and its bytes, which are old ones.
    #[inline]
    pub(crate) fn begin(
        &mut self,
        len: usize,
        align: usize,
        store: Option<u16>,
    ) -> Result<(Handle, &mut [u8]), AllocError> {
        if !align.is_power_of_two() || align > PAGE_BYTES {
            return Err(AllocError::Alignment);
        }
        let (granule, measure) = match class_for(len, align) {
            Some(class) => self.in_block(class, len, align, store)?,
            None => self.in_run(len)?,
        };
        let mark = self.marks.get_mut(granule as usize).ok_or(DAMAGED)?;
        let new = Mark { uses: Mark::from_word(*mark).uses.wrapping_add(1), measure };
        // Only a damaged book deals out a granule where a record is already, or bytes that are not in the arena.
        let handle = Handle::new(granule, new.uses).ok_or(DAMAGED)?;
        let bytes = self.arena.get_mut(new.range(granule)).ok_or(DAMAGED)?;
        *mark = new.word();
        self.records += 1;
        self.bytes += len as u64;
        Ok((handle, bytes))
    }

    /// A block that has room for a record and its alignment, as granule and measure.
    #[inline]
    #[allow(clippy::cast_possible_truncation)] // a class's bytes have 16 bits
    fn in_block(
        &mut self,
        class: Class,
        len: usize,
        align: usize,
        store: Option<u16>,
    ) -> Result<(u32, u32), AllocError> {
        let block = self.pool.alloc_in(class)?;
        let granule = u32::try_from(block.granule()).map_err(|_| DAMAGED)?;
        let start = granule as usize * GRANULE_BYTES;
        let above = match store {
            Some(number) => Mark::STORED | u32::from(number) << 16,
            None => (((start.next_multiple_of(align) - start) / GRANULE_BYTES) << 16) as u32,
        };
        Ok((granule, above | len as u32))
    }

    /// Pages for a record, as granule and measure.
    fn in_run(&mut self, len: usize) -> Result<(u32, u32), AllocError> {
        let measure = measure_of(len).ok_or(AllocError::TooLarge)?;
        let answer = self.pool.commit(pages_of(len)).map_err(AllocError::Refused)?;
        let first = answer.ok_or(AllocError::Full)?.run.first;
        let granule = u32::try_from(first * PAGE_GRANULES).map_err(|_| DAMAGED)?;
        Ok((granule, measure))
    }

    /// The mark of a record that is there.
    #[inline]
    fn mark(&self, handle: Handle) -> Option<Mark> {
        let mark = Mark::from_word(*self.marks.get(handle.granule() as usize)?);
        (mark.uses == handle.uses()).then_some(mark)
    }

    /// A record's bytes, counted from the arena's start.
    #[inline]
    fn range(&self, handle: Handle) -> Option<Range<usize>> {
        Some(self.mark(handle)?.range(handle.granule()))
    }

    /// The bytes of a store's record; none if it has not this number and length.
    #[inline]
    pub(crate) fn stored(&self, handle: Handle, store: u16, len: usize) -> Option<&[u8]> {
        let mark = self.mark(handle).filter(|mark| mark.store() == Some(store))?;
        self.arena.get(mark.range(handle.granule())).filter(|bytes| bytes.len() == len)
    }

    /// A record; none if it was freed.
    ///
    /// ```
    /// # use vigbuso::Region;
    /// let mut region = Region::open(64)?;
    /// let word = region.alloc(b"HERON")?;
    /// assert_eq!(region.get(word), Some(&b"HERON"[..]));
    /// region.free(word)?;
    /// assert_eq!(region.get(word), None);
    /// # Ok::<(), vigbuso::Error>(())
    /// ```
    #[must_use]
    #[inline]
    pub fn get(&self, handle: Handle) -> Option<&[u8]> {
        self.arena.get(self.range(handle)?)
    }

    /// A record, to be changed; none if it was freed.
    ///
    /// ```
    /// # use vigbuso::Region;
    /// let mut region = Region::open(64)?;
    /// let word = region.alloc(b"HERON")?;
    /// region.get_mut(word).unwrap().reverse();
    /// assert_eq!(&region[word], b"NOREH");
    /// # Ok::<(), vigbuso::Error>(())
    /// ```
    #[must_use]
    #[inline]
    pub fn get_mut(&mut self, handle: Handle) -> Option<&mut [u8]> {
        let range = self.range(handle)?;
        self.arena.get_mut(range)
    }

    /// Several records at once; none if one of them was freed.
    ///
    /// ```
    /// # use vigbuso::Region;
    /// let mut region = Region::open(64)?;
    /// let words = [b"HERON", b"ASHEN"].map(|word| region.alloc(word).unwrap());
    /// assert_eq!(region.get_many(words), Some([&b"HERON"[..], b"ASHEN"]));
    /// region.free(words[1])?;
    /// assert_eq!(region.get_many(words), None);
    /// # Ok::<(), vigbuso::Error>(())
    /// ```
    #[must_use]
    pub fn get_many<const N: usize>(&self, handles: [Handle; N]) -> Option<[&[u8]; N]> {
        let mut records = [&[][..]; N];
        for (record, handle) in records.iter_mut().zip(handles) {
            *record = self.get(handle)?;
        }
        Some(records)
    }

    /// Whether a handle's record is there.
    ///
    /// ```
    /// # use vigbuso::Region;
    /// let mut region = Region::open(64)?;
    /// let word = region.alloc(b"HERON")?;
    /// assert!(region.contains(word));
    /// # Ok::<(), vigbuso::Error>(())
    /// ```
    #[must_use]
    pub fn contains(&self, handle: Handle) -> bool {
        self.mark(handle).is_some()
    }

    /// Gives a record's bytes back. From now on its handle is refused.
    ///
    /// ```
    /// # use vigbuso::{Error, Region};
    /// let mut region = Region::open(64)?;
    /// let word = region.alloc(b"HERON")?;
    /// region.free(word)?;
    /// assert_eq!(region.free(word), Err(Error::Stale(word)));
    /// # Ok::<(), Error>(())
    /// ```
    ///
    /// # Errors
    ///
    /// [`Error::Stale`] if it was freed already. Another one only on a damaged book; the record is there still.
    #[inline]
    pub fn free(&mut self, handle: Handle) -> Result<(), Error> {
        let mark = self.mark(handle).ok_or(Error::Stale(handle))?;
        let granule = handle.granule();
        // The last number of a granule is used up: nothing is to begin there again, so it is not given back.
        let last = mark.uses == u32::MAX;
        if !last && mark.in_pages() {
            self.pool.release_run(mark.run(granule))?;
        } else if !last {
            self.pool.free_at(granule.into())?;
        }
        self.marks[granule as usize] = Mark { uses: mark.uses.wrapping_add(1), measure: 0 }.word();
        self.records -= 1;
        self.bytes -= mark.len() as u64;
        Ok(())
    }

    /// Gives a record another length. Its first bytes stay, and added ones are 0. If it has to move, the answer is another
    /// handle, and the old one is refused from now on.
    ///
    /// ```
    /// # use vigbuso::Region;
    /// let mut region = Region::open(64)?;
    /// let word = region.alloc(b"HERON")?;
    /// let longer = region.resize(word, 100_000)?;
    /// assert_eq!((&region[longer][..8], region.get(word)), (&b"HERON\0\0\0"[..], None));
    /// let shorter = region.resize(longer, 3)?;
    /// assert_eq!(&region[shorter], b"HER");
    /// # Ok::<(), vigbuso::Error>(())
    /// ```
    ///
    /// # Errors
    ///
    /// [`Error::Stale`] if the record was freed; else as [`Region::alloc`], and the record is as it was. A record can always get
    /// shorter: it does so where it stands if there is no smaller block.
    pub fn resize(&mut self, handle: Handle, len: usize) -> Result<Handle, Error> {
        self.resize_aligned(handle, len, 1)
    }

    /// Gives a record another length and alignment, as [`Region::resize`] and [`Region::alloc_aligned`].
    ///
    /// ```
    /// # use vigbuso::Region;
    /// let mut region = Region::open(64)?;
    /// let word = region.alloc_aligned(b"HERON", 256)?;
    /// let longer = region.resize_aligned(word, 5_000, 256)?;
    /// assert_eq!(region[longer].as_ptr() as usize % 256, 0);
    /// # Ok::<(), vigbuso::Error>(())
    /// ```
    ///
    /// # Errors
    ///
    /// As [`Region::resize`], and [`AllocError::Alignment`].
    pub fn resize_aligned(&mut self, handle: Handle, len: usize, align: usize) -> Result<Handle, Error> {
        let mark = self.mark(handle).ok_or(Error::Stale(handle))?;
        let old = mark.range(handle.granule());
        if !align.is_power_of_two() || align > PAGE_BYTES {
            return Err(AllocError::Alignment.into());
        }
        let (granule, aligned, class) = (handle.granule(), old.start % align == 0, class_for(len, align));
        let natural = if mark.in_pages() { class.is_none() } else { class == self.pool.class_at(granule.into()) };
        if aligned && natural && self.has_room(granule, mark, len)? {
            return Ok(self.measure(handle, mark, len));
        }
        // A store's record is where its block begins: aligned to more, it is no store's any more.
        let store = mark.store().filter(|_| align <= GRANULE_BYTES);
        match self.begin(len, align, store).map(|(moved, _)| moved) {
            Ok(moved) => {
                self.copy(old, moved);
                self.free(handle)?;
                Ok(moved)
            }
            Err(_) if aligned && self.has_room(granule, mark, len)? => Ok(self.measure(handle, mark, len)),
            Err(error) => Err(error.into()),
        }
    }

    /// Whether a record can have another length where it stands. Its pages are made more or fewer for it.
    fn has_room(&mut self, granule: u32, mark: Mark, len: usize) -> Result<bool, Error> {
        if !mark.in_pages() {
            let class = self.pool.class_at(granule.into());
            return Ok(class.is_some_and(|class| mark.shift() + len <= class.bytes()));
        }
        if measure_of(len).is_none() {
            return Ok(false);
        }
        let (old, new) = (mark.run(granule), mark.with_len(len).run(granule));
        if new.pages < old.pages {
            self.pool.release_run(Run { first: new.first + new.pages, pages: old.pages - new.pages })?;
        }
        Ok(new.pages <= old.pages || self.pool.grow_frontier(old, new.pages)?.is_some())
    }

    /// Sets the length of a record that stays where it is.
    fn measure(&mut self, handle: Handle, mark: Mark, len: usize) -> Handle {
        let old = mark.range(handle.granule());
        self.marks[handle.granule() as usize] = mark.with_len(len).word();
        self.bytes = self.bytes - old.len() as u64 + len as u64;
        self.clear(old.end..old.start + len);
        handle
    }

    /// Copies a record to one that was begun. What it is longer by is 0.
    fn copy(&mut self, old: Range<usize>, moved: Handle) {
        if let Some(new) = self.range(moved) {
            let kept = old.len().min(new.len());
            self.arena.copy(old.start..old.start + kept, new.start);
            self.clear(new.start + kept..new.end);
        }
    }

    /// Writes zeroes, if there is a byte.
    fn clear(&mut self, range: Range<usize>) {
        if let Some(bytes) = self.arena.get_mut(range) {
            bytes.fill(0);
        }
    }

    /// How many records there are.
    ///
    /// ```
    /// # use vigbuso::Region;
    /// let mut region = Region::open(64)?;
    /// region.alloc(b"HERON")?;
    /// assert_eq!((region.len(), region.is_empty()), (1, false));
    /// # Ok::<(), vigbuso::Error>(())
    /// ```
    #[must_use]
    pub fn len(&self) -> usize {
        self.records
    }

    /// Whether there is no record.
    ///
    /// ```
    /// assert!(vigbuso::Region::open(64)?.is_empty());
    /// # Ok::<(), vigbuso::Error>(())
    /// ```
    #[must_use]
    pub fn is_empty(&self) -> bool {
        self.records == 0
    }

    /// The length of all records together.
    ///
    /// ```
    /// # use vigbuso::Region;
    /// let mut region = Region::open(64)?;
    /// region.alloc(b"HERON")?;
    /// region.alloc(b"ASHES")?;
    /// assert_eq!(region.bytes(), 10);
    /// # Ok::<(), vigbuso::Error>(())
    /// ```
    #[must_use]
    pub fn bytes(&self) -> u64 {
        self.bytes
    }

    /// The arena's length.
    ///
    /// ```
    /// # use vigbuso::Region;
    /// assert_eq!(Region::open(64)?.pages(), 64);
    /// # Ok::<(), vigbuso::Error>(())
    /// ```
    #[must_use]
    pub fn pages(&self) -> u64 {
        self.pool.pages()
    }

    /// The figures of the region's pool and arena. Records in pages of their own are no blocks; their pages are held.
    ///
    /// ```
    /// # use vigbuso::Region;
    /// let mut region = Region::open(64)?;
    /// region.alloc(&[1; 100])?;
    /// region.alloc(&[1; 100_000])?;
    /// let report = region.report()?;
    /// assert_eq!((report.used, report.used_bytes, report.arena.held), (1, 112, 3));
    /// # Ok::<(), vigbuso::Error>(())
    /// ```
    ///
    /// # Errors
    ///
    /// As [`Pool::report`].
    pub fn report(&self) -> Result<PoolReport, Refusal> {
        self.pool.report()
    }

    /// The pool, to be asked.
    ///
    /// ```
    /// # use vigbuso::Region;
    /// let mut region = Region::open(64)?;
    /// region.alloc(&[1; 100])?;
    /// assert_eq!(region.pool().blocks().count(), 1);
    /// # Ok::<(), vigbuso::Error>(())
    /// ```
    #[must_use]
    pub fn pool(&self) -> &Pool {
        &self.pool
    }

    /// The records with their handles, in the order of their places. All granules below the first page that was never used are gone
    /// over.
    ///
    /// ```
    /// # use vigbuso::Region;
    /// let mut region = Region::open(64)?;
    /// let words = [b"HERON", b"ASHES"].map(|word| region.alloc(word).unwrap());
    /// let mut found: Vec<_> = region.iter().collect();
    /// found.sort();
    /// let mut expected = [(words[0], &b"HERON"[..]), (words[1], b"ASHES")];
    /// expected.sort();
    /// assert_eq!(found, expected);
    /// # Ok::<(), vigbuso::Error>(())
    /// ```
    #[must_use]
    pub fn iter(&self) -> Records<'_> {
        Records { region: self, next: 0, left: self.records }
    }

    /// The handles of a store's records of a length.
    pub(crate) fn handles(&self, store: u16, len: usize) -> Vec<Handle> {
        let handles = self.iter().map(|(handle, _)| handle);
        handles.filter(|&handle| self.stored(handle, store, len).is_some()).collect()
    }

    /// The region as bytes, to be kept in a file: its pool, its records, and how often each granule was used, so that handles that were
    /// stale before are stale after. [`Region::load`] has it back.
    ///
    /// ```
    /// use vigbuso::{Handle, Region};
    ///
    /// let mut region = Region::open(64)?;
    /// let word = region.alloc(b"HERON")?;
    /// let (saved, number) = (region.save(), word.bits());
    /// // In another run of the program:
    /// let mut region = Region::load(&saved)?;
    /// let word = Handle::from_bits(number).unwrap();
    /// assert_eq!(&region[word], b"HERON");
    /// region.free(word)?;
    /// # Ok::<(), vigbuso::Error>(())
    /// ```
    #[must_use]
    pub fn save(&self) -> Vec<u8> {
        let mut writer = Writer::new(Content::Region, self.pool.heap());
        writer.words(&self.marks[..self.used()]);
        for (_, record) in self {
            writer.bytes(record);
        }
        writer.finish()
    }

    /// The region that was [saved](Region::save). Its bytes are not trusted: what was cut or changed is found out, and also in a save
    /// that was forged, its checksum too, no record reaches beyond its own block or pages, and no two records share a byte. Whatever a
    /// forged book says, no call is unsafe.
    ///
    /// ```
    /// use vigbuso::{LoadError, Region};
    ///
    /// let mut region = Region::open(64)?;
    /// region.alloc(b"HERON")?;
    /// let mut saved = region.save();
    /// assert_eq!(Region::load(&saved)?, region);
    /// let middle = saved.len() / 2;
    /// saved[middle] ^= 1;
    /// assert_eq!(Region::load(&saved), Err(LoadError::Changed));
    /// # Ok::<(), vigbuso::Error>(())
    /// ```
    ///
    /// # Errors
    ///
    /// Any [`LoadError`].
    pub fn load(bytes: &[u8]) -> Result<Region, LoadError> {
        let (pool, mut reader) = Pool::read(Content::Region, bytes)?;
        let mut region = Region::on(pool).map_err(LoadError::no_memory)?;
        let used = region.used();
        reader.words(&mut region.marks[..used]).ok_or(LoadError::Damaged)?;
        region.count().ok_or(LoadError::Damaged)?;
        for granule in 0..used {
            let mark = Mark::from_word(region.marks[granule]);
            if let Some(granule) = u32::try_from(granule).ok().filter(|_| mark.lives()) {
                let range = mark.range(granule);
                let saved = reader.bytes(range.len()).ok_or(LoadError::Damaged)?;
                region.arena.get_mut(range).ok_or(LoadError::Damaged)?.copy_from_slice(saved);
            }
        }
        reader.end().map(|()| region)
    }

    /// Granules below the frontier: no other has a mark.
    fn used(&self) -> usize {
        let pages = frontier(self.pool.book()).min(self.pages());
        usize::try_from(pages * PAGE_GRANULES).unwrap_or(usize::MAX).min(self.marks.len())
    }

    /// Counts the records of marks that were loaded. It is none if one is not within a block that is granted or pages that are held by
    /// hand, or two share a byte.
    fn count(&mut self) -> Option<()> {
        let mut free = 0; // the first byte behind all records before
        for granule in 0..self.used() {
            let mark = Mark::from_word(self.marks[granule]);
            if !mark.lives() {
                continue;
            }
            let granule = u32::try_from(granule).ok()?;
            let (start, range) = (granule as usize * GRANULE_BYTES, mark.range(granule));
            let room = if mark.in_pages() {
                self.pool.holds(mark.run(granule)).then(|| mark.run(granule).range().len())?
            } else {
                self.pool.granted_at(granule.into())?.bytes()
            };
            let end = start + room;
            if start < free || range.end > end {
                return None;
            }
            free = end;
            self.records += 1;
            self.bytes += range.len() as u64;
        }
        Some(())
    }
}

/// The heap deals no granule out that is in use, unless its book was damaged.
const DAMAGED: AllocError = AllocError::Refused(Refusal::BookWord);

/// A clone touches only what is used.
impl Clone for Region {
    fn clone(&self) -> Region {
        let arena = Arena::open(self.pages()).unwrap_or_else(|error| panic!("{error}"));
        let mut clone = Region { pool: self.pool.clone(), arena, marks: copy_used(&self.marks, self.used()), ..*self };
        for (handle, record) in self {
            clone[handle].copy_from_slice(record);
        }
        clone
    }
}

/// Equal regions have the same records under the same handles, and answer equal calls equally.
impl PartialEq for Region {
    fn eq(&self, other: &Region) -> bool {
        self.pool == other.pool && self.marks[..self.used()] == other.marks[..self.used()] && self.iter().eq(other)
    }
}

impl Eq for Region {}

impl fmt::Debug for Region {
    fn fmt(&self, f: &mut fmt::Formatter) -> fmt::Result {
        let mut region = f.debug_struct("Region");
        region.field("pages", &self.pages()).field("records", &self.records).field("bytes", &self.bytes);
        region.finish_non_exhaustive()
    }
}

/// # Panics
///
/// If the record was freed; [`Region::get`] answers none then.
impl Index<Handle> for Region {
    type Output = [u8];

    fn index(&self, handle: Handle) -> &[u8] {
        self.get(handle).unwrap_or_else(|| panic!("{}", Error::Stale(handle)))
    }
}

/// # Panics
///
/// If the record was freed; [`Region::get_mut`] answers none then.
impl IndexMut<Handle> for Region {
    fn index_mut(&mut self, handle: Handle) -> &mut [u8] {
        self.get_mut(handle).unwrap_or_else(|| panic!("{}", Error::Stale(handle)))
    }
}

impl<'a> IntoIterator for &'a Region {
    type Item = (Handle, &'a [u8]);
    type IntoIter = Records<'a>;

    fn into_iter(self) -> Records<'a> {
        self.iter()
    }
}

/// The records of a region: what [`Region::iter`] goes over.
///
/// ```
/// # use vigbuso::Region;
/// let mut region = Region::open(64)?;
/// region.alloc(b"HERON")?;
/// assert_eq!(region.iter().len(), 1);
/// # Ok::<(), vigbuso::Error>(())
/// ```
#[derive(Clone)]
pub struct Records<'a> {
    region: &'a Region,
    /// The next granule to look at, and how many records are there or behind it.
    next: usize,
    left: usize,
}

impl<'a> Iterator for Records<'a> {
    type Item = (Handle, &'a [u8]);

    fn next(&mut self) -> Option<(Handle, &'a [u8])> {
        if self.left == 0 {
            return None;
        }
        let lives = |&word: &u64| Mark::from_word(word).lives();
        let at = self.next + self.region.marks.get(self.next..)?.iter().position(lives)?;
        (self.next, self.left) = (at + 1, self.left - 1);
        let handle = Handle::new(u32::try_from(at).ok()?, Mark::from_word(self.region.marks[at]).uses)?;
        Some((handle, self.region.get(handle)?))
    }

    fn size_hint(&self) -> (usize, Option<usize>) {
        (self.left, Some(self.left))
    }
}

impl ExactSizeIterator for Records<'_> {}

impl FusedIterator for Records<'_> {}

impl fmt::Debug for Records<'_> {
    fn fmt(&self, f: &mut fmt::Formatter) -> fmt::Result {
        f.debug_map().entries(self.clone()).finish()
    }
}

#[cfg(test)]
mod tests {
    use super::*;
    use std::vec;

    /// A granule's last number is used up: the block is not given back, so that no handle ever names another record.
    #[test]
    fn a_granule_that_is_used_up() {
        for len in [5, 70_000] {
            let mut region = Region::open(4).expect("four pages");
            let first = region.alloc(&vec![1; len]).expect("there is room");
            region.free(first).expect("it is there");
            let granule = first.granule() as usize;
            region.marks[granule] = Mark { uses: u32::MAX - 1, measure: 0 }.word();
            let last = region.alloc(&vec![2; len]).expect("there is room");
            assert_eq!((last.granule(), last.uses()), (first.granule(), u32::MAX));
            region.free(last).expect("it is there");
            assert_eq!((region.len(), region.bytes(), region.get(last), region.get(first)), (0, 0, None, None));
            let others: Vec<Handle> = core::iter::from_fn(|| region.alloc(&vec![3; len]).ok()).collect();
            assert!(!others.is_empty() && others.iter().all(|other| other.granule() != first.granule()));
            assert_eq!(Region::load(&region.save()), Ok(region));
        }
    }

    /// Every measure says what it was made of.
    #[test]
    fn measures() {
        let block = Mark { uses: 1, measure: 0x0fff_ffc0 };
        assert_eq!((block.len(), block.shift(), block.store(), block.in_pages()), (65_472, 4_095 * 16, None, false));
        let stored = Mark { uses: 1, measure: Mark::STORED | 16_383 << 16 | 9 };
        assert_eq!((stored.len(), stored.shift(), stored.store(), stored.in_pages()), (9, 0, Some(16_383), false));
        let pages = Mark { uses: 1, measure: measure_of((1 << 31) - 1).expect("31 bits") };
        assert_eq!((pages.len(), pages.shift(), pages.store(), pages.in_pages()), ((1 << 31) - 1, 0, None, true));
        assert_eq!((measure_of(1 << 31), pages.with_len(7).len(), stored.with_len(0).store()), (None, 7, Some(16_383)));
        assert_eq!(Mark::from_word(stored.word()).range(3), 48..57);
    }
}
