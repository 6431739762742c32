//! The heap.

use alloc::boxed::Box;
use alloc::vec;
use alloc::vec::Vec;
use core::fmt;

use crate::book::copy_used;
use crate::pool::Granted;
use crate::{
    ffi, Block, Chunk, Class, Committed, Fate, Host, OpenError, Refusal, ReleaseError, Report, Rules, Run, Taken,
};

/// The most pages of an arena. Its book has 17.2 GB, of which only the parts that calls reach take memory. Where the system does not
/// promise a program so much at once, [lend the book](Heap::on) from a mapping of your own.
///
/// ```
/// # use vigbuso::{Heap, Refusal, MAX_PAGES};
/// assert_eq!(Heap::open(MAX_PAGES + 1), Err(Refusal::ArenaLength));
/// ```
pub const MAX_PAGES: u64 = 1_048_576;

/// What a commit writes as first page for none.
const NO_PAGE: u32 = u32::MAX;

/// Words that a book for an arena of so many pages has at least: 40,000 and 4,112 for each page.
///
/// ```
/// assert_eq!(vigbuso::book_words(64), 303_168);
/// ```
#[must_use]
pub const fn book_words(pages: u64) -> usize {
    #[allow(clippy::cast_possible_truncation)] // the library links into 64-bit programs only
    let pages = pages as usize;
    pages.saturating_mul(4_112).saturating_add(40_000)
}

/// A heap of blocks in an arena of pages, with the book in which all that it knows stands.
///
/// A heap is a value: equal heaps answer equal calls equally, and a clone goes its own way. The book has
/// [`book_words`] words of 4 bytes, of which only those of pages that calls reached are ever touched. It is the heap's own,
/// or [lent by the caller](Heap::on).
///
/// Every call passes a host word, the system's answers. The heap keeps one, [`Host::GRANTED`] unless
/// [another is set](Heap::set_host); the methods whose names end in `_with`, openings aside, are told it each time, for programs that
/// have a system below the heap.
///
/// ```
/// use vigbuso::{Class, Heap, Refusal};
///
/// let mut heap = Heap::open(64)?;
/// let class = Class::for_size(100).expect("not too large");
/// let mut blocks = heap.take(class)?;
/// heap.release_all(class, &mut blocks)?;
/// // Not out any more: refused, and nothing has changed.
/// let before = heap.clone();
/// assert_eq!(heap.release(class, &blocks[..1]).unwrap_err().refusal(), Refusal::NotOut);
/// assert_eq!(heap, before);
/// # Ok::<(), Refusal>(())
/// ```
pub struct Heap<B = Vec<u32>> {
    pub(crate) book: B,
    pages: u64,
    pub(crate) host: Host,
    /// What a pool has granted here. It goes wherever the book goes, so that no pool counts another heap's blocks.
    pub(crate) granted: Granted,
}

impl Heap {
    /// Opens a heap on an arena of so many pages, 1 to [`MAX_PAGES`], with a book of its own. If there is no memory for the
    /// book the program ends, as it does where a `Vec` cannot grow; [`Heap::try_open`] answers instead.
    ///
    /// ```
    /// # use vigbuso::Heap;
    /// let heap = Heap::open(64)?;
    /// assert_eq!(heap.pages(), 64);
    /// # Ok::<(), vigbuso::Refusal>(())
    /// ```
    ///
    /// # Errors
    ///
    /// [`Refusal::ArenaLength`].
    pub fn open(pages: u64) -> Result<Heap, Refusal> {
        Heap::on(vec![0; own_words(pages)], pages)
    }

    /// Opens a heap as [`Heap::open`] does, with parking rules of its own.
    ///
    /// ```
    /// # use vigbuso::{Heap, Rules};
    /// let heap = Heap::open_with(64, &Rules::every(0, 0))?; // nothing is parked
    /// # Ok::<(), vigbuso::Refusal>(())
    /// ```
    ///
    /// # Errors
    ///
    /// [`Refusal::ArenaLength`]; [`Refusal::Rows`] for a limit above [`Rules::MOST`].
    pub fn open_with(pages: u64, rules: &Rules) -> Result<Heap, Refusal> {
        Heap::on_with(vec![0; own_words(pages)], pages, rules)
    }

    /// Opens a heap as [`Heap::open`] does, and answers where there is no memory for the book.
    ///
    /// ```
    /// # use vigbuso::Heap;
    /// assert_eq!(Heap::try_open(64)?, Heap::open(64)?);
    /// # Ok::<(), Box<dyn std::error::Error>>(())
    /// ```
    ///
    /// # Errors
    ///
    /// [`OpenError::Refused`] with [`Refusal::ArenaLength`], [`OpenError::NoMemory`].
    pub fn try_open(pages: u64) -> Result<Heap, OpenError> {
        Heap::on(zeroes(own_words(pages))?, pages).map_err(OpenError::Refused)
    }

    pub(crate) fn try_open_with(pages: u64, rules: &Rules) -> Result<Heap, OpenError> {
        Heap::on_with(zeroes(own_words(pages))?, pages, rules).map_err(OpenError::Refused)
    }
}

/// So many integers of 0, not touched yet.
pub(crate) fn zeroes<T: ffi::Unsigned>(count: usize) -> Result<Vec<T>, OpenError> {
    ffi::zeroed(count).ok_or(OpenError::NoMemory { bytes: count.saturating_mul(size_of::<T>()) })
}

/// Words of a heap's own book. None has to be there for a length that is refused.
pub(crate) fn own_words(pages: u64) -> usize {
    if pages <= MAX_PAGES {
        book_words(pages)
    } else {
        0
    }
}

impl<B: AsRef<[u32]> + AsMut<[u32]>> Heap<B> {
    /// Opens a heap on an arena of so many pages and on a book that the caller lends or gives: a `&mut [u32]`, a
    /// `Box<[u32]>`, a static. It has at least [`book_words`] words, and what they hold does not matter.
    ///
    /// ```
    /// use vigbuso::{book_words, Class, Heap};
    ///
    /// let mut book = vec![7; book_words(64)];
    /// let mut heap = Heap::on(&mut book[..], 64)?;
    /// let blocks = heap.take(Class::for_size(24).unwrap())?;
    /// assert_eq!(blocks.len(), 64);
    /// # Ok::<(), vigbuso::Refusal>(())
    /// ```
    ///
    /// # Errors
    ///
    /// [`Refusal::ArenaLength`], [`BookTooShort`](Refusal::BookTooShort).
    pub fn on(mut book: B, pages: u64) -> Result<Heap<B>, Refusal> {
        ffi::open(book.as_mut(), pages, &[])?;
        Ok(Heap::opened(book, pages))
    }

    /// Opens a heap as [`Heap::on`] does, with parking rules of its own.
    ///
    /// ```
    /// use vigbuso::{book_words, Heap, Rules};
    ///
    /// let mut book = vec![7; book_words(64)];
    /// let heap = Heap::on_with(&mut book[..], 64, &Rules::every(8, 0))?;
    /// # Ok::<(), vigbuso::Refusal>(())
    /// ```
    ///
    /// # Errors
    ///
    /// As [`Heap::on`]; [`Refusal::Rows`] for a limit above [`Rules::MOST`].
    pub fn on_with(mut book: B, pages: u64, rules: &Rules) -> Result<Heap<B>, Refusal> {
        ffi::open(book.as_mut(), pages, &rules.rows())?;
        Ok(Heap::opened(book, pages))
    }

    /// A heap whose book was opened for so many pages.
    pub(crate) fn opened(book: B, pages: u64) -> Heap<B> {
        Heap { book, pages, host: Host::GRANTED, granted: Granted::default() }
    }

    /// Goes on with a book as an earlier heap left it, which may have been stored meanwhile. Its length and its arena's record
    /// are tested here; if other words of it were damaged, calls that come to them are refused as
    /// [`BookWord`](Refusal::BookWord). No damage makes a call unsafe.
    ///
    /// On a [`Pool`](crate::Pool)'s book the blocks in stock go back first, so that their pages serve every class. What the pool has
    /// granted stays out, and is the pool's: a release of it is refused. `Pool::from` makes the heap a pool's again, and
    /// [`Pool::resume`](crate::Pool::resume) keeps the stocks. [`Heap::load`] has the book from a file, and finds out what was changed
    /// there.
    ///
    /// A book says of which layout it is. Before 0.7.0 its words stood elsewhere: such a book is refused, and so is one that was never
    /// opened.
    ///
    /// ```
    /// use vigbuso::{Class, Heap};
    ///
    /// let mut heap = Heap::open(64)?;
    /// let class = Class::for_size(24).unwrap();
    /// let blocks = heap.take(class)?;
    /// let mut again = Heap::resume(heap.into_book())?;
    /// again.release(class, &blocks)?;
    /// # Ok::<(), vigbuso::Refusal>(())
    /// ```
    ///
    /// # Errors
    ///
    /// [`Refusal::ArenaLength`], [`BookTooShort`](Refusal::BookTooShort), [`BookWord`](Refusal::BookWord).
    pub fn resume(book: B) -> Result<Heap<B>, Refusal> {
        let mut heap = Heap::resume_stocked(book)?;
        heap.flush()?;
        Ok(heap)
    }

    /// Gives all blocks that a pool has in stock back.
    pub(crate) fn flush(&mut self) -> Result<(), Refusal> {
        let mut outcome = Ok(());
        for class in Class::all() {
            outcome = outcome.and(self.flush_class(class));
        }
        outcome
    }

    fn flush_class(&mut self, class: Class) -> Result<(), Refusal> {
        for _ in 0..ffi::stocked(self.book.as_ref(), class) {
            ffi::trim(self.book.as_mut(), class, self.host)?;
        }
        Ok(())
    }

    /// Goes on with a book and leaves a pool's stocks as they are.
    pub(crate) fn resume_stocked(book: B) -> Result<Heap<B>, Refusal> {
        ffi::report(book.as_ref())?;
        let pages = book.as_ref().first().copied().map_or(0, u64::from);
        let mut heap = Heap::opened(book, pages);
        heap.granted = heap.count_granted();
        Ok(heap)
    }

    /// Opens the heap anew on the same book: every block and every run that was out is forgotten, a [`Pool`](crate::Pool)'s too, and
    /// so are parking rules of its own. The host word is kept.
    ///
    /// ```
    /// # use vigbuso::{Class, Heap};
    /// let mut heap = Heap::open(64)?;
    /// let blocks = heap.take(Class::for_size(24).unwrap())?;
    /// heap.reopen(60)?; // the book is long enough for fewer pages too
    /// assert_eq!(heap.report()?.idle, 60);
    /// # Ok::<(), vigbuso::Refusal>(())
    /// ```
    ///
    /// # Errors
    ///
    /// [`Refusal::ArenaLength`], [`BookTooShort`](Refusal::BookTooShort); the heap is as it was then.
    pub fn reopen(&mut self, pages: u64) -> Result<(), Refusal> {
        self.open_again(pages, &[])
    }

    /// Opens the heap anew as [`Heap::reopen`] does, with parking rules of its own.
    ///
    /// ```
    /// # use vigbuso::{Heap, Rules};
    /// let mut heap = Heap::open(64)?;
    /// heap.reopen_with(64, &Rules::every(8, 0))?;
    /// # Ok::<(), vigbuso::Refusal>(())
    /// ```
    ///
    /// # Errors
    ///
    /// As [`Heap::reopen`]; [`Refusal::Rows`] for a limit above [`Rules::MOST`]. The heap is as it was then, with its old rules.
    pub fn reopen_with(&mut self, pages: u64, rules: &Rules) -> Result<(), Refusal> {
        self.open_again(pages, &rules.rows())
    }

    fn open_again(&mut self, pages: u64, rows: &[u32]) -> Result<(), Refusal> {
        ffi::open(self.book.as_mut(), pages, rows)?;
        (self.pages, self.granted) = (pages, Granted::default());
        Ok(())
    }

    /// The book. It can be kept, and [`resume`](Heap::resume)d.
    ///
    /// ```
    /// # use vigbuso::{book_words, Heap};
    /// assert_eq!(Heap::open(5)?.into_book().len(), book_words(5));
    /// # Ok::<(), vigbuso::Refusal>(())
    /// ```
    #[must_use]
    pub fn into_book(self) -> B {
        self.book
    }

    /// The words of the book, to be read or copied.
    ///
    /// ```
    /// # use vigbuso::Heap;
    /// let heap = Heap::open(5)?;
    /// assert_eq!(Heap::resume(heap.book().to_vec())?, heap);
    /// # Ok::<(), vigbuso::Refusal>(())
    /// ```
    #[must_use]
    pub fn book(&self) -> &[u32] {
        self.book.as_ref()
    }

    /// The arena's length.
    ///
    /// ```
    /// # use vigbuso::Heap;
    /// assert_eq!(Heap::open(5)?.pages(), 5);
    /// # Ok::<(), vigbuso::Refusal>(())
    /// ```
    #[must_use]
    pub fn pages(&self) -> u64 {
        self.pages
    }

    /// The host word of the methods that are told none.
    ///
    /// ```
    /// # use vigbuso::{Heap, Host};
    /// assert_eq!(Heap::open(5)?.host(), Host::GRANTED);
    /// # Ok::<(), vigbuso::Refusal>(())
    /// ```
    #[must_use]
    pub fn host(&self) -> Host {
        self.host
    }

    /// Sets the host word of the methods that are told none. See [`Host::ALL`] for what it would promise.
    ///
    /// ```
    /// # use vigbuso::{Heap, Host};
    /// let mut heap = Heap::open(5)?;
    /// heap.set_host(Host::GRANTED | Host::DISCARD);
    /// assert!(heap.host().has(Host::DISCARD));
    /// # Ok::<(), vigbuso::Refusal>(())
    /// ```
    pub fn set_host(&mut self, host: Host) {
        self.host = host;
    }

    /// Takes up to 64 blocks of a small class, up to one span's of a medium class. The list is empty if there is none. They come
    /// from partial pages (those in use that have a block left), otherwise from one page that the class has parked, an empty one
    /// before the newest cold one, otherwise from a new one. So they may be on several pages.
    ///
    /// ```
    /// # use vigbuso::{Class, Heap};
    /// let mut heap = Heap::open(64)?;
    /// let lens = [24, 20_000].map(|bytes| heap.take(Class::for_size(bytes).unwrap()).unwrap().len());
    /// assert_eq!(lens, [64, 9]);
    /// # Ok::<(), vigbuso::Refusal>(())
    /// ```
    ///
    /// # Errors
    ///
    /// None on a book that only this heap and its pool have written; [`Refusal::BookWord`] on a damaged one.
    pub fn take(&mut self, class: Class) -> Result<Taken, Refusal> {
        self.take_with(self.host, class)
    }

    /// [`Heap::take`] with the system's answers.
    ///
    /// ```
    /// # use vigbuso::{Class, Heap, Host};
    /// let blocks = Heap::open(64)?.take_with(Host::RESERVATION, Class::for_size(24).unwrap())?;
    /// assert!(blocks.is_empty()); // the commit was not granted
    /// # Ok::<(), vigbuso::Refusal>(())
    /// ```
    ///
    /// # Errors
    ///
    /// As [`Heap::take`].
    pub fn take_with(&mut self, host: Host, class: Class) -> Result<Taken, Refusal> {
        let mut taken = Taken::NONE;
        let (count, virgin) = ffi::take(self.book.as_mut(), class, host, taken.room())?;
        taken.set(count, virgin);
        Ok(taken)
    }

    /// Releases blocks that are all on one page, of a medium class in one span, and tells what became of it.
    /// [`Heap::release_all`] takes blocks of any pages.
    ///
    /// ```
    /// # use vigbuso::{Class, Fate, Heap};
    /// let mut heap = Heap::open(64)?;
    /// let class = Class::for_size(24).unwrap();
    /// let blocks = heap.take(class)?;
    /// assert_eq!(heap.release(class, &blocks[3..7])?, Fate::Kept);
    /// # Ok::<(), vigbuso::Refusal>(())
    /// ```
    ///
    /// # Errors
    ///
    /// [`Refusal::EmptyList`], [`WrongKind`](Refusal::WrongKind), [`Repeated`](Refusal::Repeated), [`NotOut`](Refusal::NotOut),
    /// [`OtherPage`](Refusal::OtherPage), with the first block to blame.
    pub fn release(&mut self, class: Class, blocks: &[Block]) -> Result<Fate, ReleaseError> {
        self.release_with(self.host, class, blocks)
    }

    /// [`Heap::release`] with the system's answers.
    ///
    /// ```
    /// # use vigbuso::{Class, Fate, Heap, Host};
    /// let mut heap = Heap::open(64)?;
    /// let class = Class::for_size(24).unwrap();
    /// let blocks = heap.take(class)?;
    /// assert_eq!(heap.release_with(Host::ALL, class, &blocks)?, Fate::Kept);
    /// # Ok::<(), vigbuso::Refusal>(())
    /// ```
    ///
    /// # Errors
    ///
    /// As [`Heap::release`].
    pub fn release_with(&mut self, host: Host, class: Class, blocks: &[Block]) -> Result<Fate, ReleaseError> {
        ffi::release(self.book.as_mut(), class, host, blocks).map_err(|refusal| self.blame(refusal, class, blocks))
    }

    /// Releases blocks of a small class that are on several pages. There is a chunk for each page, with its number of
    /// listed blocks, and a fate for each chunk in their order. [`Chunk::of`] makes them of a list; [`Heap::release_all`] does
    /// all this by itself.
    ///
    /// A chunk that returns all blocks which its page has out retires the page: it is carved anew when used again.
    ///
    /// ```
    /// # use vigbuso::{Chunk, Class, Fate, Heap};
    /// let mut heap = Heap::open(64)?;
    /// let class = Class::for_size(16_384).unwrap();
    /// let mut blocks = heap.take(class)?.to_vec();
    /// blocks.extend(heap.take(class)?);
    /// let fates = heap.release_chunks(class, &blocks, &Chunk::of(&blocks))?;
    /// assert_eq!(fates, [Fate::KeptRetired, Fate::KeptRetired]);
    /// # Ok::<(), vigbuso::Refusal>(())
    /// ```
    ///
    /// # Errors
    ///
    /// As [`Heap::release`], and [`Refusal::Chunks`] for more than [`Chunk::MOST`] chunks. A medium class has no chunks and is
    /// refused as [`WrongKind`](Refusal::WrongKind).
    pub fn release_chunks(
        &mut self,
        class: Class,
        blocks: &[Block],
        chunks: &[Chunk],
    ) -> Result<Vec<Fate>, ReleaseError> {
        let mut fates = vec![Fate::Kept; chunks.len()];
        self.release_chunks_into(class, blocks, chunks, &mut fates)?;
        Ok(fates)
    }

    /// [`Heap::release_chunks`] that writes the fates into a list of at least as many entries; entries past the chunks keep
    /// their content.
    ///
    /// ```
    /// # use vigbuso::{Chunk, Class, Fate, Heap};
    /// let mut heap = Heap::open(64)?;
    /// let class = Class::for_size(24).unwrap();
    /// let blocks = heap.take(class)?;
    /// let mut fates = [Fate::Kept; 8];
    /// heap.release_chunks_into(class, &blocks, &Chunk::of(&blocks), &mut fates)?;
    /// assert_eq!(fates[..2], [Fate::KeptRetired, Fate::Kept]);
    /// # Ok::<(), vigbuso::Refusal>(())
    /// ```
    ///
    /// # Errors
    ///
    /// As [`Heap::release_chunks`], and [`Refusal::Chunks`] for fewer fates than chunks.
    pub fn release_chunks_into(
        &mut self,
        class: Class,
        blocks: &[Block],
        chunks: &[Chunk],
        fates: &mut [Fate],
    ) -> Result<(), ReleaseError> {
        self.release_chunks_with(self.host, class, blocks, chunks, fates)
    }

    /// [`Heap::release_chunks_into`] with the system's answers.
    ///
    /// ```
    /// # use vigbuso::{Chunk, Class, Fate, Heap, Host};
    /// let mut heap = Heap::open(64)?;
    /// let class = Class::for_size(24).unwrap();
    /// let blocks = heap.take(class)?;
    /// let mut fates = [Fate::Kept];
    /// heap.release_chunks_with(Host::ALL, class, &blocks, &Chunk::of(&blocks), &mut fates)?;
    /// # Ok::<(), vigbuso::Refusal>(())
    /// ```
    ///
    /// # Errors
    ///
    /// As [`Heap::release_chunks_into`].
    pub fn release_chunks_with(
        &mut self,
        host: Host,
        class: Class,
        blocks: &[Block],
        chunks: &[Chunk],
        fates: &mut [Fate],
    ) -> Result<(), ReleaseError> {
        ffi::release_chunks(self.book.as_mut(), class, host, blocks, chunks, fates)
            .map_err(|refusal| self.blame_chunks(refusal, class, blocks, chunks))
    }

    /// Asks for a run of so many pages, to be used directly; none if neither a hole nor the frontier has them, or the
    /// system does not grant them.
    ///
    /// ```
    /// # use vigbuso::{Heap, Refusal};
    /// let mut heap = Heap::open(64)?;
    /// assert_eq!(heap.commit(60)?.map(|answer| answer.run.first), Some(0));
    /// assert_eq!(heap.commit(5)?, None);
    /// assert_eq!(heap.commit(0), Err(Refusal::RunLength));
    /// # Ok::<(), Refusal>(())
    /// ```
    ///
    /// # Errors
    ///
    /// [`Refusal::RunLength`].
    pub fn commit(&mut self, pages: u64) -> Result<Option<Committed>, Refusal> {
        self.commit_with(self.host, pages)
    }

    /// [`Heap::commit`] with the system's answers.
    ///
    /// ```
    /// # use vigbuso::{Heap, Host};
    /// assert_eq!(Heap::open(64)?.commit_with(Host::RESERVATION, 1)?, None);
    /// # Ok::<(), vigbuso::Refusal>(())
    /// ```
    ///
    /// # Errors
    ///
    /// As [`Heap::commit`].
    pub fn commit_with(&mut self, host: Host, pages: u64) -> Result<Option<Committed>, Refusal> {
        let (first, fresh) = ffi::commit(self.book.as_mut(), host, pages)?;
        Ok((first != NO_PAGE).then(|| Committed { run: Run { first: first.into(), pages }, fresh: fresh == 1 }))
    }

    /// Grows a run in place to so many pages and answers the longer run. It is none unless the run ends at the frontier,
    /// the arena suffices and the system grants the added pages.
    ///
    /// ```
    /// # use vigbuso::{Heap, Run};
    /// let mut heap = Heap::open(64)?;
    /// let run = heap.commit(3)?.unwrap().run;
    /// assert_eq!(heap.grow_frontier(run, 5)?, Some(Run { first: 0, pages: 5 }));
    /// # Ok::<(), vigbuso::Refusal>(())
    /// ```
    ///
    /// # Errors
    ///
    /// [`Refusal::RunLength`], [`NotHeld`](Refusal::NotHeld).
    pub fn grow_frontier(&mut self, run: Run, new_pages: u64) -> Result<Option<Run>, Refusal> {
        self.grow_frontier_with(self.host, run, new_pages)
    }

    /// [`Heap::grow_frontier`] with the system's answers.
    ///
    /// ```
    /// # use vigbuso::{Heap, Host};
    /// let mut heap = Heap::open(64)?;
    /// let run = heap.commit(3)?.unwrap().run;
    /// assert_eq!(heap.grow_frontier_with(Host::RESERVATION, run, 5)?, None);
    /// # Ok::<(), vigbuso::Refusal>(())
    /// ```
    ///
    /// # Errors
    ///
    /// As [`Heap::grow_frontier`].
    pub fn grow_frontier_with(&mut self, host: Host, run: Run, new_pages: u64) -> Result<Option<Run>, Refusal> {
        let grown = ffi::grow_frontier(self.book.as_mut(), host, run, new_pages)?;
        Ok((grown == 1).then_some(Run { pages: new_pages, ..run }))
    }

    /// Gives pages back to the arena that the direct calls hold: a run that was committed, a part of it, or several that
    /// stand side by side. Runs that were given back side by side serve a longer one again.
    ///
    /// ```
    /// # use vigbuso::{Heap, Refusal};
    /// let mut heap = Heap::open(64)?;
    /// let run = heap.commit(3)?.unwrap().run;
    /// heap.release_run(run)?;
    /// assert_eq!(heap.release_run(run), Err(Refusal::NotHeld));
    /// // Two runs of one page each, back in any order, are one hole with what is behind them.
    /// let [one, two] = [heap.commit(1)?.unwrap().run, heap.commit(1)?.unwrap().run];
    /// heap.release_run(two)?;
    /// heap.release_run(one)?;
    /// assert_eq!(heap.commit(3)?.unwrap().run.first, 0);
    /// # Ok::<(), Refusal>(())
    /// ```
    ///
    /// # Errors
    ///
    /// [`Refusal::RunLength`], [`NotHeld`](Refusal::NotHeld).
    pub fn release_run(&mut self, run: Run) -> Result<(), Refusal> {
        self.release_run_with(self.host, run)
    }

    /// [`Heap::release_run`] with the system's answers.
    ///
    /// ```
    /// # use vigbuso::{Heap, Host};
    /// let mut heap = Heap::open(64)?;
    /// let run = heap.commit(3)?.unwrap().run;
    /// heap.release_run_with(Host::ALL, run)?;
    /// # Ok::<(), vigbuso::Refusal>(())
    /// ```
    ///
    /// # Errors
    ///
    /// As [`Heap::release_run`].
    pub fn release_run_with(&mut self, host: Host, run: Run) -> Result<(), Refusal> {
        ffi::release_run(self.book.as_mut(), host, run)
    }

    /// Whether these bytes, counted from the arena's start, are in the arena. Before the first commit, and after a refused
    /// reservation, none is.
    ///
    /// ```
    /// # use vigbuso::{Class, Heap};
    /// let mut heap = Heap::open(1)?;
    /// assert!(!heap.contains(0, 16));
    /// let blocks = heap.take(Class::for_size(16).unwrap())?;
    /// assert!(heap.contains(65_520, 16) && !heap.contains(65_520, 17));
    /// # Ok::<(), vigbuso::Refusal>(())
    /// ```
    #[must_use]
    pub fn contains(&self, offset: u64, length: u64) -> bool {
        ffi::contains(self.book.as_ref(), offset, length) == 1
    }

    /// The arena's figures.
    ///
    /// ```
    /// # use vigbuso::Heap;
    /// let mut heap = Heap::open(64)?;
    /// heap.commit(3)?;
    /// assert_eq!(heap.report()?.held, 3);
    /// # Ok::<(), vigbuso::Refusal>(())
    /// ```
    ///
    /// # Errors
    ///
    /// None on a book that only this heap and its pool have written; [`Refusal::BookWord`] on a damaged one.
    pub fn report(&self) -> Result<Report, Refusal> {
        ffi::report(self.book.as_ref())
    }
}

/// What a pool has granted stands in the book.
impl<B: PartialEq> PartialEq for Heap<B> {
    fn eq(&self, other: &Heap<B>) -> bool {
        self.book == other.book && self.pages == other.pages && self.host == other.host
    }
}

impl<B: Eq> Eq for Heap<B> {}

/// A clone of a heap with a book of its own touches only the words that are not 0.
impl Clone for Heap {
    fn clone(&self) -> Heap {
        Heap { book: copy_used(&self.book, self.book.len()), ..*self }
    }
}

/// As for a `Vec`.
impl Clone for Heap<Box<[u32]>> {
    fn clone(&self) -> Heap<Box<[u32]>> {
        Heap { book: copy_used(&self.book, self.book.len()).into_boxed_slice(), ..*self }
    }
}

/// The book's words would fill pages.
impl<B: AsRef<[u32]>> fmt::Debug for Heap<B> {
    fn fmt(&self, f: &mut fmt::Formatter) -> fmt::Result {
        let report = ffi::report(self.book.as_ref());
        let mut heap = f.debug_struct("Heap");
        heap.field("pages", &self.pages).field("host", &self.host).field("report", &report).finish_non_exhaustive()
    }
}
