//! Blocks one by one.

use alloc::vec::Vec;
use core::fmt;
use core::ops::Range;

use crate::book::{entries, frontier, held_by_hand, is_pools};
use crate::{
    ffi, AllocError, Block, Class, Committed, FreeError, Heap, Host, OpenError, Refusal, Report, Rules, Run, Word,
};

/// A heap that hands blocks out and takes them back one by one. It keeps a stock of blocks for each class, so that the arena is
/// seldom asked.
///
/// What `alloc` and `free` do is proved, as the heap's calls are: of every history of calls, the heap's among them, two blocks that are
/// out share no byte, and a free is carried out exactly if its block was granted and not freed since. Every other block is refused
/// and nothing changes, in every build: freed twice, stale, of another class or kind, inside another block, or never its own. What no
/// call can tell: once the same block was granted again, an old copy of its [`Block`] names the new grant. An old
/// handle of a [`Region`](crate::Region) is refused then too.
///
/// The heap below can be used beside the pool, in any mixture and for the same sizes: [`heap_mut`](Pool::heap_mut) lends it. For each
/// class of the heap the pool has one of its own, with pages of its own, so neither can give back what the other handed out.
///
/// All that a pool knows stands in its book, the stocks too. So a pool is a value as a heap is: cloned, compared,
/// [saved](Pool::save) and [resumed](Pool::resume).
///
/// ```
/// use vigbuso::{Error, Pool, PAGE_BYTES};
///
/// let mut arena = vec![0; 64 * PAGE_BYTES];
/// let mut pool = Pool::open(64)?;
/// let word = b"CROSSWORD";
/// let block = pool.alloc(word.len())?;
/// arena[block.range(word.len())].copy_from_slice(word);
/// assert_eq!(&arena[block.range(5)], b"CROSS");
/// pool.free(block)?;
/// assert!(pool.free(block).is_err());
/// # Ok::<(), Error>(())
/// ```
pub struct Pool<B = Vec<u32>> {
    heap: Heap<B>,
}

/// How many blocks a pool has granted and not had back, and their bytes. The book has each of them, but not these sums.
#[derive(Clone, Copy, Default)]
pub(crate) struct Granted {
    blocks: usize,
    bytes: usize,
}

impl Pool {
    /// A pool on a new heap for an arena of so many pages. No class parks a run, so that whatever has no block in use serves every
    /// class.
    ///
    /// ```
    /// # use vigbuso::Pool;
    /// let mut pool = Pool::open(1)?;
    /// let small = pool.alloc(16)?;
    /// pool.free(small)?;
    /// assert!(pool.alloc(32).is_ok(), "the page is nobody's any more");
    /// # Ok::<(), vigbuso::Error>(())
    /// ```
    ///
    /// # Errors
    ///
    /// As [`Heap::open`].
    pub fn open(pages: u64) -> Result<Pool, Refusal> {
        Pool::open_with(pages, &Rules::every(0, 0))
    }

    /// A pool on a new heap with parking rules of its own. What a class has parked is at hand for this class, and no other can
    /// have it.
    ///
    /// ```
    /// # use vigbuso::{AllocError, Pool, Rules};
    /// let mut pool = Pool::open_with(1, &Rules::every(1, 0))?;
    /// let small = pool.alloc(16)?;
    /// pool.free(small)?;
    /// assert_eq!(pool.alloc(32), Err(AllocError::Full));
    /// assert!(pool.alloc(16).is_ok());
    /// # Ok::<(), vigbuso::Error>(())
    /// ```
    ///
    /// # Errors
    ///
    /// As [`Heap::open_with`].
    pub fn open_with(pages: u64, rules: &Rules) -> Result<Pool, Refusal> {
        Heap::open_with(pages, rules).map(Pool::from)
    }

    /// Opens a pool as [`Pool::open`] does, and answers where there is no memory for the book.
    ///
    /// ```
    /// # use vigbuso::Pool;
    /// assert_eq!(Pool::try_open(64)?, Pool::open(64)?);
    /// # Ok::<(), vigbuso::Error>(())
    /// ```
    ///
    /// # Errors
    ///
    /// As [`Heap::try_open`].
    pub fn try_open(pages: u64) -> Result<Pool, OpenError> {
        Pool::try_open_with(pages, &Rules::every(0, 0))
    }

    pub(crate) fn try_open_with(pages: u64, rules: &Rules) -> Result<Pool, OpenError> {
        Heap::try_open_with(pages, rules).map(Pool::from)
    }
}

impl<B: AsRef<[u32]> + AsMut<[u32]>> Pool<B> {
    /// A pool on a new heap with a book that the caller lends or gives, as [`Heap::on`]. No class parks a run.
    ///
    /// ```
    /// use vigbuso::{book_words, Pool};
    ///
    /// let mut book = vec![7; book_words(64)];
    /// let mut pool = Pool::on(&mut book[..], 64)?;
    /// assert!(pool.alloc(100).is_ok());
    /// # Ok::<(), vigbuso::Refusal>(())
    /// ```
    ///
    /// # Errors
    ///
    /// As [`Heap::on`].
    pub fn on(book: B, pages: u64) -> Result<Pool<B>, Refusal> {
        Pool::on_with(book, pages, &Rules::every(0, 0))
    }

    /// A pool as [`Pool::on`] opens it, with parking rules of its own.
    ///
    /// ```
    /// # use vigbuso::{book_words, Pool, Rules};
    /// let pool = Pool::on_with(vec![7; book_words(64)], 64, &Rules::every(8, 0))?;
    /// # Ok::<(), vigbuso::Refusal>(())
    /// ```
    ///
    /// # Errors
    ///
    /// As [`Heap::on_with`].
    pub fn on_with(book: B, pages: u64, rules: &Rules) -> Result<Pool<B>, Refusal> {
        Heap::on_with(book, pages, rules).map(Pool::from)
    }

    /// Goes on with a book as an earlier pool left it: what was granted is granted still, and what was in stock is in stock. Length
    /// and arena's record are tested as [`Heap::resume`] does; a book that was damaged elsewhere makes no call unsafe, but what calls
    /// answer may mean nothing. All blocks of the pool's pages are gone over once, to count those in use.
    ///
    /// A book of a [`Heap`] will do as well. What its takes have handed out stays out and does not count as granted: it goes back by
    /// the [heap's releases](Pool::heap_mut), and a free of it is refused.
    ///
    /// ```
    /// # use vigbuso::Pool;
    /// let mut pool = Pool::open(64)?;
    /// let block = pool.alloc(100)?;
    /// let mut again = Pool::resume(pool.into_book())?;
    /// assert_eq!(again.report()?.used, 1);
    /// again.free(block)?;
    /// # Ok::<(), vigbuso::Error>(())
    /// ```
    ///
    /// # Errors
    ///
    /// As [`Heap::resume`].
    pub fn resume(book: B) -> Result<Pool<B>, Refusal> {
        Heap::resume_stocked(book).map(Pool::from)
    }

    /// A block for a record of so many bytes.
    ///
    /// ```
    /// # use vigbuso::Pool;
    /// let mut pool = Pool::open(64)?;
    /// let blocks = [10, 100, 1_000, 10_000, 60_000].map(|bytes| pool.alloc(bytes).unwrap());
    /// assert_eq!(blocks.map(|block| pool.class_of(block).unwrap().bytes()), [16, 112, 1_040, 10_352, 65_472]);
    /// # Ok::<(), vigbuso::Refusal>(())
    /// ```
    ///
    /// # Errors
    ///
    /// [`AllocError::TooLarge`] above [`Class::MAX_BYTES`]; else as [`Pool::alloc_in`].
    #[inline]
    pub fn alloc(&mut self, bytes: usize) -> Result<Block, AllocError> {
        self.alloc_in(Class::for_size(bytes).ok_or(AllocError::TooLarge)?)
    }

    /// A block of a class, for callers who have looked it up already.
    ///
    /// ```
    /// # use vigbuso::{Class, Pool};
    /// let class = Class::for_size(24).unwrap();
    /// let mut pool = Pool::open(64)?;
    /// assert!((0..1_000).all(|_| pool.alloc_in(class).is_ok()));
    /// # Ok::<(), vigbuso::Refusal>(())
    /// ```
    ///
    /// # Errors
    ///
    /// [`AllocError::Full`] if the arena has no page left for the class, also after a [`flush`](Pool::flush).
    /// [`AllocError::Refused`] only on a damaged book.
    #[inline]
    pub fn alloc_in(&mut self, class: Class) -> Result<Block, AllocError> {
        let block = match self.try_alloc(class)? {
            Some(block) => block,
            None => self.alloc_flushed(class)?,
        };
        self.heap.granted.add(class);
        Ok(block)
    }

    #[inline]
    fn try_alloc(&mut self, class: Class) -> Result<Option<Block>, AllocError> {
        ffi::alloc(self.heap.book.as_mut(), class, self.heap.host).map_err(AllocError::Refused)
    }

    /// The arena is full: all stocks go back, and their pages may be enough.
    #[cold]
    fn alloc_flushed(&mut self, class: Class) -> Result<Block, AllocError> {
        self.flush().map_err(AllocError::Refused)?;
        self.try_alloc(class)?.ok_or(AllocError::Full)
    }

    /// Takes a block back that the pool has granted. Its class is that of its page.
    ///
    /// ```
    /// # use vigbuso::{Pool, Refusal};
    /// let mut pool = Pool::open(64)?;
    /// let block = pool.alloc(100)?;
    /// pool.free(block)?;
    /// let error = pool.free(block).unwrap_err();
    /// assert_eq!((error.refusal(), error.block()), (Refusal::NotOut, block));
    /// # Ok::<(), vigbuso::Error>(())
    /// ```
    ///
    /// # Errors
    ///
    /// [`Refusal::NotOut`] for every block that the pool has not granted or has had back, a block of the [heap's](Pool::heap_mut) takes
    /// too, [`WrongKind`](Refusal::WrongKind) if it is a small one where a span stands, or the reverse; nothing changes then. Another
    /// refusal only on a damaged book.
    #[inline]
    pub fn free(&mut self, block: Block) -> Result<(), FreeError> {
        let class = ffi::class_of(self.heap.book.as_ref(), block);
        self.free_in(class.ok_or(FreeError::new(Refusal::NotOut, block))?, block)
    }

    /// Takes a block back that the pool has granted in a class, for callers who have it at hand.
    ///
    /// ```
    /// # use vigbuso::{Class, Pool, Refusal};
    /// let mut pool = Pool::open(64)?;
    /// let [class, other] = [100, 200].map(|bytes| Class::for_size(bytes).unwrap());
    /// let block = pool.alloc_in(class)?;
    /// assert_eq!(pool.free_in(other, block).unwrap_err().refusal(), Refusal::NotOut);
    /// pool.free_in(class, block)?;
    /// # Ok::<(), vigbuso::Error>(())
    /// ```
    ///
    /// # Errors
    ///
    /// As [`Pool::free`], and for a block that was granted in another class.
    #[inline]
    pub fn free_in(&mut self, class: Class, block: Block) -> Result<(), FreeError> {
        ffi::free(self.heap.book.as_mut(), class, self.heap.host, block)
            .map_err(|refusal| FreeError::new(refusal, block))?;
        self.heap.granted.remove(class);
        Ok(())
    }

    /// Takes the block at a granule back.
    #[inline]
    pub(crate) fn free_at(&mut self, granule: Word) -> Result<(), FreeError> {
        let class = self.class_at(granule);
        let block = class.and_then(|class| class.block_at(granule));
        match class.zip(block) {
            Some((class, block)) => self.free_in(class, block),
            None => Err(FreeError::new(Refusal::NotOut, Block::small(granule).unwrap_or(Block::FILLER))),
        }
    }

    /// The class that has the page of a granule.
    #[inline]
    pub(crate) fn class_at(&self, granule: Word) -> Option<Class> {
        ffi::class_of(self.heap.book(), Block::small(granule)?)
    }

    /// The class of the block at a granule that the pool has granted and not had back.
    pub(crate) fn granted_at(&self, granule: Word) -> Option<Class> {
        let class = self.class_at(granule)?;
        ffi::granted(self.heap.book(), class, class.block_at(granule)?).then_some(class)
    }

    /// Whether the direct calls hold all pages of a run.
    pub(crate) fn holds(&self, run: Run) -> bool {
        let end = run.first.saturating_add(run.pages);
        end <= frontier(self.book()) && (run.first..end).all(|page| held_by_hand(self.book(), page))
    }

    /// The class of a block that the pool has granted and not had back; none for every other one.
    ///
    /// ```
    /// # use vigbuso::{Class, Pool};
    /// let mut pool = Pool::open(64)?;
    /// let block = pool.alloc(100)?;
    /// assert_eq!(pool.class_of(block), Class::for_size(100));
    /// pool.free(block)?;
    /// assert_eq!(pool.class_of(block), None);
    /// # Ok::<(), vigbuso::Error>(())
    /// ```
    #[must_use]
    #[inline]
    pub fn class_of(&self, block: Block) -> Option<Class> {
        let class = ffi::class_of(self.heap.book(), block)?;
        ffi::granted(self.heap.book(), class, block).then_some(class)
    }

    /// All bytes of a block that the pool has granted and not had back, to index the arena with; none for every other one. So no
    /// neighbour is reached; by [`Block::range`] one is, if the length is too great.
    ///
    /// ```
    /// # use vigbuso::Pool;
    /// let mut pool = Pool::open(64)?;
    /// let block = pool.alloc(100)?;
    /// assert_eq!(pool.range(block), Some(block.range(112)));
    /// pool.free(block)?;
    /// assert_eq!(pool.range(block), None);
    /// # Ok::<(), vigbuso::Error>(())
    /// ```
    #[must_use]
    pub fn range(&self, block: Block) -> Option<Range<usize>> {
        Some(block.range(self.class_of(block)?.bytes()))
    }

    /// The blocks that the pool has granted and not had back, each with its class, in the order of their pages. It asks for every
    /// block of every page that the pool has. Those of the [heap's](Pool::heap_mut) takes are not among them.
    ///
    /// ```
    /// # use vigbuso::{Class, Pool};
    /// let mut pool = Pool::open(64)?;
    /// let [one, two] = [pool.alloc(100)?, pool.alloc(20_000)?];
    /// let sizes: Vec<usize> = pool.blocks().map(|(_, class)| class.bytes()).collect();
    /// assert_eq!(sizes, [112, 20_736]);
    /// pool.free(one)?;
    /// assert!(pool.blocks().eq([(two, Class::for_size(20_000).unwrap())]));
    /// # Ok::<(), vigbuso::Error>(())
    /// ```
    pub fn blocks(&self) -> impl Iterator<Item = (Block, Class)> + '_ {
        self.heap.granted_blocks()
    }

    /// Gives every block in stock back to the heap.
    ///
    /// ```
    /// # use vigbuso::Pool;
    /// let mut pool = Pool::open(64)?;
    /// let block = pool.alloc(100)?;
    /// assert_eq!(pool.report()?.stocked, 63);
    /// pool.flush()?;
    /// assert_eq!(pool.report()?.stocked, 0);
    /// # Ok::<(), vigbuso::Error>(())
    /// ```
    ///
    /// # Errors
    ///
    /// None on a book that only this pool and its heap have written. On a damaged one the first refusal; what was not refused is back nevertheless.
    pub fn flush(&mut self) -> Result<(), Refusal> {
        self.heap.flush()
    }

    /// Flushes the pool and gives the heap back. What was granted stays out, and is the pool's: a release of it is refused. Once the
    /// heap is a pool's again, by `Pool::from` or [`Pool::resume`], it can be freed.
    ///
    /// ```
    /// # use vigbuso::{Pool, Refusal};
    /// let mut pool = Pool::open(64)?;
    /// let block = pool.alloc(100)?;
    /// let class = pool.class_of(block).unwrap();
    /// let mut heap = pool.into_heap()?;
    /// assert_eq!(heap.release(class, &[block]).unwrap_err().refusal(), Refusal::NotOut);
    /// let mut pool = Pool::from(heap);
    /// pool.free(block)?;
    /// # Ok::<(), vigbuso::Error>(())
    /// ```
    ///
    /// # Errors
    ///
    /// As [`Pool::flush`].
    pub fn into_heap(mut self) -> Result<Heap<B>, Refusal> {
        self.flush()?;
        Ok(self.heap)
    }

    /// The book, stocks and all. It can be kept, and [`resume`](Pool::resume)d.
    ///
    /// ```
    /// # use vigbuso::{book_words, Pool};
    /// assert_eq!(Pool::open(5)?.into_book().len(), book_words(5));
    /// # Ok::<(), vigbuso::Refusal>(())
    /// ```
    #[must_use]
    pub fn into_book(self) -> B {
        self.heap.into_book()
    }

    /// The words of the book, to be read or copied.
    ///
    /// ```
    /// # use vigbuso::Pool;
    /// let pool = Pool::open(5)?;
    /// assert_eq!(Pool::resume(pool.book().to_vec())?, pool);
    /// # Ok::<(), vigbuso::Refusal>(())
    /// ```
    #[must_use]
    pub fn book(&self) -> &[u32] {
        self.heap.book()
    }

    /// The heap below, to be asked.
    ///
    /// ```
    /// # use vigbuso::Pool;
    /// let mut pool = Pool::open(64)?;
    /// pool.alloc(100)?;
    /// assert_eq!(pool.heap().report()?.held, 1);
    /// # Ok::<(), vigbuso::Error>(())
    /// ```
    #[must_use]
    pub fn heap(&self) -> &Heap<B> {
        &self.heap
    }

    /// The heap below, for blocks in batches beside the pool's. Both may use the same class, in any order. A release of a block
    /// that the pool has granted, or has in stock, is refused as [`NotOut`](Refusal::NotOut), and so is a [`free`](Pool::free) of a
    /// block that a take has handed out; nothing changes then.
    ///
    /// A take or a commit here leaves the pool's stocks alone. Where it answers none, a [`flush`](Pool::flush) may give it pages.
    /// [Opened anew](Heap::reopen), the heap forgets the pool's blocks with all others, and pool and heap have the parking rules given then.
    ///
    /// ```
    /// # use vigbuso::{Class, Pool, Refusal};
    /// let mut pool = Pool::open(64)?;
    /// let class = Class::for_size(100).unwrap();
    /// let block = pool.alloc_in(class)?;
    /// let mut batch = pool.heap_mut().take(class)?; // 64 more, on a page of their own
    /// assert_eq!(pool.heap_mut().release(class, &[block]).unwrap_err().refusal(), Refusal::NotOut);
    /// assert_eq!(pool.free(batch[0]).unwrap_err().refusal(), Refusal::NotOut);
    /// pool.heap_mut().release_all(class, &mut batch)?;
    /// pool.free(block)?;
    /// # Ok::<(), vigbuso::Error>(())
    /// ```
    #[must_use]
    pub fn heap_mut(&mut self) -> &mut Heap<B> {
        &mut self.heap
    }

    /// The arena's length.
    ///
    /// ```
    /// # use vigbuso::Pool;
    /// assert_eq!(Pool::open(64)?.pages(), 64);
    /// # Ok::<(), vigbuso::Refusal>(())
    /// ```
    #[must_use]
    pub fn pages(&self) -> u64 {
        self.heap.pages()
    }

    /// Whether these bytes, counted from the arena's start, are in the arena, as [`Heap::contains`].
    ///
    /// ```
    /// # use vigbuso::Pool;
    /// let mut pool = Pool::open(1)?;
    /// let block = pool.alloc(100)?;
    /// assert!(pool.contains(block.byte_offset(), 112) && !pool.contains(65_536, 1));
    /// # Ok::<(), vigbuso::Error>(())
    /// ```
    #[must_use]
    pub fn contains(&self, offset: u64, length: u64) -> bool {
        self.heap.contains(offset, length)
    }

    /// The host word of all calls.
    ///
    /// ```
    /// # use vigbuso::{Host, Pool};
    /// assert_eq!(Pool::open(64)?.host(), Host::GRANTED);
    /// # Ok::<(), vigbuso::Refusal>(())
    /// ```
    #[must_use]
    pub fn host(&self) -> Host {
        self.heap.host()
    }

    /// Sets the host word of all calls that follow, as [`Heap::set_host`].
    ///
    /// ```
    /// # use vigbuso::{Host, Pool};
    /// let mut pool = Pool::open(64)?;
    /// pool.set_host(Host::RESERVATION);
    /// assert!(pool.alloc(100).is_err(), "the commit was not granted");
    /// # Ok::<(), vigbuso::Refusal>(())
    /// ```
    pub fn set_host(&mut self, host: Host) {
        self.heap.set_host(host);
    }

    /// Asks for a run of so many pages, as [`Heap::commit`]. If the arena has none, the pool is flushed and the arena is asked once
    /// more. The run is not the pool's: it goes back by [`Pool::release_run`].
    ///
    /// ```
    /// # use vigbuso::Pool;
    /// let mut pool = Pool::open(2)?;
    /// let [one, two] = [pool.alloc(100)?, pool.alloc(200)?]; // each on a page
    /// pool.free(one)?;
    /// pool.free(two)?;
    /// let run = pool.commit(2)?.expect("nothing is in use").run;
    /// pool.release_run(run)?;
    /// # Ok::<(), vigbuso::Error>(())
    /// ```
    ///
    /// # Errors
    ///
    /// As [`Heap::commit`].
    pub fn commit(&mut self, pages: u64) -> Result<Option<Committed>, Refusal> {
        if let Some(answer) = self.heap.commit(pages)? {
            return Ok(Some(answer));
        }
        self.flush()?;
        self.heap.commit(pages)
    }

    /// Grows a run in place, as [`Heap::grow_frontier`].
    ///
    /// ```
    /// # use vigbuso::Pool;
    /// let mut pool = Pool::open(64)?;
    /// let run = pool.commit(3)?.expect("64 pages").run;
    /// assert_eq!(pool.grow_frontier(run, 5)?.map(|run| run.pages), Some(5));
    /// # Ok::<(), vigbuso::Refusal>(())
    /// ```
    ///
    /// # Errors
    ///
    /// As [`Heap::grow_frontier`].
    pub fn grow_frontier(&mut self, run: Run, new_pages: u64) -> Result<Option<Run>, Refusal> {
        self.heap.grow_frontier(run, new_pages)
    }

    /// Gives pages back that [`Pool::commit`] and [`Pool::grow_frontier`] have answered, as [`Heap::release_run`]. A page with the
    /// pool's blocks is none of these.
    ///
    /// ```
    /// # use vigbuso::{Pool, Refusal, Run};
    /// let mut pool = Pool::open(64)?;
    /// let block = pool.alloc(100)?;
    /// let run = Run { first: block.page(), pages: 1 };
    /// assert_eq!(pool.release_run(run), Err(Refusal::NotHeld));
    /// # Ok::<(), vigbuso::Error>(())
    /// ```
    ///
    /// # Errors
    ///
    /// As [`Heap::release_run`].
    pub fn release_run(&mut self, run: Run) -> Result<(), Refusal> {
        self.heap.release_run(run)
    }

    /// The blocks in stock. A page of the pool's that has none of them and none granted is parked, or the arena has it back.
    ///
    /// ```
    /// # use vigbuso::Pool;
    /// let mut pool = Pool::open(64)?;
    /// let block = pool.alloc(100)?;
    /// assert_eq!(pool.stock().count(), 63);
    /// assert!(pool.stock().all(|other| other != block));
    /// # Ok::<(), vigbuso::Error>(())
    /// ```
    pub fn stock(&self) -> impl Iterator<Item = Block> + '_ {
        Class::all().flat_map(move |class| {
            let granules = entries(self.heap.book(), class.index(), self.stocked(class));
            granules.iter().filter_map(move |&granule| class.block_at(granule.into()))
        })
    }

    /// Blocks in a class's stock.
    ///
    /// ```
    /// # use vigbuso::{Class, Pool};
    /// let mut pool = Pool::open(64)?;
    /// let class = Class::for_size(100).unwrap();
    /// pool.alloc_in(class)?;
    /// assert_eq!(pool.stocked(class), 63);
    /// # Ok::<(), vigbuso::Error>(())
    /// ```
    #[must_use]
    pub fn stocked(&self, class: Class) -> usize {
        ffi::stocked(self.heap.book(), class) as usize
    }

    /// The figures of pool and arena.
    ///
    /// ```
    /// # use vigbuso::Pool;
    /// let mut pool = Pool::open(64)?;
    /// let block = pool.alloc(100)?;
    /// let report = pool.report()?;
    /// assert_eq!((report.used, report.used_bytes, report.stocked), (1, 112, 63));
    /// assert_eq!(
    ///     report.to_string(),
    ///     "1 block of 112 bytes in use, 63 in stock; 1 page held, 63 idle; 1 run committed, 0 from holes, 0 abandoned"
    /// );
    /// # Ok::<(), vigbuso::Error>(())
    /// ```
    ///
    /// # Errors
    ///
    /// As [`Heap::report`].
    pub fn report(&self) -> Result<PoolReport, Refusal> {
        let (arena, Granted { blocks: used, bytes: used_bytes }) = (self.heap.report()?, self.heap.granted);
        let none = PoolReport { used, used_bytes, stocked: 0, stocked_bytes: 0, arena };
        Ok(Class::all().fold(none, |sum, class| {
            let stocked = self.stocked(class);
            let stocked_bytes = sum.stocked_bytes + stocked * class.bytes();
            PoolReport { stocked: sum.stocked + stocked, stocked_bytes, ..sum }
        }))
    }
}

impl<B: AsRef<[u32]> + AsMut<[u32]>> Heap<B> {
    /// The blocks that a pool has granted here and not had back, each with its class.
    fn granted_blocks(&self) -> impl Iterator<Item = (Block, Class)> + '_ {
        let book = self.book();
        let pages = (0..frontier(book).min(self.pages())).filter(move |&page| is_pools(book, page));
        let runs = pages.filter_map(move |page| {
            let class = ffi::class_of(book, Block::first_of(page))?;
            Some(class.blocks(page).map(move |block| (block, class)))
        });
        runs.flatten().filter(move |&(block, class)| ffi::granted(book, class, block))
    }

    /// How many they are, by going over all of them.
    pub(crate) fn count_granted(&self) -> Granted {
        let mut granted = Granted::default();
        self.granted_blocks().for_each(|(_, class)| granted.add(class));
        granted
    }
}

impl Granted {
    #[inline]
    fn add(&mut self, class: Class) {
        self.blocks += 1;
        self.bytes += class.bytes();
    }

    /// Only a book that others write too has more granted than was counted.
    #[inline]
    fn remove(&mut self, class: Class) {
        self.blocks = self.blocks.saturating_sub(1);
        self.bytes = self.bytes.saturating_sub(class.bytes());
    }
}

/// A pool on a heap as it is: what a pool has granted there before is granted, and blocks of the heap's takes stay the heap's.
///
/// ```
/// use vigbuso::{Class, Heap, Pool};
///
/// let mut heap = Heap::open(64)?;
/// let class = Class::for_size(100).unwrap();
/// let mut batch = heap.take(class)?;
/// let mut pool = Pool::from(heap);
/// let block = pool.alloc_in(class)?;
/// assert!(!batch.contains(&block) && pool.free(batch[0]).is_err());
/// pool.heap_mut().release_all(class, &mut batch)?;
/// # Ok::<(), vigbuso::Error>(())
/// ```
impl<B> From<Heap<B>> for Pool<B> {
    fn from(heap: Heap<B>) -> Pool<B> {
        Pool { heap }
    }
}

impl<B> Clone for Pool<B>
where
    Heap<B>: Clone,
{
    fn clone(&self) -> Pool<B> {
        Pool { heap: self.heap.clone() }
    }
}

/// Equal pools answer equal calls equally.
impl<B: PartialEq> PartialEq for Pool<B> {
    fn eq(&self, other: &Pool<B>) -> bool {
        self.heap == other.heap
    }
}

impl<B: Eq> Eq for Pool<B> {}

impl<B: AsRef<[u32]>> fmt::Debug for Pool<B> {
    fn fmt(&self, f: &mut fmt::Formatter) -> fmt::Result {
        let mut pool = f.debug_struct("Pool");
        pool.field("heap", &self.heap).field("used", &self.heap.granted.blocks).finish_non_exhaustive()
    }
}

/// What a pool has granted and what it has in stock, with the arena's figures. It prints as a line of status.
///
/// ```
/// # use vigbuso::Pool;
/// let report = Pool::open(64)?.report()?;
/// assert_eq!((report.used, report.stocked, report.arena.idle), (0, 0, 64));
/// # Ok::<(), vigbuso::Refusal>(())
/// ```
#[derive(Clone, Copy, PartialEq, Eq, Hash, Debug)]
#[non_exhaustive]
pub struct PoolReport {
    /// Blocks that the pool has granted and not had back.
    pub used: usize,
    /// Their bytes.
    pub used_bytes: usize,
    /// Blocks in stock.
    pub stocked: usize,
    /// Their bytes.
    pub stocked_bytes: usize,
    /// The arena's figures.
    pub arena: Report,
}

impl fmt::Display for PoolReport {
    fn fmt(&self, f: &mut fmt::Formatter) -> fmt::Result {
        let PoolReport { used, used_bytes, stocked, arena, .. } = self;
        let plural = if *used == 1 { "" } else { "s" };
        write!(f, "{used} block{plural} of {used_bytes} bytes in use, {stocked} in stock; {arena}")
    }
}
