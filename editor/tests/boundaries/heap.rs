//! A heap by its C functions (docs/CALLS.md) alone. So these tests stand on the boundary itself, and run on whatever library
//! has these functions.

use std::ops::DerefMut;

/// Host words: all granted, and all but one.
pub const ALL: u32 = 15;
pub const NO_RESERVATION: u32 = 14;
pub const NO_COMMIT: u32 = 13;
pub const NO_DISCARD: u32 = 11;
pub const NO_ZEROES: u32 = 7;

/// A word's bits below its kind, and those of a group's page.
const KIND_BITS: u32 = 62;
const CHUNK_PAGE_BITS: u32 = 50;

#[derive(Clone, Copy)]
pub enum Family {
    Small,
    Medium,
}

// The folder is the build script's.
#[link(name = "vigbuso")]
extern "C" {
    fn vigbuso_open(book: *mut u32, book_len: usize, pages: u64, rows: *const u32, rows_len: usize) -> u32;
    fn vigbuso_commit(book: *mut u32, book_len: usize, host: u32, pages: u64, first: *mut u32, fresh: *mut u32) -> u32;
    fn vigbuso_grow_frontier(
        book: *mut u32,
        book_len: usize,
        host: u32,
        first: u64,
        old_pages: u64,
        new_pages: u64,
        grown: *mut u32,
    ) -> u32;
    fn vigbuso_release(book: *mut u32, book_len: usize, host: u32, first: u64, pages: u64) -> u32;
    fn vigbuso_contains(book: *const u32, book_len: usize, offset: u64, length: u64) -> u32;
    fn vigbuso_report(book: *const u32, book_len: usize, figures: *mut u64) -> u32;
    fn vigbuso_take_blocks(
        book: *mut u32,
        book_len: usize,
        class: u32,
        host: u32,
        list: *mut u64,
        list_len: usize,
        count: *mut u32,
        virgin: *mut u32,
    ) -> u32;
    fn vigbuso_medium_take_blocks(
        book: *mut u32,
        book_len: usize,
        class: u32,
        host: u32,
        list: *mut u64,
        list_len: usize,
        count: *mut u32,
        virgin: *mut u32,
    ) -> u32;
    fn vigbuso_release_blocks(
        book: *mut u32,
        book_len: usize,
        class: u32,
        host: u32,
        list: *const u64,
        list_len: usize,
        fate: *mut u32,
    ) -> u32;
    fn vigbuso_medium_release_blocks(
        book: *mut u32,
        book_len: usize,
        class: u32,
        host: u32,
        list: *const u64,
        list_len: usize,
        fate: *mut u32,
    ) -> u32;
    fn vigbuso_release_bin_chunks(
        book: *mut u32,
        book_len: usize,
        class: u32,
        host: u32,
        list: *const u64,
        list_len: usize,
        chunks: *const u64,
        chunks_len: usize,
        fates: *mut u32,
        fates_len: usize,
    ) -> u32;
    fn vigbuso_alloc(book: *mut u32, book_len: usize, class: u32, host: u32, block: *mut u64) -> u32;
    fn vigbuso_free(book: *mut u32, book_len: usize, class: u32, host: u32, block: u64) -> u32;
    fn vigbuso_trim(book: *mut u32, book_len: usize, class: u32, host: u32, block: *mut u64) -> u32;
    fn vigbuso_class_of(book: *const u32, book_len: usize, block: u64) -> u32;
    fn vigbuso_granted(book: *const u32, book_len: usize, class: u32, block: u64) -> u32;
    fn vigbuso_stocked(book: *const u32, book_len: usize, class: u32) -> u32;
    fn vigbuso_trace(
        book: *mut u32,
        book_len: usize,
        pages: u64,
        trace: *const u32,
        trace_len: usize,
        blocks: *mut u64,
        blocks_len: usize,
        figures: *mut u64,
        figures_len: usize,
        done: *mut u64,
    ) -> u32;
}

type ReleaseBlocks = unsafe extern "C" fn(*mut u32, usize, u32, u32, *const u64, usize, *mut u32) -> u32;

/// What a call answers, or the number of its refusal.
pub type Answer<T> = Result<T, u32>;

fn answered<T>(number: u32, value: T) -> Answer<T> {
    match number {
        0 => Ok(value),
        _ => Err(number),
    }
}

/// The blocks of a take, as granules counted from the arena's start, and virgin.
pub type Taken = (Vec<u64>, bool);

#[derive(Clone)]
pub struct Heap<B = Vec<u32>> {
    /// Written by the heap; docs/RANGES.md says what stands where.
    pub book: B,
}

impl Heap {
    /// The book's words are zero until they are written, so most of a long one costs no memory.
    pub fn open(pages: u64) -> Heap {
        Heap::open_with(pages, &[])
    }

    /// With parking rules that are not refused.
    pub fn open_with(pages: u64, rows: &[u32]) -> Heap {
        let mut heap = Heap { book: vec![0; book_words(pages)] };
        assert_eq!(heap.reopen(pages, rows), Ok(()));
        heap
    }
}

/// Words that a book for so many pages has at least.
pub fn book_words(pages: u64) -> usize {
    usize::try_from(40_000 + 4_112 * pages).expect("64 bits")
}

// SAFETY of every call below: the book, the lists and the out-parameters are lent for the call, with their own lengths.
impl<B: DerefMut<Target = [u32]>> Heap<B> {
    pub fn reopen(&mut self, pages: u64, rows: &[u32]) -> Answer<()> {
        let (book, words) = (self.book.as_mut_ptr(), self.book.len());
        answered(unsafe { vigbuso_open(book, words, pages, rows.as_ptr(), rows.len()) }, ())
    }

    /// The run's first page and whether it is fresh, or none.
    pub fn commit(&mut self, host: u32, pages: u64) -> Answer<Option<(u32, bool)>> {
        let (mut first, mut fresh) = (0, 0);
        let book = &mut self.book;
        let number =
            unsafe { vigbuso_commit(book.as_mut_ptr(), book.len(), host, pages, &raw mut first, &raw mut fresh) };
        answered(number, (first != u32::MAX).then_some((first, fresh == 1)))
    }

    pub fn grow(&mut self, host: u32, first: u64, old: u64, new: u64) -> Answer<bool> {
        let mut grown = 0;
        let book = &mut self.book;
        let number =
            unsafe { vigbuso_grow_frontier(book.as_mut_ptr(), book.len(), host, first, old, new, &raw mut grown) };
        answered(number, grown == 1)
    }

    pub fn release(&mut self, host: u32, first: u64, pages: u64) -> Answer<()> {
        let book = &mut self.book;
        answered(unsafe { vigbuso_release(book.as_mut_ptr(), book.len(), host, first, pages) }, ())
    }

    pub fn contains(&self, offset: u64, length: u64) -> bool {
        unsafe { vigbuso_contains(self.book.as_ptr(), self.book.len(), offset, length) == 1 }
    }

    /// Commits, reuses, abandoned, pages held, idle pages, and how many are both.
    pub fn report(&self) -> [u64; 6] {
        self.try_report().expect("a reached book")
    }

    pub fn try_report(&self) -> Answer<[u64; 6]> {
        let mut figures = [0; 6];
        let number = unsafe { vigbuso_report(self.book.as_ptr(), self.book.len(), figures.as_mut_ptr()) };
        answered(number, figures)
    }

    pub fn take(&mut self, family: Family, class: u32, host: u32) -> Answer<Taken> {
        let (mut list, mut count, mut virgin) = ([0; 64], 0, 0);
        let call = match family {
            Family::Small => vigbuso_take_blocks,
            Family::Medium => vigbuso_medium_take_blocks,
        };
        let (book, words) = (self.book.as_mut_ptr(), self.book.len());
        let number =
            unsafe { call(book, words, class, host, list.as_mut_ptr(), list.len(), &raw mut count, &raw mut virgin) };
        let granules = list[..count as usize].iter().copied().map(granule).collect();
        answered(number, (granules, virgin == 1))
    }

    /// The fate of the page or span that these granules' blocks go back to.
    pub fn give(&mut self, family: Family, class: u32, host: u32, granules: &[u64]) -> Answer<u32> {
        let call: ReleaseBlocks = match family {
            Family::Small => vigbuso_release_blocks,
            Family::Medium => vigbuso_medium_release_blocks,
        };
        let list = words(family, granules);
        let mut fate = 0;
        let (book, words) = (self.book.as_mut_ptr(), self.book.len());
        let number = unsafe { call(book, words, class, host, list.as_ptr(), list.len(), &raw mut fate) };
        answered(number, fate)
    }

    /// The fates of the chunks, each a count and a page, with room for so many fates.
    pub fn give_chunks(
        &mut self,
        class: u32,
        granules: &[u64],
        chunks: &[(u64, u64)],
        room: usize,
    ) -> Answer<Vec<u32>> {
        let list = words(Family::Small, granules);
        let chunks: Vec<u64> =
            chunks.iter().map(|(count, page)| 3 << KIND_BITS | count << CHUNK_PAGE_BITS | page).collect();
        let mut fates = vec![9; room];
        let number = unsafe {
            vigbuso_release_bin_chunks(
                self.book.as_mut_ptr(),
                self.book.len(),
                class,
                ALL,
                list.as_ptr(),
                list.len(),
                chunks.as_ptr(),
                chunks.len(),
                fates.as_mut_ptr(),
                fates.len(),
            )
        };
        answered(number, fates)
    }

    /// A block's word, or none. Here and below a class is 0 to 75, by one number.
    pub fn alloc(&mut self, class: u32, host: u32) -> Answer<Option<u64>> {
        let (book, mut word) = (&mut self.book, 0);
        let number = unsafe { vigbuso_alloc(book.as_mut_ptr(), book.len(), class, host, &raw mut word) };
        answered(number, (word != 0).then_some(word))
    }

    pub fn free(&mut self, class: u32, host: u32, word: u64) -> Answer<()> {
        let book = &mut self.book;
        answered(unsafe { vigbuso_free(book.as_mut_ptr(), book.len(), class, host, word) }, ())
    }

    /// The word of the block that went back, or none.
    pub fn trim(&mut self, class: u32, host: u32) -> Answer<Option<u64>> {
        let (book, mut word) = (&mut self.book, 0);
        let number = unsafe { vigbuso_trim(book.as_mut_ptr(), book.len(), class, host, &raw mut word) };
        answered(number, (word != 0).then_some(word))
    }

    pub fn class_of(&self, word: u64) -> u32 {
        unsafe { vigbuso_class_of(self.book.as_ptr(), self.book.len(), word) }
    }

    pub fn granted(&self, class: u32, word: u64) -> bool {
        unsafe { vigbuso_granted(self.book.as_ptr(), self.book.len(), class, word) == 1 }
    }

    pub fn stocked(&self, class: u32) -> u32 {
        unsafe { vigbuso_stocked(self.book.as_ptr(), self.book.len(), class) }
    }

    /// The words of the blocks that a trace hands out, each of which adds 64 at most.
    pub fn trace(&mut self, pages: u64, trace: &[u32]) -> Answer<Vec<u64>> {
        let (book, mut blocks, mut done) = (&mut self.book, vec![0; 64 * trace.len()], [0; 3]);
        let number = unsafe {
            vigbuso_trace(
                book.as_mut_ptr(),
                book.len(),
                pages,
                trace.as_ptr(),
                trace.len(),
                blocks.as_mut_ptr(),
                blocks.len(),
                [].as_mut_ptr(),
                0,
                done.as_mut_ptr(),
            )
        };
        blocks.truncate(usize::try_from(done[1]).expect("64 bits"));
        answered(number, blocks)
    }
}

impl Family {
    /// A class of all by its family, and its number there.
    pub fn of(class: u32) -> (Family, u32) {
        match class {
            0..64 => (Family::Small, class),
            _ => (Family::Medium, class - 64),
        }
    }

    /// The word of its block at a granule.
    pub fn word(self, granule: u64) -> u64 {
        match self {
            Family::Small => 1 << KIND_BITS | granule,
            Family::Medium => 2 << KIND_BITS | granule,
        }
    }
}

/// The first granule of the block that a word names.
pub fn granule(word: u64) -> u64 {
    word & ((1 << KIND_BITS) - 1)
}

/// The words of a family's blocks.
fn words(family: Family, granules: &[u64]) -> Vec<u64> {
    granules.iter().map(|&granule| family.word(granule)).collect()
}
