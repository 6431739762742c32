//! The original, asked as document 01's calls: granules and page numbers for pointers, the host word for the system,
//! the fates as answers.
//!
//! It is asked only what its own callers would ask; what document 01 refuses is never passed on.

pub mod asked;
mod fates;
mod host;
mod limits;
pub mod rules;
mod slot;

#[allow(warnings, clippy::all)]
mod original {
    include!(concat!(env!("OUT_DIR"), "/original/root.rs"));
}

use std::sync::atomic::{AtomicBool, Ordering};

use crate::words::{
    block_word, chunk_count, chunk_page, granule_of, Family, Owner, Word, GRANULE_BYTES, PAGE_BYTES, SMALL_BATCH,
};
use original::{arena, classes, heap, page};
use rules::Rules;

// Document 01: debug assertions off.
const _: () = assert!(!cfg!(debug_assertions));

/// No arena will be longer than this: for a process that has less address space. To be said before the first heap.
pub fn shorten(pages: u32) {
    host::shorten(pages);
}

/// Bytes of a block.
pub fn block_bytes(family: Family, class: u32) -> usize {
    match family {
        Family::Small => classes::CLASSES[class as usize],
        Family::Medium => classes::MEDIUM_CLASSES[class as usize],
    }
}

/// Pages of a class's page or span.
pub fn run_pages(family: Family, class: u32) -> u32 {
    match family {
        Family::Small => 1,
        Family::Medium => classes::span_pages_for(block_bytes(family, class)) as u32,
    }
}

/// Blocks of a page or span.
pub fn capacity(family: Family, class: u32) -> u32 {
    match family {
        Family::Small => ((PAGE_BYTES - page::HEADER_SIZE) / block_bytes(family, class)) as u32,
        Family::Medium => batch(family, class) as u32,
    }
}

/// The most blocks that a take gives, and what its list must hold.
pub fn batch(family: Family, class: u32) -> usize {
    match family {
        Family::Small => SMALL_BATCH,
        Family::Medium => heap::medium_refill_batch(class as usize) as usize,
    }
}

/// Touched pages of the region are given back to the system beyond this many.
const TOUCHED_LIMIT: usize = 8_192;

static IN_USE: AtomicBool = AtomicBool::new(false);

/// Every class of one owner.
struct Heaps {
    small: Box<heap::GlobalHeap>,
    medium: Box<heap::MediumHeap>,
}

impl Heaps {
    fn new() -> Heaps {
        Heaps { small: Box::new(heap::GlobalHeap::new()), medium: Box::new(heap::MediumHeap::new()) }
    }

    /// As new ones, where they are.
    fn clear(&mut self) {
        *self.small = heap::GlobalHeap::new();
        *self.medium = heap::MediumHeap::new();
    }

    fn parked_pages(&self) -> usize {
        self.small.parked_pages() + self.medium.parked_pages()
    }
}

/// The original's heaps twice over one arena: for the classes of the heap, and for the pool's. The arena is a static of the original,
/// so there is one at a time.
pub struct Original {
    pages: u32,
    touched: usize,
    own: Heaps,
    /// Made when the pool asks first.
    pool: Option<Heaps>,
}

/// Blocks of one page or span, linked from head to tail.
pub struct Chain {
    run: *mut u8,
    head: *mut u8,
    tail: *mut u8,
    count: usize,
}

/// Blocks that are linked from the head on, and the pages that they go back to.
pub struct Chunks {
    head: *mut u8,
    len: u32,
    chunks: Vec<heap::PageReleaseChunk>,
}

impl Original {
    /// The rows are not refused.
    pub fn open(pages: u32, rows: &[u32], rules: Rules) -> Original {
        assert!(!IN_USE.swap(true, Ordering::AcqRel), "one history of the original at a time");
        rules::set(rules);
        limits::set(rows);
        arena::rebuild(pages as usize);
        Original { pages, touched: 0, own: Heaps::new(), pool: None }
    }

    /// The heap and its arena as `open` leaves them, with so many pages.
    pub fn reopen(&mut self, pages: u32) {
        self.pages = pages;
        arena::rebuild(pages as usize);
        self.own.clear();
        self.pool = None;
    }

    #[inline]
    fn heaps(&mut self, owner: Owner) -> &Heaps {
        match owner {
            Owner::Heap => &self.own,
            Owner::Pool => self.pool.get_or_insert_with(Heaps::new),
        }
    }

    /// Calls of which only the time is asked: no fate is kept.
    pub fn keep_fates(&mut self, kept: bool) {
        fates::keep(kept);
    }

    /// The words of the blocks, latest popped first, and virgin.
    pub fn take_blocks(&mut self, owner: Owner, family: Family, class: u32, host: u32) -> (Vec<Word>, bool) {
        let (chain, count, virgin) = self.take_chain(owner, family, class, host);
        self.touched = self.touched.max(self.frontier() as usize);
        (words_of_chain(family, chain, count), virgin)
    }

    /// The original's own answer: the first block, which links the others, their number, and virgin.
    #[inline]
    pub fn take_chain(&mut self, owner: Owner, family: Family, class: u32, host: u32) -> (*mut u8, u32, bool) {
        host::set(host);
        let heaps = self.heaps(owner);
        // SAFETY: the class is the family's; every page of the heap lies in the region.
        unsafe {
            match family {
                Family::Small => asked::take(&heaps.small, class),
                Family::Medium => asked::take_medium(&heaps.medium, class),
            }
        }
    }

    /// The first page of the page or span that a block out belongs to.
    pub fn run_of(&self, family: Family, word: Word) -> u32 {
        page_number(run_address(family, word))
    }

    /// The fate of the page or span of the owner's that the blocks, all out of it, go back to.
    pub fn release_blocks(&mut self, owner: Owner, family: Family, class: u32, host: u32, list: &[Word]) -> u32 {
        self.release_chain(owner, family, class, host, &chain(family, list));
        let fates = fates::take();
        assert!(fates.len() == 1, "one release has one fate, not {fates:?}");
        fates[0]
    }

    /// The blocks of a chain, all out of its run, go back.
    #[inline]
    pub fn release_chain(&mut self, owner: Owner, family: Family, class: u32, host: u32, chain: &Chain) {
        host::set(host);
        let heaps = self.heaps(owner);
        // SAFETY: the blocks are out of this one run and are linked from head to tail.
        unsafe {
            match family {
                Family::Small => asked::release(&heaps.small, chain),
                Family::Medium => asked::release_medium(&heaps.medium, class, chain),
            }
        }
    }

    /// The fates of the groups, in their order; 4 more for a page that was retired.
    pub fn release_bin_chunks(&mut self, class: u32, host: u32, list: &[Word], chunks: &[Word]) -> Vec<u32> {
        let mut made = make_chunks(list, chunks);
        self.release_chunks(class, host, &mut made);
        let fates = fates::take();
        assert!(fates.len() == chunks.len(), "{} groups have {} fates", chunks.len(), fates.len());
        let retired = |chunk: &heap::PageReleaseChunk| chunk.n & heap::PAGE_RELEASE_RETIRED != 0;
        made.chunks.iter().zip(fates).map(|(chunk, fate)| if retired(chunk) { fate + 4 } else { fate }).collect()
    }

    /// The blocks of the chunks go back. What is written to the chunks is the original's affair.
    #[inline]
    pub fn release_chunks(&mut self, class: u32, host: u32, made: &mut Chunks) {
        host::set(host);
        // SAFETY: the blocks are out of this class, and the chunks name each of their pages once with its blocks' number.
        unsafe { asked::release_chunks(&self.own.small, class, made) };
    }

    /// First page and fresh, or none.
    #[inline]
    pub fn commit(&mut self, host: u32, pages: u64) -> Option<(u32, bool)> {
        host::set(host);
        // SAFETY: at least one page; the bytes of the run are never touched by the comparison.
        let (base, fresh) = unsafe { asked::commit(pages) };
        (!base.is_null()).then(|| (page_number(base), fresh))
    }

    pub fn grow_frontier(&mut self, host: u32, first: u64, old: u64, new: u64) -> bool {
        host::set(host);
        // SAFETY: the run is held by the direct calls.
        unsafe { arena::grow_frontier(address(first as usize * PAGE_BYTES), old as usize, new as usize) }
    }

    #[inline]
    pub fn release(&mut self, host: u32, first: u64, pages: u64) {
        host::set(host);
        // SAFETY: the run is held by the direct calls.
        unsafe { asked::give(address(first as usize * PAGE_BYTES), pages) }
    }

    pub fn contains(&self, offset: u64, length: u64) -> bool {
        arena::contains(address(offset as usize), length as usize)
    }

    /// Commits, reuses, abandoned.
    #[inline]
    pub fn counts(&self) -> [u64; 3] {
        let (commits, reuses, abandoned) = asked::stats();
        [commits, reuses, abandoned]
    }

    pub fn frontier(&self) -> u32 {
        arena::frontier_pages() as u32
    }

    pub fn holes(&self) -> usize {
        arena::stored_holes().0
    }

    pub fn hole_pages(&self) -> u32 {
        arena::stored_holes().1 as u32
    }

    /// Pages in the empty and cold stores of every class, the heap's and the pool's, by the original's own counts.
    pub fn parked_pages(&self) -> u64 {
        (self.own.parked_pages() + self.pool.as_ref().map_or(0, Heaps::parked_pages)) as u64
    }

    /// Hole pages, those at or above the frontier, and the parked ones (document 02, A.5).
    pub fn idle_pages(&self) -> u64 {
        u64::from(self.hole_pages()) + u64::from(self.pages - self.frontier()) + self.parked_pages()
    }
}

impl Drop for Original {
    fn drop(&mut self) {
        if self.touched > TOUCHED_LIMIT {
            host::forget(self.touched);
        }
        IN_USE.store(false, Ordering::Release);
    }
}

fn address(offset: usize) -> *mut u8 {
    host::region().wrapping_add(offset) as *mut u8
}

fn page_number(address: *mut u8) -> u32 {
    ((address as usize - host::region()) / PAGE_BYTES) as u32
}

fn block_address(word: Word) -> *mut u8 {
    address(granule_of(word) as usize * GRANULE_BYTES)
}

/// Where the header of the block's page or span stands, as the original finds it.
fn run_address(family: Family, word: Word) -> *mut u8 {
    // SAFETY: the block is out, so its page or span is there.
    unsafe {
        match family {
            Family::Small => page::PageHeader::of(block_address(word)).cast(),
            Family::Medium => page::SpanMaster::of(block_address(word)).cast(),
        }
    }
}

/// Links the blocks of a release list, all out of one page or span.
pub fn chain(family: Family, list: &[Word]) -> Chain {
    // SAFETY: the blocks are out.
    let (head, tail) = unsafe { asked::link(list) };
    Chain { run: run_address(family, list[0]), head, tail, count: list.len() }
}

/// Links the blocks of a group release, and makes a chunk of each group.
pub fn make_chunks(list: &[Word], chunks: &[Word]) -> Chunks {
    // SAFETY: the blocks are out.
    let (head, _) = unsafe { asked::link(list) };
    let made = |&chunk: &Word| heap::PageReleaseChunk {
        page: address(chunk_page(chunk) as usize * PAGE_BYTES).cast(),
        head: std::ptr::null_mut(),
        tail: std::ptr::null_mut(),
        n: chunk_count(chunk) as u16,
    };
    Chunks { head, len: list.len() as u32, chunks: chunks.iter().map(made).collect() }
}

pub fn words_of_chain(family: Family, chain: *mut u8, count: u32) -> Vec<Word> {
    let mut block = chain;
    (0..count)
        .map(|_| {
            let granule = (block as usize - host::region()) / GRANULE_BYTES;
            // SAFETY: a block of the chain that the original handed out; its first word links the next.
            block = unsafe { block.cast::<*mut u8>().read() };
            block_word(family, granule as u64)
        })
        .collect()
}
