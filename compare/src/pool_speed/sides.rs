//! Who serves the records: the pool, called in several ways, and other allocators. Each record has its first eight bytes written.

use std::hint::black_box;

use super::loaded::Loaded;
use super::traces::Step;
use crate::call::Look;
use crate::memory::Reserved;
use crate::planned::family;
use crate::port;
use crate::words::{book_words, granule_of, Family, Word, GRANULE_BYTES, HOST_ALL, PAGE_BYTES, SMALL_BATCH};

/// The arena's length.
const PAGES: u32 = 2_048;

/// One record out and back.
trait Server {
    type Record: Copy + Default;
    fn alloc(&mut self, bytes: u32, class: u32) -> Self::Record;
    fn free(&mut self, record: Self::Record);
}

/// Serves the steps of a program again and again.
pub trait Side {
    fn replay(&mut self, steps: &[(Step, u32)], slots: usize);
}

struct Replay<S: Server> {
    server: S,
    records: Vec<S::Record>,
}

/// A side by its server.
fn side<S: Server + 'static>(server: S) -> Box<dyn Side> {
    Box::new(Replay { server, records: Vec::new() })
}

impl<S: Server> Side for Replay<S> {
    fn replay(&mut self, steps: &[(Step, u32)], slots: usize) {
        self.records.resize(slots.max(self.records.len()), S::Record::default());
        for &(step, class) in steps {
            match step {
                Step::Alloc { slot, bytes } => {
                    self.records[slot as usize] = black_box(self.server.alloc(bytes, class));
                }
                Step::Free { slot } => self.server.free(self.records[slot as usize]),
            }
        }
    }
}

impl Server for Loaded {
    type Record = usize;

    #[inline]
    fn alloc(&mut self, bytes: u32, _: u32) -> usize {
        // SAFETY: a record of at least eight bytes, or null, which is tested.
        unsafe {
            let record = (self.alloc)((bytes as usize).max(8));
            assert!(!record.is_null());
            record.cast::<u64>().write(1);
            record as usize
        }
    }

    #[inline]
    fn free(&mut self, record: usize) {
        // SAFETY: it was allocated above, and is freed once.
        unsafe { (self.free)(record as *mut u8) };
    }
}

pub fn loaded(loaded: Loaded) -> Box<dyn Side> {
    side(loaded)
}

extern "C" {
    fn malloc(bytes: usize) -> *mut u8;
    fn free(record: *mut u8);
}

/// The system's own.
pub fn glibc() -> Box<dyn Side> {
    side(Loaded { alloc: malloc, free })
}

/// A book, and the arena's bytes.
struct Arena {
    book: Vec<u32>,
    bytes: Reserved,
}

impl Arena {
    fn open() -> Arena {
        let mut book = vec![0; book_words(PAGES)];
        assert_eq!(port::open(&mut book, u64::from(PAGES)), 0, "an arena of {PAGES} pages opens");
        Arena { book, bytes: Reserved::new(PAGES as usize * PAGE_BYTES / 4) }
    }

    /// The record's first eight bytes.
    #[inline]
    fn write(&mut self, block: Word) {
        let first = granule_of(block) as usize * GRANULE_BYTES / 4;
        self.bytes.words_mut()[first..first + 2].copy_from_slice(&[1, 0]);
    }

    #[inline]
    fn alloc(&mut self, class: u32) -> Word {
        let (refused, block) = port::plain_alloc(&mut self.book, [class, HOST_ALL]);
        assert!(refused == 0 && block != 0);
        self.write(block);
        block
    }

    #[inline]
    fn free(&mut self, class: u32, block: Word) {
        assert_eq!(port::plain_free(&mut self.book, [class, HOST_ALL], block), 0);
    }
}

/// The class of a size, by one number.
#[inline]
pub fn class_of(bytes: u32) -> u32 {
    match port::size_class(u64::from(bytes)) {
        Some((Family::Small, class)) => class,
        Some((Family::Medium, class)) => 64 + class,
        None => panic!("{bytes} bytes are too many"),
    }
}

/// The pool, for a program that has each record's class at hand.
struct ByClass(Arena);

impl Server for ByClass {
    type Record = (u32, Word);

    #[inline]
    fn alloc(&mut self, _: u32, class: u32) -> (u32, Word) {
        (class, self.0.alloc(class))
    }

    #[inline]
    fn free(&mut self, (class, block): (u32, Word)) {
        self.0.free(class, block);
    }
}

pub fn by_class() -> Box<dyn Side> {
    side(ByClass(Arena::open()))
}

/// The pool, for one that has the sizes, and the class of each record kept with it.
struct BySize(Arena);

impl Server for BySize {
    type Record = (u32, Word);

    #[inline]
    fn alloc(&mut self, bytes: u32, _: u32) -> (u32, Word) {
        let class = class_of(bytes);
        (class, self.0.alloc(class))
    }

    #[inline]
    fn free(&mut self, (class, block): (u32, Word)) {
        self.0.free(class, block);
    }
}

pub fn by_size() -> Box<dyn Side> {
    side(BySize(Arena::open()))
}

/// The pool, for one that has the sizes, and of a record nothing but its block.
struct ByBlock(Arena);

impl Server for ByBlock {
    type Record = Word;

    #[inline]
    fn alloc(&mut self, bytes: u32, _: u32) -> Word {
        self.0.alloc(class_of(bytes))
    }

    #[inline]
    fn free(&mut self, block: Word) {
        let class = port::plain_look(&self.0.book, Look::ClassOf(block));
        self.0.free(class, block);
    }
}

pub fn by_block() -> Box<dyn Side> {
    side(ByBlock(Arena::open()))
}

/// The heap alone: a take of up to 64 where the caller has none left of the class, and a release of each block by itself.
struct ByHeap {
    arena: Arena,
    left: Vec<Vec<Word>>,
}

impl Server for ByHeap {
    type Record = (u32, Word);

    #[inline]
    fn alloc(&mut self, bytes: u32, _: u32) -> (u32, Word) {
        let class = class_of(bytes);
        let left = &mut self.left[class as usize];
        if left.is_empty() {
            let ((family, number), mut list) = (family(class), [0; SMALL_BATCH]);
            let [refused, count, _] = port::plain_take(&mut self.arena.book, family, [number, HOST_ALL], &mut list);
            assert!(refused == 0 && count > 0);
            left.extend_from_slice(&list[..count as usize]);
        }
        let block = left.pop().expect("a take's");
        self.arena.write(block);
        (class, block)
    }

    #[inline]
    fn free(&mut self, (class, block): (u32, Word)) {
        let (family, number) = family(class);
        let [refused, _] = port::plain_release_blocks(&mut self.arena.book, family, [number, HOST_ALL], &[block]);
        assert_eq!(refused, 0);
    }
}

pub fn by_heap() -> Box<dyn Side> {
    side(ByHeap { arena: Arena::open(), left: vec![Vec::new(); 76] })
}

/// Allocs from a stock and frees into it, for a count of each: pairs of one class that never reach the heap.
pub struct Pairs {
    arena: Arena,
    class: u32,
    blocks: Vec<Word>,
}

impl Pairs {
    /// With so many blocks in stock.
    pub fn open(class: u32, blocks: usize) -> Pairs {
        let mut pairs = Pairs { arena: Arena::open(), class, blocks: vec![0; blocks] };
        pairs.allocs();
        pairs.frees();
        pairs
    }

    pub fn allocs(&mut self) {
        for block in &mut self.blocks {
            *block = port::plain_alloc(&mut self.arena.book, [self.class, HOST_ALL]).1;
        }
    }

    pub fn frees(&mut self) {
        for &block in &self.blocks {
            self.arena.free(self.class, block);
        }
    }
}
