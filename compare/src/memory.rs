//! Address space from the system: reserved and filled lazily, or fenced by unmapped pages.

use std::ffi::c_void;
use std::slice;

const PROT_NONE: i32 = 0;
const PROT_READ_WRITE: i32 = 3;
/// Private, anonymous, no swap reserved (Linux).
const FLAGS: i32 = 0x02 | 0x20 | 0x4000;
const MADV_DONTNEED: i32 = 4;
const SYSTEM_PAGE: usize = 4096;

extern "C" {
    fn mmap(addr: *mut c_void, len: usize, prot: i32, flags: i32, fd: i32, offset: i64) -> *mut c_void;
    fn munmap(addr: *mut c_void, len: usize) -> i32;
    fn mprotect(addr: *mut c_void, len: usize, prot: i32) -> i32;
    fn madvise(addr: *mut c_void, len: usize, advice: i32) -> i32;
}

/// Bytes that are zero until written; the kernel fills a page when it is first touched.
pub fn reserve(bytes: usize) -> usize {
    map(bytes, PROT_READ_WRITE)
}

fn map(bytes: usize, prot: i32) -> usize {
    // SAFETY: a new private mapping wherever the kernel likes.
    let at = unsafe { mmap(std::ptr::null_mut(), bytes, prot, FLAGS, -1, 0) } as usize;
    assert!(at != usize::MAX, "the system refuses {bytes} bytes of address space");
    at
}

/// The bytes read as zero again and cost no memory.
pub fn forget(at: usize, bytes: usize) {
    // SAFETY: callers name mappings of this module; the contents are lost, no address is.
    let result = unsafe { madvise(at as *mut c_void, bytes, MADV_DONTNEED) };
    assert!(result == 0, "the system refuses to drop {bytes} bytes");
}

/// Which end of the words touches the unmapped page.
#[derive(Clone, Copy, PartialEq, Eq, Debug)]
pub enum Fence {
    Front,
    Back,
}

/// Words or other numbers in a mapping of their own, with an unmapped page before and after it. They touch one of the two,
/// so that a read or write beyond them on that side is a fault.
pub struct Fenced<T> {
    mapping: usize,
    mapped: usize,
    fence: Fence,
    first: *mut T,
    len: usize,
}

/// What may stand in a fenced mapping: every bit pattern is one, zeroes too.
pub trait Plain: Copy {}

impl Plain for u32 {}
impl Plain for u64 {}

impl<T: Plain> Fenced<T> {
    pub fn new(len: usize, fence: Fence) -> Fenced<T> {
        let bytes = len * size_of::<T>();
        let inner = bytes.next_multiple_of(SYSTEM_PAGE).max(SYSTEM_PAGE);
        let mapped = inner + 2 * SYSTEM_PAGE;
        let mapping = map(mapped, PROT_NONE);
        // SAFETY: the pages between the first and the last of our own mapping.
        let opened = unsafe { mprotect((mapping + SYSTEM_PAGE) as *mut c_void, inner, PROT_READ_WRITE) };
        assert!(opened == 0, "the system refuses to open {inner} bytes");
        let first = match fence {
            Fence::Front => mapping + SYSTEM_PAGE,
            Fence::Back => mapping + SYSTEM_PAGE + inner - bytes,
        };
        Fenced { mapping, mapped, fence, first: first as *mut T, len }
    }

    pub fn words(&self) -> &[T] {
        // SAFETY: `len` entries of our own mapping, readable, aligned since a page's bytes are a multiple of theirs.
        unsafe { slice::from_raw_parts(self.first, self.len) }
    }

    pub fn words_mut(&mut self) -> &mut [T] {
        // SAFETY: as above, and `self` is borrowed exclusively.
        unsafe { slice::from_raw_parts_mut(self.first, self.len) }
    }

    /// So many of the entries, at the end that touches the unmapped page.
    pub fn lend(&mut self, len: usize) -> &mut [T] {
        let from = match self.fence {
            Fence::Front => 0,
            Fence::Back => self.len - len,
        };
        &mut self.words_mut()[from..from + len]
    }
}

impl<T> Drop for Fenced<T> {
    fn drop(&mut self) {
        // SAFETY: our own mapping, no longer borrowed.
        unsafe { munmap(self.mapping as *mut c_void, self.mapped) };
    }
}

/// Lazily filled words, long enough for the longest book, that keep what was written.
pub struct Reserved {
    first: *mut u32,
    len: usize,
}

impl Reserved {
    pub fn new(len: usize) -> Reserved {
        Reserved { first: reserve(len * size_of::<u32>()) as *mut u32, len }
    }

    pub fn words_mut(&mut self) -> &mut [u32] {
        // SAFETY: `len` words of a mapping that lives as long as the process, `self` is borrowed exclusively.
        unsafe { slice::from_raw_parts_mut(self.first, self.len) }
    }

    /// All words are zero again.
    pub fn forget(&mut self) {
        forget(self.first as usize, self.len * size_of::<u32>());
    }
}
