//! The system as the host word tells it: what stands in for `mmap`, `munmap`, `madvise` and the probe of zeroing.
//!
//! All arenas share one reservation of address space, whose pages the kernel fills when they are first touched.

use std::ffi::c_void;
use std::sync::atomic::{AtomicU32, Ordering};
use std::sync::OnceLock;

use crate::memory;
use crate::words::{HOST_COMMIT, HOST_DISCARD, HOST_RESERVE, HOST_ZEROES, MAX_PAGES, PAGE_BYTES};

/// What the original writes at a page's or span's first bytes.
const HEADER_BYTES: usize = 64;

const MAP_FAILED: *mut c_void = usize::MAX as *mut c_void;

/// There is one heap of the original at a time, which is asked by one thread.
static HOST: AtomicU32 = AtomicU32::new(0);

/// The host word of the call that follows.
#[inline]
pub(crate) fn set(host: u32) {
    HOST.store(host, Ordering::Relaxed);
}

#[inline]
fn grants(bit: u32) -> bool {
    HOST.load(Ordering::Relaxed) & bit != 0
}

/// Pages of the longest arena that there will be.
static LONGEST: AtomicU32 = AtomicU32::new(MAX_PAGES);

pub(crate) fn shorten(pages: u32) {
    LONGEST.store(pages, Ordering::Relaxed);
}

/// First byte of the address space that stands for every arena.
pub(crate) fn region() -> usize {
    static REGION: OnceLock<usize> = OnceLock::new();
    *REGION.get_or_init(|| {
        // One page more than the longest arena, as the original asks for, and one to align it.
        let raw = memory::reserve((LONGEST.load(Ordering::Relaxed) as usize + 2) * PAGE_BYTES);
        raw.next_multiple_of(PAGE_BYTES)
    })
}

/// Gives the touched bytes of the region's first pages back to the system.
pub(crate) fn forget(pages: usize) {
    memory::forget(region(), pages * PAGE_BYTES);
}

/// A reservation has no address; a commit names the one that it must get.
pub(crate) unsafe fn mmap(
    addr: *mut c_void,
    _len: usize,
    _prot: i32,
    _flags: i32,
    _fd: i32,
    _offset: i64,
) -> *mut c_void {
    match (addr.is_null(), grants(HOST_RESERVE), grants(HOST_COMMIT)) {
        (true, true, _) => region() as *mut c_void,
        (false, _, true) => addr,
        _ => MAP_FAILED,
    }
}

/// The original only trims the reservation, whose slack stays unused here.
pub(crate) unsafe fn munmap(_addr: *mut c_void, _len: usize) -> i32 {
    0
}

/// A done discard loses what stood there. The header is overwritten, with zeros exactly if the host word says so, so
/// that a read of it after the discard would show.
pub(crate) unsafe fn madvise(addr: *mut c_void, len: usize, _advice: i32) -> i32 {
    if !grants(HOST_DISCARD) {
        return -1;
    }
    let left = if discard_zeroes() { 0 } else { 0xA5 };
    // SAFETY: the original discards whole pages that it holds, which lie in the region.
    unsafe { addr.cast::<u8>().write_bytes(left, HEADER_BYTES.min(len)) };
    0
}

pub(crate) fn discard_zeroes() -> bool {
    grants(HOST_ZEROES)
}
