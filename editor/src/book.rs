//! What the crate itself knows of a book's words (docs/RANGES.md), and copies of memory that is mostly 0.

use alloc::vec::Vec;
use core::ops::Range;

use crate::ffi::{self, Unsigned};

/// FRONTIER: no page from this one on was ever handed out.
const FRONTIER: usize = 2;

/// ENTRY 0 of class 0, and the entries of each class.
const ENTRIES: usize = 10_240;
pub(crate) const ENTRIES_OF_CLASS: usize = 256;

/// OWNER of page 0. Those of 256 pages stand together, each beside FIRST, in the record of the first of these pages.
const OWNERS: usize = 43_344;
const GROUP: usize = 256;
const RECORD: usize = 4_112;

/// OWNER of a page of the pool's classes, and of one that the direct calls hold. Those of the heap's classes are below, and nobody is 0.
const POOLS: Range<u32> = 77..153;
const DIRECT: u32 = 153;

/// Integers that are copied, or not, together: a page of the system has 4,096 bytes.
const CHUNK: usize = 512;

/// The first page that was never handed out. No record stands from there on.
pub(crate) fn frontier(book: &[u32]) -> u64 {
    book.get(FRONTIER).copied().map_or(0, u64::from)
}

fn owner(book: &[u32], page: u64) -> Option<u32> {
    let page = usize::try_from(page).ok()?;
    book.get(OWNERS + RECORD * GROUP * (page / GROUP) + 2 * (page % GROUP)).copied()
}

/// Whether the direct calls hold a page below the frontier.
pub(crate) fn held_by_hand(book: &[u32], page: u64) -> bool {
    owner(book, page) == Some(DIRECT)
}

/// Whether a class of the pool has a page below the frontier.
pub(crate) fn is_pools(book: &[u32], page: u64) -> bool {
    owner(book, page).is_some_and(|owner| POOLS.contains(&owner))
}

/// The first granules of the blocks that a pool has in stock for the class at a place, so many of them.
pub(crate) fn entries(book: &[u32], place: usize, count: usize) -> &[u32] {
    let entries = book.get(ENTRIES + ENTRIES_OF_CLASS * place..).unwrap_or_default();
    &entries[..count.min(ENTRIES_OF_CLASS).min(entries.len())]
}

/// A copy that touches only what is not 0. From `used` on all is.
pub(crate) fn copy_used<T: Unsigned>(from: &[T], used: usize) -> Vec<T> {
    let mut copy = ffi::zeroed(from.len()).unwrap_or_else(|| no_memory::<T>(from.len()));
    for (old, new) in from[..used].chunks(CHUNK).zip(copy[..used].chunks_mut(CHUNK)) {
        if !is_zero(old) {
            new.copy_from_slice(old);
        }
    }
    copy
}

/// Whether all of up to 512 integers are 0.
pub(crate) fn is_zero<T: Unsigned>(integers: &[T]) -> bool {
    *integers == [T::default(); CHUNK][..integers.len()]
}

/// As a `Vec` that cannot grow, where the caller is promised a value.
#[cold]
fn no_memory<T>(count: usize) -> ! {
    match core::alloc::Layout::array::<T>(count) {
        Ok(layout) => alloc::alloc::handle_alloc_error(layout),
        Err(error) => panic!("{error}"),
    }
}
