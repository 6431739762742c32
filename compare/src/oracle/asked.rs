//! The original's functions that `speed` and `count` measure. Each is called and never made part of its caller, like the
//! port's, and `count` knows them by this module's name; so none of them calls another one of it.

use super::original::{arena, classes, heap};
use super::{block_address, Chain, Chunks};
use crate::words::Word;

#[inline(never)]
pub fn class_for_size(size: u64) -> u32 {
    classes::class_for_size(size as usize) as u32
}

#[inline(never)]
pub fn medium_class_for_size(size: u64) -> u32 {
    classes::medium_class_for_size(size as usize) as u32
}

/// The class is a small one.
#[inline(never)]
pub unsafe fn take(heap: &heap::GlobalHeap, class: u32) -> (*mut u8, u32, bool) {
    heap.take_blocks(class as usize)
}

/// The class is a medium one.
#[inline(never)]
pub unsafe fn take_medium(heap: &heap::MediumHeap, class: u32) -> (*mut u8, u32, bool) {
    heap.take_blocks(class as usize)
}

/// The blocks are out of one page and linked.
#[inline(never)]
pub unsafe fn release(heap: &heap::GlobalHeap, chain: &Chain) {
    heap.release_blocks_with_tail(chain.run.cast(), chain.head, chain.tail, chain.count as u16);
}

/// The blocks are out of one span of the class and linked.
#[inline(never)]
pub unsafe fn release_medium(heap: &heap::MediumHeap, class: u32, chain: &Chain) {
    heap.release_blocks(class as usize, chain.run.cast(), chain.head, chain.tail, chain.count as u32);
}

/// The blocks are out of this class and linked, and the chunks name each of their pages once with its blocks' number.
#[inline(never)]
pub unsafe fn release_chunks(heap: &heap::GlobalHeap, class: u32, made: &mut Chunks) {
    heap.release_bin_chunks(class as usize, made.head, made.len, &mut made.chunks);
}

/// At least one page.
#[inline(never)]
pub unsafe fn commit(pages: u64) -> (*mut u8, bool) {
    arena::commit(pages as usize)
}

/// The run is held by the direct calls.
#[inline(never)]
pub unsafe fn give(first: *mut u8, pages: u64) {
    arena::release(first, pages as usize);
}

/// Commits, reuses, abandoned.
#[inline(never)]
pub fn stats() -> (u64, u64, u64) {
    arena::stats()
}

/// What a caller of the original does before a release: links the blocks, which are out, in the list's order, and knows the first
/// and the last.
#[inline(never)]
pub unsafe fn link(list: &[Word]) -> (*mut u8, *mut u8) {
    let mut next = std::ptr::null_mut();
    for &word in list.iter().rev() {
        let block = block_address(word);
        // The blocks' bytes are the comparison's while they are out; they are aligned to 16.
        block.cast::<*mut u8>().write(next);
        next = block;
    }
    (next, block_address(list[list.len() - 1]))
}
