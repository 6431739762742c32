//! The bytes of an arena.

use alloc::vec::Vec;
use core::ops::Range;

use crate::heap::zeroes;
use crate::{OpenError, PAGE_BYTES};

/// The bytes of an arena's pages, from a multiple of a page's bytes on. They are 0 at first, and not touched.
pub(crate) struct Arena {
    memory: Vec<u8>,
    start: usize,
    len: usize,
}

impl Arena {
    pub(crate) fn open(pages: u64) -> Result<Arena, OpenError> {
        let len = usize::try_from(pages).unwrap_or(usize::MAX).saturating_mul(PAGE_BYTES);
        let memory: Vec<u8> = zeroes(len.saturating_add(PAGE_BYTES - 1))?;
        let start = memory.as_ptr().align_offset(PAGE_BYTES).min(PAGE_BYTES - 1);
        Ok(Arena { memory, start, len })
    }

    /// Bytes counted from the arena's start; none where the arena has not all of them.
    #[inline]
    pub(crate) fn get(&self, range: Range<usize>) -> Option<&[u8]> {
        self.memory.get(self.start..)?.get(..self.len)?.get(range)
    }

    #[inline]
    pub(crate) fn get_mut(&mut self, range: Range<usize>) -> Option<&mut [u8]> {
        self.memory.get_mut(self.start..)?.get_mut(..self.len)?.get_mut(range)
    }

    /// Copies bytes to another place, where they have room.
    pub(crate) fn copy(&mut self, from: Range<usize>, to: usize) {
        let memory = &mut self.memory[self.start..][..self.len];
        memory.copy_within(from, to);
    }
}
