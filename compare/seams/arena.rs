// ---------------------------------------------------------------------------
// What the comparison asks of the arena.
// ---------------------------------------------------------------------------

/// A new arena of this many pages; the former one is gone.
pub(crate) fn rebuild(pages: usize) {
    // SAFETY: the comparison has one thread and keeps no reference to the arena between calls.
    unsafe { ARENA.put(Arena::with_size(pages * ARENA_ALIGN)) }
}

/// Pages below the frontier.
pub(crate) fn frontier_pages() -> usize {
    ARENA.bump.load(Ordering::Relaxed) / ARENA_ALIGN
}

/// Stored holes, and their pages together.
pub(crate) fn stored_holes() -> (usize, usize) {
    let holes = ARENA.holes.lock();
    (holes.len, holes.bytes / ARENA_ALIGN)
}

// ---------------------------------------------------------------------------
// The hole store by document 02, written from its text; `original_take` and
// `original_give` are the original's own.
// ---------------------------------------------------------------------------

use crate::oracle::rules::{self, Give, Rules};

impl HoleStore {
    /// A.8: "Among holes of the least sufficient length the one with the lowest page is taken."
    fn chosen(&self, pages: usize) -> Option<usize> {
        let enough = |&i: &usize| self.entries[i].1 >= pages;
        (0..self.len).filter(enough).min_by_key(|&i| (self.entries[i].1, self.entries[i].0))
    }

    /// A.4: "the hole that ends where it starts and the hole that starts where it ends".
    fn touching(&self, off: usize, pages: usize) -> (Option<usize>, Option<usize>) {
        let ends = |i: &usize| self.entries[*i].0 + self.entries[*i].1 * ARENA_ALIGN == off;
        let starts = |i: &usize| self.entries[*i].0 == off + pages * ARENA_ALIGN;
        ((0..self.len).find(ends), (0..self.len).find(starts))
    }

    /// "the page total is still tested first"
    fn has_room(&self, pages: usize) -> bool {
        self.bytes + pages * ARENA_ALIGN <= HOLE_CAP_BYTES
    }

    /// What becomes of a given run.
    fn case(&self, off: usize, pages: usize) -> Give {
        if !self.has_room(pages) {
            return Give::PassesPages;
        }
        match self.touching(off, pages) {
            (None, None) if self.len >= HOLE_SLOTS => Give::FindsNoSlot,
            (None, None) => Give::Appended,
            (Some(before), None) => Give::JoinsBefore { before },
            (None, Some(after)) => Give::JoinsAfter { after },
            (Some(before), Some(after)) => Give::JoinsBoth { before, after, last: self.len - 1 },
        }
    }

    /// Whether the run is stored.
    fn store(&mut self, off: usize, pages: usize) -> bool {
        let case = self.case(off, pages);
        rules::count(&case, self.len == HOLE_SLOTS);
        match case {
            Give::PassesPages | Give::FindsNoSlot => return false,
            Give::Appended => {
                self.entries[self.len] = (off, pages);
                self.len += 1;
            }
            Give::JoinsBefore { before } => self.entries[before].1 += pages,
            Give::JoinsAfter { after } => self.entries[after] = (off, pages + self.entries[after].1),
            // "the one after is removed and the last hole takes its index, even if the last is the joined one"
            Give::JoinsBoth { before, after, last } => {
                self.entries[before].1 += pages + self.entries[after].1;
                self.entries[after] = self.entries[last];
                self.len = last;
            }
        }
        self.bytes += pages * ARENA_ALIGN;
        true
    }

    /// Whether the run is stored, with A.4 and not A.8: "Memory of the lengths that vanished is set to their lowest index, and the joined
    /// length is remembered."
    fn store_remembered(&mut self, off: usize, pages: usize) -> bool {
        let (before, after) = self.touching(off, pages);
        let vanished = [before, after].map(|hole| hole.map(|i| self.entries[i].1));
        let stored = self.store(off, pages);
        if stored {
            vanished.into_iter().flatten().for_each(|length| self.refresh_exact(length));
            let has_it = |i: &usize| (self.entries[*i].0..self.entries[*i].0 + self.entries[*i].1 * ARENA_ALIGN).contains(&off);
            let hole = (0..self.len).find(has_it).expect("the run is stored");
            let length = self.entries[hole].1;
            if length <= EXACT_BUCKET_MAX {
                self.exact[length] = hole as u16;
            }
        }
        stored
    }
}

impl Arena {
    #[inline]
    fn holes_take(&self, pages: usize) -> *mut u8 {
        if rules::is(Rules::Plain) {
            return self.original_take(pages);
        }
        self.amended_take(pages)
    }

    #[inline]
    fn holes_give(&self, base: *mut u8, pages: usize) {
        if rules::is(Rules::Plain) {
            return self.original_give(base, pages);
        }
        self.amended_give(base, pages)
    }

    /// Not made part of its caller, where it would count against the original as it is.
    #[cold]
    #[inline(never)]
    fn amended_take(&self, pages: usize) -> *mut u8 {
        if rules::is(Rules::Joined) {
            return self.original_take(pages);
        }
        let mut holes = self.holes.lock();
        let chosen = holes.chosen(pages);
        let base = |off: usize| (self.start.load(Ordering::Relaxed) + off) as *mut u8;
        let due = chosen.map_or(ptr::null_mut(), |i| base(holes.entries[i].0));
        if rules::is(Rules::Watched) {
            drop(holes);
            let taken = self.original_take(pages);
            if taken != due {
                rules::depart();
            }
            return taken;
        }
        let Some(i) = chosen else { return due };
        let (off, length) = holes.entries[i];
        holes.bytes -= pages * ARENA_ALIGN;
        if length > pages {
            holes.entries[i] = (off + pages * ARENA_ALIGN, length - pages);
        } else {
            holes.len -= 1;
            holes.entries[i] = holes.entries[holes.len];
        }
        self.hole_count.store(holes.len, Ordering::Release);
        due
    }

    #[cold]
    #[inline(never)]
    fn amended_give(&self, base: *mut u8, pages: usize) {
        let off = base as usize - self.start.load(Ordering::Relaxed);
        let mut holes = self.holes.lock();
        if !rules::is(Rules::Amended) && !rules::is(Rules::Joined) {
            let joins = holes.case(off, pages).joins();
            drop(holes);
            if joins && rules::is(Rules::Watched) {
                rules::depart();
            }
            return self.original_give(base, pages);
        }
        let stored = match rules::is(Rules::Joined) {
            true => holes.store_remembered(off, pages),
            false => holes.store(off, pages),
        };
        if !stored {
            self.abandoned.fetch_add(1, Ordering::Relaxed);
        }
        self.hole_count.store(holes.len, Ordering::Release);
    }
}
