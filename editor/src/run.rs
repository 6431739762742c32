//! Runs of pages.

use core::ops::Range;

use crate::PAGE_BYTES;

/// Pages that follow each other.
///
/// ```
/// use vigbuso::{Heap, Run};
///
/// let mut heap = Heap::open(64)?;
/// let run = heap.commit(3)?.expect("64 pages have room for 3").run;
/// assert_eq!(run, Run { first: 0, pages: 3 });
/// // A part of it may be given back.
/// heap.release_run(Run { first: 2, pages: 1 })?;
/// # Ok::<(), vigbuso::Refusal>(())
/// ```
#[derive(Clone, Copy, PartialEq, Eq, Hash, Debug)]
pub struct Run {
    /// The number of its first page, counted from the arena's start.
    pub first: u64,
    /// How many pages it has.
    pub pages: u64,
}

impl Run {
    /// The run's bytes, counted from the arena's start.
    ///
    /// ```
    /// # use vigbuso::Run;
    /// assert_eq!(Run { first: 1, pages: 2 }.bytes(), 65_536..3 * 65_536);
    /// ```
    #[must_use]
    pub const fn bytes(self) -> Range<u64> {
        let page = PAGE_BYTES as u64;
        // A run that the heap answers is far from the limit; one of any other numbers is cut off there.
        self.first.saturating_mul(page)..self.first.saturating_add(self.pages).saturating_mul(page)
    }

    /// The run's bytes, to index the arena with.
    ///
    /// ```
    /// use vigbuso::{Heap, PAGE_BYTES};
    ///
    /// let mut arena = vec![0; 64 * PAGE_BYTES];
    /// let run = Heap::open(64)?.commit(2)?.unwrap().run;
    /// arena[run.range()].fill(1);
    /// # Ok::<(), vigbuso::Refusal>(())
    /// ```
    #[must_use]
    pub fn range(self) -> Range<usize> {
        let Range { start, end } = self.bytes();
        let cut = |byte: u64| usize::try_from(byte).unwrap_or(usize::MAX);
        cut(start)..cut(end)
    }
}

/// What a commit answers.
///
/// ```
/// use vigbuso::Heap;
///
/// let mut heap = Heap::open(64)?;
/// let new = heap.commit(2)?.unwrap();
/// heap.release_run(new.run)?;
/// let again = heap.commit(2)?.unwrap();
/// assert_eq!((new.fresh, again.fresh), (true, false));
/// assert_eq!(new.run, again.run);
/// # Ok::<(), vigbuso::Refusal>(())
/// ```
#[derive(Clone, Copy, PartialEq, Eq, Hash, Debug)]
#[must_use = "its pages are held until the run is released"]
pub struct Committed {
    /// The run, held by the direct calls from now on.
    pub run: Run,
    /// Whether its pages were never handed out before: it came from the frontier, not from a hole.
    pub fresh: bool,
}
