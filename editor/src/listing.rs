//! All short histories of the direct calls on a small arena (document 02, A.10).

use alloc::vec::{IntoIter, Vec};
use core::iter::FusedIterator;

use crate::{ffi, Refusal};

/// The longest listing has so many numbers.
const MOST_NUMBERS: usize = 792;

/// A call of a short history, every host answer granted.
///
/// ```
/// use vigbuso::{short_histories, DirectCall};
///
/// let calls: Vec<Vec<DirectCall>> = short_histories(1, 2)?.collect();
/// let [commit, release] = [DirectCall::Commit(1), DirectCall::Release(0)];
/// assert_eq!(calls, [[commit, commit], [commit, release]]); // the second commit finds no page
/// # Ok::<(), vigbuso::Refusal>(())
/// ```
#[derive(Clone, Copy, PartialEq, Eq, PartialOrd, Ord, Hash, Debug)]
pub enum DirectCall {
    /// A commit of so many pages, whether it succeeds or not ([`Heap::commit`](crate::Heap::commit)).
    Commit(u64),
    /// The release of the whole run from an earlier call of the history, the first being 0
    /// ([`Heap::release_run`](crate::Heap::release_run)).
    Release(usize),
}

impl DirectCall {
    /// The library writes a commit of `p` pages as `p`, a release of the run from call `i` as `4 + i`.
    fn written(number: u32) -> DirectCall {
        match number {
            0..=3 => DirectCall::Commit(number.into()),
            _ => DirectCall::Release(number as usize - 4),
        }
    }
}

/// Every history of so many direct calls on an arena of so many pages, each once: commits come before releases, smaller before
/// larger, the run committed earlier before the later.
///
/// It is there to check a change of the arena on everything that can happen in a few calls:
///
/// ```
/// use vigbuso::{short_histories, DirectCall, Heap, Run};
///
/// for history in short_histories(3, 4)? {
///     let mut heap = Heap::open(3)?;
///     let mut runs: Vec<Option<Run>> = Vec::new();
///     for call in history {
///         let run = match call {
///             DirectCall::Commit(pages) => heap.commit(pages)?.map(|answer| answer.run),
///             DirectCall::Release(earlier) => {
///                 heap.release_run(runs[earlier].expect("only a run that is held is released"))?;
///                 None
///             }
///         };
///         runs.push(run);
///     }
/// }
/// # Ok::<(), vigbuso::Refusal>(())
/// ```
///
/// # Errors
///
/// [`Refusal::Listing`] if the pages are not 1 to 3 or the length is above 4.
#[allow(clippy::cast_possible_truncation)] // there are at most 792 numbers, of histories of at most 4 calls
pub fn short_histories(pages: u64, length: u64) -> Result<ShortHistories, Refusal> {
    let mut numbers = alloc::vec![0; MOST_NUMBERS];
    let written = ffi::short_histories(pages, length, &mut numbers)? as usize;
    numbers.truncate(written);
    let length = length as usize;
    // The history with no call is the only one of length 0, and has no number.
    let left = written.checked_div(length).unwrap_or(1);
    Ok(ShortHistories { numbers: numbers.into_iter(), length, left })
}

/// The histories that [`short_histories`] lists, in their order.
///
/// ```
/// use vigbuso::short_histories;
///
/// assert_eq!([0, 1, 2, 3, 4].map(|length| short_histories(3, length).map(|all| all.len())), [1, 3, 12, 48, 198].map(Ok));
/// ```
#[derive(Clone, Debug)]
pub struct ShortHistories {
    numbers: IntoIter<u32>,
    length: usize,
    left: usize,
}

impl Iterator for ShortHistories {
    type Item = Vec<DirectCall>;

    fn next(&mut self) -> Option<Vec<DirectCall>> {
        self.left = self.left.checked_sub(1)?;
        Some(self.numbers.by_ref().take(self.length).map(DirectCall::written).collect())
    }

    fn size_hint(&self) -> (usize, Option<usize>) {
        (self.left, Some(self.left))
    }
}

impl ExactSizeIterator for ShortHistories {}

impl FusedIterator for ShortHistories {}
