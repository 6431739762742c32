//! How safe a small arena is under any placing (document 02, A.12).

use crate::{ffi, Refusal};

/// Whether an asker can break an arena of so many pages, whatever the placing: in each of at most so many moves it asks for a run
/// that keeps the live pages within the limit, or releases a run, and it wins when a run has no place.
///
/// ```
/// use vigbuso::asker_wins;
///
/// assert!(asker_wins(3, 3, 6)?); // three runs of a page, the middle one stays, then a run of two
/// assert!(!asker_wins(3, 2, 8)?); // of three pages with two live, a run always finds a place
/// # Ok::<(), vigbuso::Refusal>(())
/// ```
///
/// # Errors
///
/// [`Refusal::Game`] if the pages are not 1 to 6, the live limit not 1 to the pages, or the moves above 8.
pub fn asker_wins(pages: u64, live: u64, moves: u64) -> Result<bool, Refusal> {
    ffi::asker_wins(pages, live, moves).map(|wins| wins == 1)
}
