//! The limits of the original's stores: its own, or those of document 02's parking rules (A.9).

use std::sync::atomic::{AtomicU32, Ordering};

use crate::parking;

/// By class, small ones first: the empty and the cold limit.
static LIMITS: [[AtomicU32; 2]; 76] = [const { [const { AtomicU32::new(OWN) }; 2] }; 76];
/// The original's own limit holds.
const OWN: u32 = u32::MAX;

/// From an opening on. The rows are not refused.
pub(crate) fn set(rows: &[u32]) {
    for (class, limits) in LIMITS.iter().enumerate() {
        let given = parking::limits(rows, class as u32).unwrap_or([OWN; 2]);
        limits.iter().zip(given).for_each(|(limit, given)| limit.store(given, Ordering::Relaxed));
    }
}

#[inline]
fn limit(class: usize, which: usize, own: usize) -> usize {
    match LIMITS[class][which].load(Ordering::Relaxed) {
        OWN => own,
        given => given as usize,
    }
}

/// How many empty runs a class keeps.
#[inline]
pub(crate) fn empty(class: usize, own: u32) -> u32 {
    limit(class, 0, own as usize) as u32
}

/// And how many cold ones.
#[inline]
pub(crate) fn cold(class: usize, own: usize) -> usize {
    limit(class, 1, own)
}
