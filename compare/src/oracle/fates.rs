//! The fates that the original decided during one call, in the order in which it acted on them.

use std::cell::RefCell;
use std::sync::atomic::{AtomicBool, Ordering};

thread_local! {
    static FATES: RefCell<Vec<u32>> = const { RefCell::new(Vec::new()) };
}

/// There is one heap of the original at a time.
static KEPT: AtomicBool = AtomicBool::new(true);

/// Called by the patched original for each page or span that it was given back.
#[inline]
pub(crate) fn push(fate: u32) {
    if KEPT.load(Ordering::Relaxed) {
        FATES.with(|fates| fates.borrow_mut().push(fate));
    }
}

/// Whether fates are kept. Where the cost is measured they are not: the original keeps none.
pub(crate) fn keep(kept: bool) {
    KEPT.store(kept, Ordering::Relaxed);
}

/// The fates since the last call of this function.
pub(crate) fn take() -> Vec<u32> {
    FATES.with(|fates| std::mem::take(&mut *fates.borrow_mut()))
}
