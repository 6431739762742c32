//! A static that is built anew for each history, where the original has one for the process.

use std::ops::Deref;
use std::ptr;
use std::sync::atomic::{AtomicPtr, Ordering};

pub(crate) struct Slot<T>(AtomicPtr<T>);

impl<T> Slot<T> {
    pub(crate) const fn new() -> Self {
        Slot(AtomicPtr::new(ptr::null_mut()))
    }

    /// Replaces the value; the former one is dropped.
    ///
    /// # Safety
    /// No reference to the former value is in use.
    pub(crate) unsafe fn put(&self, value: T) {
        let former = self.0.swap(Box::into_raw(Box::new(value)), Ordering::AcqRel);
        if !former.is_null() {
            // SAFETY: it came from `Box::into_raw` above, and only this call takes it out.
            drop(unsafe { Box::from_raw(former) });
        }
    }
}

impl<T> Deref for Slot<T> {
    type Target = T;

    fn deref(&self) -> &T {
        let value = self.0.load(Ordering::Acquire);
        assert!(!value.is_null(), "a history is opened before its first call");
        // SAFETY: not null, so it is the box that `put` left here.
        unsafe { &*value }
    }
}
