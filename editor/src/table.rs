//! Class tables from a growth rate (document 02, A.13).

use alloc::vec::Vec;

use crate::{ffi, Refusal};

/// A growth rate, `a` over `b`: in a [`class_table`] each size is so many times the one before.
///
/// ```
/// # use vigbuso::Growth;
/// let small = Growth { a: 9, b: 8 }; // an eighth more each time
/// assert!(small.a > small.b);
/// ```
#[derive(Clone, Copy, PartialEq, Eq, Hash, Debug)]
pub struct Growth {
    /// Above `b`, and at most 1,000.
    pub a: u64,
    /// At least 1.
    pub b: u64,
}

/// A class table: so many block sizes in bytes, from 16 on. Each size times the growth is rounded up, then up to a multiple of
/// 16, and cut at the top; the slots that remain hold the top.
///
/// ```
/// use vigbuso::{class_table, Class, Growth};
///
/// let finer = class_table(Growth { a: 17, b: 16 }, 400, 23)?;
/// assert_eq!(finer[..5], [16, 32, 48, 64, 80]);
/// assert_eq!(finer[18..], [336, 368, 400, 400, 400]);
///
/// // the small classes of the heap
/// let small = class_table(Growth { a: 9, b: 8 }, 16_384, 64)?;
/// assert!(small.iter().zip(Class::all()).all(|(&bytes, class)| bytes as usize == class.bytes()));
/// # Ok::<(), vigbuso::Refusal>(())
/// ```
///
/// # Errors
///
/// [`Refusal::Growth`] if `a` is not above `b`, `b` is 0 or either exceeds 1,000; [`Refusal::Top`] if the top is below 16, not a
/// multiple of 16 or above 65,472; [`Refusal::Slots`] if there are no slots, too few to reach the top, or no memory for so many.
pub fn class_table(growth: Growth, top: u64, slots: usize) -> Result<Vec<u32>, Refusal> {
    // Without memory the list is empty, and the library finds it too short.
    let mut table = ffi::zeroed(slots).unwrap_or_default();
    ffi::class_table(growth, top, slots as u64, &mut table)?;
    Ok(table)
}
