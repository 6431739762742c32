//! The class of a size, from document 02, A.6, over the block sizes of the original: the first that is large enough.

use crate::oracle::{self, asked};
use crate::words::Family;

/// The largest size that has a class.
pub const LARGEST: u64 = 65_472;

/// None if the size is too large.
pub fn size_class(size: u64) -> Option<(Family, u32)> {
    [Family::Small, Family::Medium].into_iter().find_map(|family| {
        let class = (0..family.classes()).find(|&class| size <= oracle::block_bytes(family, class) as u64)?;
        Some((family, class))
    })
}

/// The original's lookup for a family.
#[inline]
pub fn original(family: Family, size: u64) -> u32 {
    match family {
        Family::Small => asked::class_for_size(size),
        Family::Medium => asked::medium_class_for_size(size),
    }
}
