//! The pages that a fill will need.

use alloc::vec::Vec;

use crate::{ffi, Refusal};

/// The pages that a plan of takes needs: for each entry a size in bytes, and so many takes
/// ([`Heap::take`](crate::Heap::take)) of its class ([`Class::for_size`](crate::Class::for_size)), on a newly opened heap, with
/// every host answer granted and no release. All the takes succeed, in whatever order they are made, exactly if the arena has so
/// many pages. That is proved of the library.
///
/// Several entries may be of one class.
///
/// ```
/// use vigbuso::{plan, Class, Heap};
///
/// let pages = plan(&[(24, 1_000), (60_000, 3)])?; // 32 takes to a page, 8 pages to a take
/// assert_eq!(pages, 32 + 3 * 8);
/// let mut heap = Heap::open(pages)?;
/// let class = Class::for_size(24).unwrap();
/// for _ in 0..1_000 {
///     assert_eq!(heap.take(class)?.is_empty(), false);
/// }
/// # for _ in 0..3 {
/// #     assert_eq!(heap.take(Class::for_size(60_000).unwrap())?.is_empty(), false);
/// # }
/// # Ok::<(), vigbuso::Refusal>(())
/// ```
///
/// # Errors
///
/// [`Refusal::Plan`] if the plan is empty or has more than 4,096 entries, a size is above
/// [`Class::MAX_BYTES`](crate::Class::MAX_BYTES), or an entry has more than 1,000,000 takes.
pub fn plan(takes: &[(usize, u32)]) -> Result<u64, Refusal> {
    // A size that is no word is too large, and so is the greatest word.
    let sizes: Vec<u32> = takes.iter().map(|&(bytes, _)| u32::try_from(bytes).unwrap_or(u32::MAX)).collect();
    let takes: Vec<u32> = takes.iter().map(|&(_, takes)| takes).collect();
    ffi::plan(&sizes, &takes)
}

#[cfg(test)]
mod tests {
    use super::*;
    use crate::{Class, Heap};
    use std::vec;

    /// Whether each take, in this order, answers a block on a new heap.
    fn all_succeed(pages: u64, order: &[Class]) -> bool {
        let mut heap = Heap::open(pages).expect("an arena of so many pages");
        order.iter().all(|&class| !heap.take(class).expect("a take is not refused").is_empty())
    }

    #[test]
    fn every_class_needs_what_its_takes_use() {
        for class in Class::all() {
            let takes = [2 * u32::try_from(class.capacity().div_ceil(64)).expect("at most 64") + 1, 3]
                [usize::from(class.index() >= 64)];
            let pages = plan(&[(class.bytes(), takes)]).expect("a plan");
            assert_eq!(pages, 3 * class.pages() as u64, "{class}");
            let order = vec![class; takes as usize];
            assert_eq!([pages, pages - 1].map(|pages| all_succeed(pages, &order)), [true, false], "{class}");
        }
    }

    #[test]
    fn entries_of_a_class_are_added_first() {
        assert_eq!(plan(&[(0, 60), (16_384, 1), (16, 5)]), Ok(3));
        assert_eq!(plan(&[(16, 65), (15_000, 1)]), Ok(3));
        assert_eq!(plan(&[(0, 0)]), Ok(0));
    }

    #[test]
    fn limits() {
        assert_eq!(plan(&[]), Err(Refusal::Plan));
        assert_eq!(plan(&[(16_384, 1_000_000)]), Ok(1_000_000));
        assert_eq!(plan(&[(16_384, 1_000_001)]), Err(Refusal::Plan));
        assert_eq!(plan(&vec![(16_384, 1_000_000); 4_096]), Ok(4_096_000_000));
        assert_eq!(plan(&vec![(16_384, 1); 4_097]), Err(Refusal::Plan));
        assert_eq!([65_472, 65_473].map(|bytes| plan(&[(bytes, 1)])), [Ok(8), Err(Refusal::Plan)]);
        assert_eq!([(1 << 32) + 16, usize::MAX].map(|bytes| plan(&[(bytes, 1)])), [Err(Refusal::Plan); 2]);
    }
}
