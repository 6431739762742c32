//! The size lookup, at every small size and around every power of two: against the rule at all of them, and against the original's
//! two lookups where equality with them is claimed.

use crate::port;
use crate::sizes::{original, size_class};
use crate::words::Family;

/// Every size up to here is compared: the largest class ends well below.
const LAST_OF_ALL: u64 = 200_000;
/// And so many sizes on either side of every power of two.
const AROUND: u64 = 1_024;

/// The sizes of the comparison, each once.
pub fn sizes() -> Vec<u64> {
    let around = (0..64).flat_map(|power| {
        let middle = 1_u64 << power;
        middle.saturating_sub(AROUND)..=middle.saturating_add(AROUND)
    });
    let mut sizes: Vec<u64> = (0..=LAST_OF_ALL).chain(around).chain(u64::MAX - AROUND..=u64::MAX).collect();
    sizes.sort_unstable();
    sizes.dedup();
    sizes
}

/// Prints the differences and how many sizes were compared; true if there is no difference.
pub fn run() -> bool {
    let sizes = sizes();
    let (mut differences, mut claimed) = (0, 0);
    for &size in &sizes {
        let found = port::size_class(size);
        differences += differs("the rule", size, size_class(size), found);
        // A size that is too large has a class in the original, of blocks that are too small (docs/DIFFERENCES.md).
        if let Some((family, _)) = found {
            claimed += 1;
            differences += differs("the original", size, Some((family, original(family, size))), found);
        }
    }
    println!("size_class: {} sizes compared with the rule, {claimed} with the original", sizes.len());
    println!("{differences} differences");
    differences == 0
}

fn differs(due: &str, size: u64, answer: Option<(Family, u32)>, port: Option<(Family, u32)>) -> u64 {
    if answer == port {
        return 0;
    }
    println!("size_class({size}): {due} has {answer:?}, the port {port:?}");
    1
}
