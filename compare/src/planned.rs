//! The total of a plan of takes, from document 02, A.1 and A.6, over the classes of the original.

use crate::oracle;
use crate::sizes::size_class;
use crate::words::{Family, MEDIUM_CLASSES, SMALL_BATCH, SMALL_CLASSES};

pub const CLASSES: u32 = SMALL_CLASSES + MEDIUM_CLASSES;
pub const ENTRIES_MAX: usize = 4_096;
pub const TAKES_MAX: u32 = 1_000_000;

#[derive(Clone, Copy, PartialEq, Eq, Debug)]
pub enum Planned {
    Pages(u64),
    Refused(u32),
}

pub fn planned(sizes: &[u32], takes: &[u32]) -> Planned {
    let lengths = !sizes.is_empty() && sizes.len() == takes.len() && sizes.len() <= ENTRIES_MAX;
    let classes: Option<Vec<u32>> = sizes.iter().map(|&size| class_of(size)).collect();
    let Some(classes) = classes.filter(|_| lengths && takes.iter().all(|&takes| takes <= TAKES_MAX)) else {
        return Planned::Refused(14);
    };
    let named = |class| classes.iter().zip(takes).filter(move |&(&named, _)| named == class);
    let takes_of = |class| named(class).map(|(_, &takes)| u64::from(takes)).sum();
    Planned::Pages((0..CLASSES).map(|class| pages_for(class, takes_of(class))).sum())
}

/// The class of a size, 0 to 63 small, 64 to 75 medium; none if it is too large.
pub fn class_of(size: u32) -> Option<u32> {
    let (family, number) = size_class(u64::from(size))?;
    Some(match family {
        Family::Small => number,
        Family::Medium => SMALL_CLASSES + number,
    })
}

fn pages_for(class: u32, takes: u64) -> u64 {
    let (family, number) = family(class);
    match family {
        Family::Small => takes.div_ceil(u64::from(oracle::capacity(family, number)).div_ceil(SMALL_BATCH as u64)),
        Family::Medium => takes * u64::from(oracle::run_pages(family, number)),
    }
}

/// A class's family, and its number there.
pub fn family(class: u32) -> (Family, u32) {
    match class.checked_sub(SMALL_CLASSES) {
        None => (Family::Small, class),
        Some(number) => (Family::Medium, number),
    }
}
