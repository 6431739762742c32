//! How much each class parks.

use crate::{Class, Kind};

/// A class's limits, as an opening is given them.
#[derive(Clone, Copy, PartialEq, Eq, Hash, Debug)]
struct Limits {
    empty: u32,
    cold: u32,
}

/// The parking rules of a heap: how many runs whose blocks are all back each class keeps for itself, empty and cold, before the
/// arena has them again. A run is a page of a small class, a span of a medium one. [`Heap::open_with`](crate::Heap::open_with)
/// takes them; they hold as long as the heap does.
///
/// Every class has just one pair of limits, whatever is built, so that no class can be left out or named twice. A limit is 0 to
/// [`Rules::MOST`]; an opening with a larger one is refused as [`Refusal::Rows`](crate::Refusal::Rows). Empty runs come back as
/// they were left, cold ones as new; with 0 and 0 an emptied run goes to the arena at once. The empty spans of a medium class have
/// 8 MiB together at most, beside their limit. A [`Pool`](crate::Pool)'s class has the limits of the heap's of that size, and parks for
/// itself.
///
/// ```
/// use vigbuso::{Class, Fate, Heap, Rules};
///
/// // More empty pages for the search's class, none for others.
/// let search = Class::for_size(400).unwrap();
/// let rules = Rules::every(0, 0).class(search, 64, 0);
/// let mut heap = Heap::open_with(64, &rules)?;
/// let other = Class::for_size(24).unwrap();
/// let fates = [search, other].map(|class| {
///     let blocks = heap.take(class).unwrap();
///     heap.release(class, &blocks).unwrap()
/// });
/// assert_eq!(fates, [Fate::Kept, Fate::Arena]);
/// # Ok::<(), vigbuso::Refusal>(())
/// ```
#[derive(Clone, PartialEq, Eq, Hash, Debug)]
#[must_use]
pub struct Rules {
    /// By class.
    limits: [Limits; Class::COUNT],
}

impl Rules {
    /// The most runs that a limit can allow.
    ///
    /// ```
    /// # use vigbuso::{Heap, Refusal, Rules};
    /// assert!(Heap::open_with(64, &Rules::every(Rules::MOST, Rules::MOST)).is_ok());
    /// assert_eq!(Heap::open_with(64, &Rules::every(Rules::MOST + 1, 0)), Err(Refusal::Rows));
    /// ```
    pub const MOST: u32 = 256;

    /// Numbers of a row, which an opening is lent one of for each class.
    const ROW: usize = 4;

    /// So many empty and so many cold runs for every class.
    ///
    /// ```
    /// # use vigbuso::{Class, Rules};
    /// let rules = Rules::every(2, 0);
    /// assert!(Class::all().all(|class| rules.limits(class) == (2, 0)));
    /// ```
    pub const fn every(empty: u32, cold: u32) -> Rules {
        Rules { limits: [Limits { empty, cold }; Class::COUNT] }
    }

    /// The same rules but for this class, which keeps so many empty and so many cold runs.
    ///
    /// ```
    /// # use vigbuso::{Class, Rules};
    /// let class = Class::for_size(24).unwrap();
    /// let rules = Rules::default().class(class, 100, 0);
    /// assert_eq!(rules.limits(class), (100, 0));
    /// ```
    pub const fn class(mut self, class: Class, empty: u32, cold: u32) -> Rules {
        self.limits[class.index()] = Limits { empty, cold };
        self
    }

    /// How many empty and how many cold runs a class keeps.
    ///
    /// ```
    /// # use vigbuso::{Class, Rules};
    /// let [small, medium] = [24, 20_000].map(|bytes| Class::for_size(bytes).unwrap());
    /// assert_eq!([small, medium].map(|class| Rules::default().limits(class)), [(4, 256), (32, 256)]);
    /// ```
    #[must_use]
    pub const fn limits(&self, class: Class) -> (u32, u32) {
        let Limits { empty, cold } = self.limits[class.index()];
        (empty, cold)
    }

    /// As an opening takes them: a row for each class, which names it as first and as last, then its limits.
    pub(crate) fn rows(&self) -> [u32; Rules::ROW * Class::COUNT] {
        let mut rows = [0; Rules::ROW * Class::COUNT];
        for ((row, limits), class) in rows.chunks_exact_mut(Rules::ROW).zip(&self.limits).zip(0..) {
            row.copy_from_slice(&[class, class, limits.empty, limits.cold]);
        }
        rows
    }
}

/// Document 01's limits, which hold on a heap that was opened without rules: 4 empty pages and 256 cold ones for a small class, 32
/// empty spans and 256 cold ones for a medium one.
///
/// ```
/// # use vigbuso::{Heap, Rules};
/// assert_eq!(Heap::open_with(64, &Rules::default())?, Heap::open(64)?);
/// # Ok::<(), vigbuso::Refusal>(())
/// ```
impl Default for Rules {
    fn default() -> Rules {
        let medium = Class::all().filter(|class| class.kind() == Kind::Medium);
        medium.fold(Rules::every(4, 256), |rules, class| rules.class(class, 32, 256))
    }
}

#[cfg(test)]
mod tests {
    use super::*;

    #[test]
    fn every_class_has_a_row() {
        let rules = Rules::default().class(Class::at(7), 1, 2);
        let rows = rules.rows();
        assert_eq!(rows.len(), 304);
        assert_eq!(rows[24..36], [6, 6, 4, 256, 7, 7, 1, 2, 8, 8, 4, 256]);
        assert_eq!(rows[300..], [75, 75, 32, 256]);
    }
}
