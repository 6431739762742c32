//! Why a call was not carried out.

use core::error::Error;
use core::fmt;

/// The numbers, their names and their meanings: a line of this table is all that a number needs.
macro_rules! refusals {
    ($($number:literal $name:ident $meaning:literal)*) => {
        /// The number of a refused call, as documents 01 and 02 list them. A refused call changes nothing, but for a trace that
        /// [stopped](Refusal::Stopped) at a word, which leaves what the earlier words did.
        ///
        /// [`Heap`](crate::Heap) itself rules some of them out: a [`Host`](crate::Host) has no more than four bits (3), a
        /// [`Class`](crate::Class) is there (4), a take's list has room for a batch (5), and [`Rules`](crate::Rules) have a row for
        /// each class (17, 18). A heap that was opened by
        /// `Heap::open` also has a book that is long enough (2) and that nobody else writes, so that no word of it is out of
        /// its range (13). Later versions may have more numbers.
        ///
        /// ```
        /// use vigbuso::{Heap, Refusal};
        ///
        /// let refusal = Heap::open(0).expect_err("an arena has at least a page");
        /// assert_eq!((refusal, refusal.number()), (Refusal::ArenaLength, 1));
        /// assert!(refusal.to_string().starts_with("refused as 1: the arena length"));
        /// ```
        #[derive(Clone, Copy, PartialEq, Eq, PartialOrd, Ord, Hash, Debug)]
        #[non_exhaustive]
        pub enum Refusal {
            $(
                #[doc = concat!(stringify!($number), ": ", $meaning, ".")]
                $name = $number,
            )*
        }

        impl Refusal {
            /// All of them, in the order of the table.
            const ALL: &'static [Refusal] = &[$(Refusal::$name),*];

            /// The papers' meaning of the number.
            ///
            /// ```
            /// assert_eq!(vigbuso::Refusal::HostWord.meaning(), "the host word exceeds 15");
            /// ```
            #[must_use]
            pub const fn meaning(self) -> &'static str {
                match self {
                    $(Refusal::$name => $meaning,)*
                }
            }
        }
    };
}

refusals! {
    1 ArenaLength "the arena length, given at opening or stored as the book's first word, is 0 (an empty book reads so) or above 1,048,576"
    2 BookTooShort "the book is too short"
    3 HostWord "the host word exceeds 15"
    4 Class "the class is 64 or more, medium 12 or more, of the pool 76 or more"
    5 ListTooShort "the list lent to a take is shorter than 64, medium than one span's blocks"
    6 RunLength "a run has 0 pages or 2^48 or more, or growth isn't to more pages"
    7 EmptyList "the list of blocks or of chunks is empty"
    8 Chunks "there are more than 2,056 chunks, or fewer fates than chunks"
    9 WrongKind "a word has the wrong kind"
    10 NotOut "a block is not out in this class"
    11 OtherPage "a block is on another page or span than the first; for chunks, a page twice, a count 0 or not the list's, a page missing"
    12 NotHeld "the run handed to release or to growth isn't wholly held by the direct calls"
    13 BookWord "the book is of another format, another word of it that the call reads is out of its range, or a listed page yields no block"
    14 Plan "the plan is empty, has lists of unequal length or above 4,096 entries, names a size above 65,472 or has a number above 1,000,000"
    15 Repeated "a block that is out in this class stands twice in the list"
    16 Stopped "a word of the trace has kind 3, is a report with other bits set, names a class above 75 or a place not out, or a lent list is full"
    17 NoRow "parking rules are given and a class has no row"
    18 TwoRows "a class has two rows"
    19 Rows "the list of parking rules isn't whole rows of four, a limit exceeds 256, or a row's last class is below its first or above 75"
    20 Listing "the listing's arena isn't 1 to 3 pages, its length is above 4, or the lent list is shorter than the listing"
    21 Game "the game's pages are not 1 to 6, its live limit not 1 to the pages, or its moves above 8"
    22 Growth "the growth's a is not above b, b is 0, or either exceeds 1,000"
    23 Top "the top is below 16, not a multiple of 16 or above 65,472"
    24 Slots "the slots are 0, more than the lent list or too few to reach the top"
}

impl Refusal {
    /// The refusal with a number; none if no refusal has it.
    ///
    /// ```
    /// # use vigbuso::Refusal;
    /// assert_eq!(Refusal::from_number(10), Some(Refusal::NotOut));
    /// assert_eq!(Refusal::from_number(0), None);
    /// ```
    #[must_use]
    pub fn from_number(number: u32) -> Option<Refusal> {
        Refusal::ALL.iter().copied().find(|refusal| refusal.number() == number)
    }

    /// The papers' number.
    ///
    /// ```
    /// assert_eq!(vigbuso::Refusal::NotHeld.number(), 12);
    /// ```
    #[must_use]
    pub const fn number(self) -> u32 {
        self as u32
    }
}

impl fmt::Display for Refusal {
    fn fmt(&self, f: &mut fmt::Formatter) -> fmt::Result {
        write!(f, "refused as {}: {}", self.number(), self.meaning())
    }
}

impl Error for Refusal {}

#[cfg(test)]
mod tests {
    use super::*;
    use std::{format, fs};

    /// The C header has the same numbers, in the same words.
    #[test]
    fn the_header_says_the_same() {
        let header = concat!(env!("CARGO_MANIFEST_DIR"), "/../include/vigbuso.h");
        let header = fs::read_to_string(header).expect("the repository's header");
        for refusal in Refusal::ALL {
            let text = format!("case {}: return \"{}\";", refusal.number(), refusal.meaning());
            let lines = header.split_whitespace().collect::<std::vec::Vec<_>>().join(" ");
            assert!(lines.replace("\" \"", "").contains(&text), "no `{text}` in the header");
        }
        assert_eq!(header.matches("case ").count(), Refusal::ALL.len());
    }
}
