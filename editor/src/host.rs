//! The system's answers.

use core::fmt;
use core::ops::{BitAnd, BitOr};

/// The host word: what the system answers within one call, told in advance. All discards of one call share its answers.
///
/// The heap asks no system itself. A [`Heap`](crate::Heap) keeps a host word, [`Host::GRANTED`] from its opening on, which
/// suits an arena of plain memory: it is there, and nothing of it is ever discarded. Only a program that has a system below
/// the heap, and reserves, commits and discards pages as the heap's answers say, needs another.
///
/// There is no default: the word of no answers, [`Host::NONE`], disables an arena for good at its first take.
///
/// ```
/// use vigbuso::Host;
///
/// assert_eq!(Host::RESERVATION | Host::COMMIT, Host::GRANTED);
/// assert!(Host::ALL.has(Host::DISCARD));
/// assert_eq!(Host::ALL.bits(), 15);
/// assert_eq!(format!("{:?}", Host::GRANTED), "Host(RESERVATION | COMMIT)");
/// ```
#[derive(Clone, Copy, PartialEq, Eq, Hash)]
pub struct Host(u32);

impl Host {
    /// The system grants nothing. If the first commit or take of a heap meets it, the arena is disabled for good.
    ///
    /// ```
    /// # use vigbuso::{Heap, Host};
    /// let mut heap = Heap::open(64)?;
    /// assert_eq!(heap.commit_with(Host::NONE, 1)?, None);
    /// assert_eq!(heap.commit(1)?, None); // granted now, but the arena is disabled
    /// # Ok::<(), vigbuso::Refusal>(())
    /// ```
    pub const NONE: Host = Host(0);
    /// Bit 0: the arena's reservation is granted. Refused at the first commit, the arena is disabled for good.
    ///
    /// ```
    /// assert_eq!(vigbuso::Host::RESERVATION.bits(), 1);
    /// ```
    pub const RESERVATION: Host = Host(1);
    /// Bit 1: a commit of pages is granted.
    ///
    /// ```
    /// assert_eq!(vigbuso::Host::COMMIT.bits(), 2);
    /// ```
    pub const COMMIT: Host = Host(2);
    /// Bit 2: a discard is done.
    ///
    /// ```
    /// assert_eq!(vigbuso::Host::DISCARD.bits(), 4);
    /// ```
    pub const DISCARD: Host = Host(4);
    /// Bit 3: a done discard leaves zeroes.
    ///
    /// ```
    /// assert_eq!(vigbuso::Host::ZEROES.bits(), 8);
    /// ```
    pub const ZEROES: Host = Host(8);
    /// Reservation and commits are granted, nothing is discarded: plain memory.
    ///
    /// ```
    /// assert!(!vigbuso::Host::GRANTED.has(vigbuso::Host::DISCARD));
    /// ```
    pub const GRANTED: Host = Host(3);
    /// Everything is granted, and discards leave zeroes.
    ///
    /// **Not for plain memory.** It promises that the caller discards each page that goes cold
    /// ([`Fate::Cold`](crate::Fate::Cold)) and that the page reads as zeroes afterwards; the heap then calls its blocks
    /// [virgin](crate::Taken::is_virgin) again. With an arena in a `Vec`, where nobody discards anything, most blocks that
    /// are called virgin have old bytes.
    ///
    /// ```
    /// # use vigbuso::{Heap, Host};
    /// assert!(Heap::open(64)?.commit_with(Host::ALL, 1)?.is_some());
    /// # Ok::<(), vigbuso::Refusal>(())
    /// ```
    pub const ALL: Host = Host(15);

    /// The host word with these bits; none if there are others than the four.
    ///
    /// ```
    /// # use vigbuso::Host;
    /// assert_eq!(Host::from_bits(13), Some(Host::RESERVATION | Host::DISCARD | Host::ZEROES));
    /// assert_eq!(Host::from_bits(16), None);
    /// ```
    #[must_use]
    pub const fn from_bits(bits: u32) -> Option<Host> {
        match bits {
            0..=15 => Some(Host(bits)),
            _ => None,
        }
    }

    /// The word that is passed to the heap.
    ///
    /// ```
    /// assert_eq!(vigbuso::Host::GRANTED.bits(), 3);
    /// ```
    #[must_use]
    pub const fn bits(self) -> u32 {
        self.0
    }

    /// Whether all answers of `other` are among these.
    ///
    /// ```
    /// # use vigbuso::Host;
    /// assert!(Host::GRANTED.has(Host::COMMIT));
    /// ```
    #[must_use]
    pub const fn has(self, other: Host) -> bool {
        self.0 & other.0 == other.0
    }
}

impl BitOr for Host {
    type Output = Host;

    fn bitor(self, other: Host) -> Host {
        Host(self.0 | other.0)
    }
}

impl BitAnd for Host {
    type Output = Host;

    fn bitand(self, other: Host) -> Host {
        Host(self.0 & other.0)
    }
}

impl fmt::Debug for Host {
    fn fmt(&self, f: &mut fmt::Formatter) -> fmt::Result {
        let bits = [
            (Host::RESERVATION, "RESERVATION"),
            (Host::COMMIT, "COMMIT"),
            (Host::DISCARD, "DISCARD"),
            (Host::ZEROES, "ZEROES"),
        ];
        let mut separator = "";
        f.write_str("Host(")?;
        for (_, name) in bits.into_iter().filter(|(bit, _)| self.has(*bit)) {
            write!(f, "{separator}{name}")?;
            separator = " | ";
        }
        if *self == Host::NONE {
            f.write_str("NONE")?;
        }
        f.write_str(")")
    }
}

#[cfg(test)]
mod tests {
    use super::*;
    use std::format;

    #[test]
    fn the_bits_are_named() {
        assert_eq!(format!("{:?}", Host::ALL), "Host(RESERVATION | COMMIT | DISCARD | ZEROES)");
        assert_eq!(format!("{:?}", Host::ZEROES), "Host(ZEROES)");
        assert_eq!(format!("{:?}", Host::NONE), "Host(NONE)");
    }
}
