//! What became of a page.

/// What a release did with the page, or with the span of medium blocks.
///
/// [`Heap::release`](crate::Heap::release) answers the first three, for a medium class only `Kept` and `Arena`, as there a
/// span that went cold counts as kept. The retired fates are those of chunks that returned all blocks which the page had
/// out: such a page is carved anew when it is used again.
///
/// ```
/// use vigbuso::{Class, Fate, Heap};
///
/// let mut heap = Heap::open(64)?;
/// let class = Class::for_size(16_384).unwrap();
/// let blocks = heap.take(class)?;
/// let fate = heap.release(class, &blocks)?;
/// assert_eq!((fate, fate.number(), fate.is_retired()), (Fate::Kept, 0, false));
/// # Ok::<(), vigbuso::Refusal>(())
/// ```
#[derive(Clone, Copy, PartialEq, Eq, Hash, Debug)]
#[repr(u32)]
pub enum Fate {
    /// The class keeps it, in use or among its empty ones.
    Kept = 0,
    /// The class keeps it among its cold ones. This is where the host word's discard is done.
    Cold = 1,
    /// It was given back to the arena.
    Arena = 2,
    /// Retired, and kept among the class's empty ones.
    KeptRetired = 4,
    /// Retired, and kept among the class's cold ones.
    ColdRetired = 5,
    /// Retired, and given back to the arena.
    ArenaRetired = 6,
}

impl Fate {
    const ALL: [Fate; 6] =
        [Fate::Kept, Fate::Cold, Fate::Arena, Fate::KeptRetired, Fate::ColdRetired, Fate::ArenaRetired];

    /// The fate with a number of document 01; none if no fate has it.
    ///
    /// ```
    /// # use vigbuso::Fate;
    /// assert_eq!(Fate::from_number(6), Some(Fate::ArenaRetired));
    /// assert_eq!(Fate::from_number(3), None);
    /// ```
    #[must_use]
    pub fn from_number(number: u32) -> Option<Fate> {
        Fate::ALL.into_iter().find(|fate| fate.number() == number)
    }

    /// Document 01's number: 0 kept, 1 cold, 2 to the arena; plus 4 if retired.
    ///
    /// ```
    /// assert_eq!(vigbuso::Fate::ColdRetired.number(), 1 + 4);
    /// ```
    #[must_use]
    pub const fn number(self) -> u32 {
        self as u32
    }

    /// Whether a release by chunks retired the page.
    ///
    /// ```
    /// assert!(vigbuso::Fate::KeptRetired.is_retired());
    /// ```
    #[must_use]
    pub const fn is_retired(self) -> bool {
        self.number() & 4 != 0
    }

    /// Whether the page is the arena's again.
    ///
    /// ```
    /// # use vigbuso::Fate;
    /// assert!(Fate::Arena.is_arena() && Fate::ArenaRetired.is_arena() && !Fate::Cold.is_arena());
    /// ```
    #[must_use]
    pub const fn is_arena(self) -> bool {
        self.number() & 3 == 2
    }
}
