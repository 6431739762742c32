//! One call of a history, and its answer, as CALLS.md passes them.

use crate::words::{Family, Word, FIGURES};

/// A lent list, of words for a take or of fates: so many entries, all with this content before the call.
#[derive(Clone, Copy, PartialEq, Eq, Debug)]
pub struct Lent<T> {
    pub len: usize,
    pub fill: T,
}

#[derive(Clone, PartialEq, Eq, Debug)]
pub enum Call {
    Take {
        family: Family,
        class: u32,
        host: u32,
        lent: Lent<Word>,
    },
    ReleaseBlocks {
        family: Family,
        class: u32,
        host: u32,
        list: Vec<Word>,
    },
    ReleaseChunks {
        class: u32,
        host: u32,
        list: Vec<Word>,
        chunks: Vec<Word>,
        lent: Lent<u32>,
    },
    Commit {
        host: u32,
        pages: u64,
    },
    Grow {
        host: u32,
        first: u64,
        old: u64,
        new: u64,
    },
    Release {
        host: u32,
        first: u64,
        pages: u64,
    },
    Contains {
        offset: u64,
        length: u64,
    },
    Report,
    /// The pool's calls name a class by one number: small ones 0 to 63, medium ones 64 to 75.
    Pool {
        request: PoolRequest,
        class: u32,
        host: u32,
    },
    /// A call of the pool that only reads, and refuses nothing.
    Look(Look),
}

#[derive(Clone, Copy, PartialEq, Eq, Debug)]
pub enum Look {
    ClassOf(Word),
    Granted { class: u32, block: Word },
    Stocked { class: u32 },
}

/// What the pool is asked of a class.
#[derive(Clone, Copy, PartialEq, Eq, Debug)]
pub enum PoolRequest {
    Alloc,
    Free(Word),
    Trim,
}

#[derive(Clone, PartialEq, Eq, Debug)]
pub enum Answer {
    Refused(u32),
    /// The list's entries below the count; those past it keep their content.
    Taken {
        virgin: bool,
        words: Vec<Word>,
    },
    Fate(u32),
    /// The fates of the groups; entries past them keep their content.
    Fates(Vec<u32>),
    Run {
        first: u32,
        fresh: bool,
    },
    NoRun,
    Grown(bool),
    Released,
    Contains(bool),
    /// Commits, reuses, abandoned, pages held, idle pages, and how many are both.
    Report([u64; FIGURES]),
    /// The block that an alloc granted, or that a trim gave back to the heap; 0 for none.
    Block(Word),
    Freed,
    /// What a look returns.
    Told(u32),
    /// Something that CALLS.md rules out, in words.
    Broken(String),
}

/// A call with the answer that is due.
pub type Due = (Call, Answer);

/// The calls as they are counted: the names of CALLS.md without their prefix.
#[derive(Clone, Copy, PartialEq, Eq, PartialOrd, Ord, Debug)]
pub enum Kind {
    TakeBlocks,
    MediumTakeBlocks,
    ReleaseBlocks,
    MediumReleaseBlocks,
    ReleaseBinChunks,
    Commit,
    GrowFrontier,
    Release,
    Contains,
    Report,
    Alloc,
    Free,
    Trim,
    ClassOf,
    Granted,
    Stocked,
}

impl Kind {
    pub const ALL: [Kind; 16] = [
        Kind::TakeBlocks,
        Kind::MediumTakeBlocks,
        Kind::ReleaseBlocks,
        Kind::MediumReleaseBlocks,
        Kind::ReleaseBinChunks,
        Kind::Commit,
        Kind::GrowFrontier,
        Kind::Release,
        Kind::Contains,
        Kind::Report,
        Kind::Alloc,
        Kind::Free,
        Kind::Trim,
        Kind::ClassOf,
        Kind::Granted,
        Kind::Stocked,
    ];

    pub const fn name(self) -> &'static str {
        match self {
            Kind::TakeBlocks => "take_blocks",
            Kind::MediumTakeBlocks => "medium_take_blocks",
            Kind::ReleaseBlocks => "release_blocks",
            Kind::MediumReleaseBlocks => "medium_release_blocks",
            Kind::ReleaseBinChunks => "release_bin_chunks",
            Kind::Commit => "commit",
            Kind::GrowFrontier => "grow_frontier",
            Kind::Release => "release",
            Kind::Contains => "contains",
            Kind::Report => "report",
            Kind::Alloc => "alloc",
            Kind::Free => "free",
            Kind::Trim => "trim",
            Kind::ClassOf => "class_of",
            Kind::Granted => "granted",
            Kind::Stocked => "stocked",
        }
    }

    pub fn named(name: &str) -> Option<Kind> {
        Kind::ALL.into_iter().find(|kind| kind.name() == name)
    }
}

impl Call {
    pub fn kind(&self) -> Kind {
        match self {
            Call::Take { family: Family::Small, .. } => Kind::TakeBlocks,
            Call::Take { family: Family::Medium, .. } => Kind::MediumTakeBlocks,
            Call::ReleaseBlocks { family: Family::Small, .. } => Kind::ReleaseBlocks,
            Call::ReleaseBlocks { family: Family::Medium, .. } => Kind::MediumReleaseBlocks,
            Call::ReleaseChunks { .. } => Kind::ReleaseBinChunks,
            Call::Commit { .. } => Kind::Commit,
            Call::Grow { .. } => Kind::GrowFrontier,
            Call::Release { .. } => Kind::Release,
            Call::Contains { .. } => Kind::Contains,
            Call::Report => Kind::Report,
            Call::Pool { request: PoolRequest::Alloc, .. } => Kind::Alloc,
            Call::Pool { request: PoolRequest::Free(_), .. } => Kind::Free,
            Call::Pool { request: PoolRequest::Trim, .. } => Kind::Trim,
            Call::Look(Look::ClassOf(_)) => Kind::ClassOf,
            Call::Look(Look::Granted { .. }) => Kind::Granted,
            Call::Look(Look::Stocked { .. }) => Kind::Stocked,
        }
    }
}
