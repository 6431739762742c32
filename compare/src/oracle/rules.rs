//! Which hole store the original runs with: document 02's (A.4, A.8), or its own.

use std::sync::atomic::{AtomicBool, AtomicU64, AtomicU8, Ordering};

/// The hole store of the histories to come.
#[derive(Clone, Copy, PartialEq, Eq)]
pub enum Rules {
    /// Document 02's.
    Amended = 0,
    /// The original's own; where document 02's would have done something else is noted.
    Watched = 1,
    /// The original's own.
    Plain = 2,
    /// Document 02's without A.4: holes that touch stay apart.
    Apart = 3,
    /// Document 02's without A.8: which of equal holes is taken is the original's choice.
    Joined = 4,
}

static RULES: AtomicU8 = AtomicU8::new(Rules::Amended as u8);
static DEPARTED: AtomicBool = AtomicBool::new(false);

/// From an opening on.
pub(crate) fn set(rules: Rules) {
    RULES.store(rules as u8, Ordering::Relaxed);
    DEPARTED.store(false, Ordering::Relaxed);
}

#[inline]
pub(crate) fn is(rules: Rules) -> bool {
    RULES.load(Ordering::Relaxed) == rules as u8
}

/// The original does what document 02's rule would not.
pub(crate) fn depart() {
    DEPARTED.store(true, Ordering::Relaxed);
}

/// Whether it did, since the opening.
pub(crate) fn departed() -> bool {
    DEPARTED.load(Ordering::Relaxed)
}

/// What becomes of a given run by A.4, with the indices of the holes that it joins.
pub(crate) enum Give {
    PassesPages,
    FindsNoSlot,
    Appended,
    JoinsBefore { before: usize },
    JoinsAfter { after: usize },
    JoinsBoth { before: usize, after: usize, last: usize },
}

impl Give {
    pub(crate) fn joins(&self) -> bool {
        matches!(self, Give::JoinsBefore { .. } | Give::JoinsAfter { .. } | Give::JoinsBoth { .. })
    }
}

/// What gives are counted as.
const GIVES: [&str; 9] = [
    "given run appended",
    "given run joins the hole before",
    "given run joins the hole after",
    "given run joins both",
    "  .. and the one after is the last hole",
    "  .. and the joined one is the last hole",
    "given run joins at 4,096 holes",
    "given run abandoned at 4,096 holes",
    "given run abandoned at 65,536 pages",
];

static COUNTS: [AtomicU64; GIVES.len()] = [const { AtomicU64::new(0) }; GIVES.len()];

/// Counts a give by the judge's rule, and whether all slots were used.
pub(crate) fn count(give: &Give, full: bool) {
    let add = |at: usize| COUNTS[at].fetch_add(1, Ordering::Relaxed);
    match give {
        Give::Appended => add(0),
        Give::JoinsBefore { .. } => add(1),
        Give::JoinsAfter { .. } => add(2),
        Give::JoinsBoth { .. } => add(3),
        Give::FindsNoSlot => add(7),
        Give::PassesPages => add(8),
    };
    if let Give::JoinsBoth { before, after, last } = give {
        if after == last {
            add(4);
        } else if before == last {
            add(5);
        }
    }
    if full && give.joins() {
        add(6);
    }
}

/// How often each of `GIVES` happened.
pub fn counted() -> impl Iterator<Item = (&'static str, u64)> {
    GIVES.into_iter().zip(COUNTS.iter().map(|count| count.load(Ordering::Relaxed)))
}
