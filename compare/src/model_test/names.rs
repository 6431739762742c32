//! Every name of the crate `model` that the equations use. A change of a name there is a change here and nowhere else.

use crate::call::Kind;

/// The crate of the model; it and the crates that it uses are copied and searched for definitions to unfold.
pub const CRATE: &str = "model";
/// Modules of its specs.
pub const CALLS_MODULE: &str = "Calls";
pub const HISTORY_MODULE: &str = "History";
/// The types of calls and of answers, in the first.
pub const CALL_TYPE: &str = "Call";
pub const ANSWER_TYPE: &str = "Answer";
/// The rules that an opening's rows give, and those of none.
pub const RULES_MODULE: &str = "Rattle.rules.specs.Rules";
pub const RULES_OF: &str = "rules_of";
pub const PLAIN_RULES: &str = "plain_rules";
/// The answers of a history from an opening, by the arena's length, the rules and the calls, in the second.
pub const ANSWERS: &str = "answers";
/// The same by document 01's own hole store, from an opening without rows, and its module.
pub const ORIGINAL_MODULE: &str = "Original";
pub const ORIGINAL_ANSWERS: &str = "original_answers";

/// The constructor of a call; none of the pool's, whose model is a crate of its own.
pub const fn call(kind: Kind) -> Option<&'static str> {
    Some(match kind {
        Kind::TakeBlocks => "take_blocks",
        Kind::MediumTakeBlocks => "medium_take_blocks",
        Kind::ReleaseBlocks => "release_blocks",
        Kind::MediumReleaseBlocks => "medium_release_blocks",
        Kind::ReleaseBinChunks => "release_bin_chunks",
        Kind::Commit => "commit",
        Kind::GrowFrontier => "grow_frontier",
        Kind::Release => "release",
        Kind::Contains => "contains",
        Kind::Report => "report",
        Kind::Alloc | Kind::Free | Kind::Trim | Kind::ClassOf | Kind::Granted | Kind::Stocked => return None,
    })
}

/// Constructors of answers.
pub const REFUSED: &str = "refused";
pub const TAKEN: &str = "taken";
pub const FATE: &str = "fate";
pub const FATES: &str = "fates";
pub const RUN: &str = "run";
pub const NO_RUN: &str = "no_run";
pub const GROWN: &str = "grown";
pub const RELEASED: &str = "released";
pub const CONTAINED: &str = "contained";
pub const REPORTED: &str = "reported";
/// The fields of the last one's figures, in the report's order.
pub const FIGURES: [&str; 6] = ["commits", "reuses", "abandoned", "held", "idle", "overlap"];

/// The events of a history from a heap, and the heap after it, in the module of histories; the heap after an opening with rules.
pub const EVENTS_FROM: &str = "events_from";
pub const HEAP_FROM: &str = "heap_from";
pub const HEAP_MODULE: &str = "Heap";
pub const NEW_HEAP: &str = "new_heap";

/// A heap written down: the direct calls hold the pages below the frontier, but for `holes` holes of one page, at every
/// odd page from the first on, that were given in this order.
pub const COMBED_USES: &str = "use Rattle.model.specs.HoleStore.{hole, store}
use Rattle.model.specs.Arena.{ready}
use Rattle.model.specs.Heap.{Heap, direct, nobody, new_heap}
use Rattle.model.specs.declared.Hole.{Hole}
use Rattle.rules.specs.Rules.{plain_rules}
";
pub const COMBED: &str = "comb : ℕ → ℕ → List Hole
comb zero first = []
comb (suc k) first = hole first 1 ∷ comb k (first + 2)

unfoldable pub combed : ℕ → ℕ → Heap
unfolding new_heap comb
combed frontier holes = record {
  arena = record {
    status = ready;
    frontier = frontier;
    store = store (comb holes 1) holes;
    commits = 1;
    reuses = 0;
    abandoned = 0;
  };
  holder = λ x. cond (ltb x frontier && not (eqb (x % 2) 1 && ltb x (2 * holes))) direct nobody;
  classes = (new_heap plain_rules).classes;
  rules = plain_rules;
}
";
/// What of two heaps is compared: `{}` stands for a heap, and the list of pages is `pages`.
pub const COMPARED: [&str; 8] = [
    "{}.arena.status",
    "{}.arena.frontier",
    "{}.arena.store.holes",
    "{}.arena.store.total",
    "{}.arena.commits",
    "{}.arena.reuses",
    "{}.arena.abandoned",
    "map {}.holder pages",
];
