#!/usr/bin/env python3
"""Tries wrong rules: heaps that follow document 01 but for one sentence of it, and says what notices each.

A rule that is wrong in the model, on the words and in the code alike breaks no proof but the ones about it. So each entry
of RULES is tried in two ways:

    heap    the original's source with that rule changed is built as the stand-in (src/stand_in.rs), and runs the stored
            histories of crates/replay/stdin and the tests of editor/tests/boundaries
    model   the rule's definition is changed in a copy of the crates, and `rt check` in CRATE checks its theorems and
            examples. A proof that follows the old definition's shape may fail too, so only what is stated otherwise counts:
            docs/DEMANDS.md says which that is. For some the statement is proved false of the changed definition

    compare/wrong_rules.py [--heap | --model] [--work FOLDER] [--stored FILE] [WORD ..]

With words, only the entries whose names have one of them. Ends with status 0 if the original as it is passes all, each wrong
heap is noticed or is said to answer alike, and each wrong definition is refused.
"""

import argparse
import ctypes
import os
import pathlib
import re
import shutil
import subprocess
import sys
import tempfile
from dataclasses import dataclass, field

ROOT = pathlib.Path(__file__).resolve().parent.parent
ORIGINAL = pathlib.Path(os.environ.get("VIGBUSO_ORIGINAL", ROOT.parent / "shared/docs/src"))

# Where the definitions are.
ARENA = "crates/model/specs/Arena.antt"
CHUNKS = "crates/model/specs/Chunks.antt"
CLASS = "crates/model/specs/Class.antt"
HEAP = "crates/model/specs/Heap.antt"
HOLES = "crates/model/specs/HoleStore.antt"
OURS = "compare/seams/arena.rs"
PAGE = "crates/model/specs/Page.antt"
PROOFS = "crates/model/proofs"
RELEASE = "crates/model/specs/Release.antt"
DESTINATION = "crates/model/specs/Destination.antt"
LEDGER = "compare/src/ledger.rs"
LIMITS = "crates/words/specs/Limits.antt"
WORD = "crates/words/specs/Word.antt"
WORDS = "compare/src/words.rs"
HOST = "crates/words/specs/Host.antt"
HOST_CODE = "crates/words/src/host_bits.rt"
RANGES = "crates/demands/specs/Ranges.antt"
# The 8 MiB of a medium class are in its shape, the limits without rows with the rows, by definition and in code.
SHAPE = "crates/classes/specs/Shape.antt"
SHAPE_CODE = "crates/classes/src/runs.rt"
PARKING = "compare/src/parking.rs"
ROWS = "crates/rules/specs/Rules.antt"
ROWS_CODE = "crates/rules/src/rows.rt"
# The tests of 15 and 10, in both of a class's releases.
REPEATED = "(cond (repeats sh s ws) (refuse s 15)"
FOREIGN = "(cond (not (every (out_here sh s) ws)) (refuse s 10)"
# What a take is served where a page is partial, and where the first is empty.
FROM_PARTIAL = "take_from sh l (p ∷ ps) es cs fs = done (served l (fill_from_list sh sh.batch (p ∷ ps)) es cs fs)"
FROM_EMPTY = "take_from sh l [] (e ∷ es) cs fs = done (served l (fill_from_list sh sh.batch (reused sh e ∷ [])) es cs fs)"
# The boundary tests that look into the book.
BOOK_TESTS = [
    "ranges::",
    "format::",
    "marks::",
    "joins::stands",
    "chunks::chunks_give_their_runs_in_order",
    "holes::a_cut_hole_keeps_its_index",
    "holes::the_last_hole_takes_a_used_up_ones_place",
    "runs::the_counts_are_kept_modulo_two_to_the_64th",
]


@dataclass
class Rule:
    name: str
    #: Changes of the original, and of the tool's own part where the rule is there: file, old text, new text.
    heap: list = field(default_factory=list)
    #: Changes of the definitions.
    model: list = field(default_factory=list)
    #: The crate that is checked.
    crate: str = "model"
    #: A statement, and a proof `denied` that it is false of these definitions.
    denied: tuple = ()
    #: Why no history can show it, if none can, or none that is short enough to run.
    alike: str = ""


# What the proofs of `denied` begin with; `control` is refused whatever the definitions are.
DENIED = """use Prim.Native.Nat.{ℕ}
use mathlib.Core.Path.{◌≡◌, refl, sym, ap, ◌∙◌}
use mathlib.Core.List.{List, [], ◌∷◌, ◌++◌}
use mathlib.Core.Option.{none}
use mathlib.Core.Logic.{inl, inr}
use mathlib.Core.Bool.{Bool, true, false, true≢false, false≢true}
use native.Mathlib.Omega.{arith}
use lib.Dec.{eqb}
use lib.ListN.{get_or}
use borrow.Author.Tests.{eqb-true}
use Rattle.facts.specs.Lists.{total, elem}
use Rattle.facts.proofs.Bools.{by_cases}
use Rattle.words.specs.Word.{chunk_word}
use Rattle.classes.specs.Sizes.{small_sizes, medium_sizes}
use Rattle.classes.specs.Shape.{small_shape, medium_shape, shape_of}
use Rattle.rules.specs.Rules.{Rules, limits, plain_rules}
use Rattle.model.specs.Calls as Calls
use Rattle.model.specs.Calls.{Call, Answer, take_blocks, release_blocks, release_bin_chunks, commit, grow_frontier}
use Rattle.model.specs.HoleStore as Holes
use Rattle.model.specs.Arena as Arenas
use Rattle.model.specs.Arena.{Status, unasked, ready, disabled}
use Rattle.model.specs.Page as Pages
use Rattle.model.specs.Page.{Page}
use Rattle.model.specs.Class as Classes
use Rattle.model.specs.Class.{lists}
use Rattle.model.specs.Destination as Destinations
use Rattle.model.specs.Release as Releases
use Rattle.model.specs.Chunks as Chunks
use Rattle.model.specs.Heap as Heaps
use Rattle.model.specs.History.{Event, events, with_call, heap_after}
use Rattle.model.specs.Entries.{Entry, OutIn}
use Rattle.model.specs.Reservation.{Reserved}
use Rattle.model.specs.Counted.{Counted}
use Rattle.model.specs.Groups.{GroupsGive}
use Rattle.model.specs.Offered as Told
use Rattle.model.specs.Offered.{CleanBlock, gets, yields_up, renews, releases_to, blocks_at, Used, Full}
use Rattle.model.specs.Sources.{Has, ComesFrom, IsPartial, IsEmpty, IsCold, Chilled, chills, draws, follows, Later}
use Rattle.model.specs.Demands.{Offered, Virgins, Sources}
use Rattle.model.specs.Examples.{smalls, rising, lent}
use Rattle.model.proofs.Since.{since_from, observed}
use Rattle.model.proofs.Fold.{live_from, live_in}
use Rattle.model.proofs.EntryCounts.{is, is_self, in_total}

control : true ≡ false
control = refl

-- 71 blocks to a page
abbrev take21 : Call
take21 = take_blocks 21 15 (lent 64)

abbrev unasked_yet : Status → Bool
unasked_yet unasked = true
unasked_yet ready = false
unasked_yet disabled = false

abbrev is_contained : Answer → Bool
is_contained (Calls.refused n) = false
is_contained (Calls.taken n l v) = false
is_contained (Calls.fate n) = false
is_contained (Calls.fates l) = false
is_contained (Calls.run q f) = false
is_contained Calls.no_run = false
is_contained Calls.released = false
is_contained (Calls.grown b) = false
is_contained (Calls.contained b) = b
is_contained (Calls.reported f) = false

"""
# What they unfold.
UNFOLDING = (
    "unfolding small_sizes medium_sizes small_shape medium_shape shape_of plain_rules Told.has_block Told.fated Calls.way_of"
    " Holes.{least_fit cut_from lowest_that place insert accepts}"
    " Arenas.{give draw_from draw grant commit_ready commit_as commit grow contains}"
    " Pages.{word_of carve_as carved_words is_out none_out has_more carved_now pop returned retire reused}"
    " Classes.{after fill_from_list served thawed on_run take_from} Destinations.{destination_of}"
    " Releases.{find in_partial in_full locate park settle of_kind out_here repeats on_page release_list}"
    " Chunks.{blocks_on chunk_fits chunked settle_chunk settle_chunks release_chunks answer}"
    " Heaps.{new_heap offer finish interact class_call held_direct bad_run parked_pages commit_call grow_call release_call direct_call step}"
)
UNFOLDING = re.sub(r"(\w+)\.\{([^}]*)\}", lambda m: " ".join(f"{m[1]}.{name}" for name in m[2].split()), UNFOLDING)


def not_offered(last):
    """Of one page's 71 blocks all are taken, and 1 to `last` released; 64 are taken, and block 65 is left."""
    return (
        "Offered",
        f"""
abbrev xs : List Call
xs = take21 ∷ take21 ∷ release_blocks 21 15 (smalls (rising 60 57 {last})) ∷ take21 ∷ []

abbrev vs : List Event
vs = events 1 plain_rules xs

abbrev w : ℕ
w = {(1 << 62) + 3 + 57 * 65}

none-live : total (is 21 w) (live_from 0 [] vs) ≡ 0
UNFOLDING
none-live = refl

not-out : OutIn vs 21 w → ⊥
not-out o =
    let e = o.entry in
    let m = in_total (is 21 w) e (live_from 0 [] vs) (live_in 0 e [] vs o.live) in
    let one : is 21 w e ≡ 1 = rw (← o.class, ← o.word) (is_self e) in
    absurd (omega (arith, none-live))

denied : Offered 1 plain_rules xs → ⊥
UNFOLDING
denied o = not-out (((o.spent 21).1 (record {{ partial = refl; empty = refl; cold = refl }})).full 0 (inl (refl, refl)) w refl)
""",
    )


NOT_VIRGIN = (
    "Virgins",
    f"""
abbrev xs : List Call
xs = take21 ∷ release_bin_chunks 21 15 (smalls (3 ∷ 60 ∷ 117 ∷ [])) (chunk_word 3 0 ∷ []) (9 ∷ []) ∷ []

abbrev vs : List Event
vs = with_call 4 plain_rules xs take21

at-zero : (q : ℕ) → since_from (gets 21 q) (yields_up 21 q) false vs ≡ true → eqb 0 q ≡ true
UNFOLDING
at-zero q e = by_cases (eqb 0 q) (λ a. a) (λ a. absurd (false≢true (rw a at e)))

not-clean : since_from (renews 21 0) (releases_to 21 0) false vs ≡ true → ⊥
UNFOLDING
not-clean e = false≢true e

no-clean : (w : ℕ) → CleanBlock vs 21 w → ⊥
no-clean w b =
    let z : 0 ≡ b.run = eqb-true 0 b.run (at-zero b.run (observed (gets 21 b.run) (yields_up 21 b.run) vs b.has)) in
    not-clean (rw (sym z) at (observed (renews 21 b.run) (releases_to 21 b.run) vs b.clean))

denied : Virgins 4 plain_rules xs → ⊥
UNFOLDING
denied v = no-clean {(1 << 62) + 3} (((v.virgin take21 21 15 (lent 64) refl refl).0 refl).1 {(1 << 62) + 3} refl)
""",
)


def not_reserved(call):
    """The arena of 8 pages stands as if the reservation had not been asked for."""
    return (
        "Reserved",
        f"""
denied : Reserved 8 plain_rules ({call} ∷ []) → ⊥
UNFOLDING
denied r = true≢false (ap unasked_yet r.status)
""",
    )


# Two pages of class 45. The second is empty, and of the first one block is back; yet a take has blocks of the second.
NOT_PARTIAL_FIRST = (
    "Sources",
    f"""
abbrev take45 : Call
take45 = take_blocks 45 15 (lent 64)

abbrev xs : List Call
xs = take45 ∷ take45 ∷ release_blocks 45 15 (smalls (4099 ∷ 5123 ∷ 6147 ∷ [])) ∷ release_blocks 45 15 (smalls (3 ∷ [])) ∷ []

abbrev vs : List Event
vs = events 4 plain_rules xs

abbrev back : ℕ
back = {(1 << 62) + 3}

abbrev out : ℕ
out = {(1 << 62) + 2051}

abbrev second : ℕ
second = {(1 << 62) + 4099}

other : (u : Used vs 45 1) (w : ℕ) → elem w (blocks_at (shape_of 45) 1) ≡ false → u.out.entry.word ≡ w → ⊥
other u w n a = false≢true (sym n ∙ sym (ap (λ (z : ℕ). elem z (blocks_at (shape_of 45) 1)) (sym u.out.word ∙ a)) ∙ u.block)

no-used : Used vs 45 1 → ⊥
UNFOLDING
no-used u = elim (live_in 0 u.out.entry [] vs u.out.live) [
  | inl a ↦ other u out refl (ap (λ (e : Entry). e.word) a)
  | inr b ↦ elim b [
    | inl a ↦ other u {(1 << 62) + 1027} refl (ap (λ (e : Entry). e.word) a)
    | inr c ↦ absurd c
  ]
]

not-chilled : Chilled 45 1 vs → ⊥
UNFOLDING
not-chilled c = false≢true (observed (chills 45 1) (draws 45 1) vs c)

none-live : total (is 45 back) (live_from 0 [] vs) ≡ 0
UNFOLDING
none-live = refl

not-out : OutIn vs 45 back → ⊥
not-out o =
    let e = o.entry in
    let m = in_total (is 45 back) e (live_from 0 [] vs) (live_in 0 e [] vs o.live) in
    let one : is 45 back e ≡ 1 = rw (← o.class, ← o.word) (is_self e) in
    absurd (omega (arith, none-live))

empty : ComesFrom IsEmpty vs 45 second
UNFOLDING
empty = record {{ run = 1; has = inr (inl (refl, refl)); is = (no-used, not-chilled); block = refl }}

used : Used vs 45 0
UNFOLDING
used = record {{ word = out; block = refl; out = record {{ entry = record {{ call = 0; place = 0; class = 45; word = out }}; live = inl (inl refl, refl); class = refl; word = refl }} }}

not-full : Full vs 45 0 → ⊥
UNFOLDING
not-full f = not-out (f back refl)

partial : Has IsPartial vs 45
UNFOLDING
partial = record {{ run = 0; has = inl (refl, refl); is = (used, not-full) }}

denied : Sources 4 plain_rules xs → ⊥
UNFOLDING
denied s = (((s.turns take45 45 15 (lent 64) refl refl).empty second refl).0 empty).0 partial
""",
)


def two_parked(limits, body):
    """Two pages of class 45, each taken whole and released; with these limits."""
    return (
        "Sources",
        f"""
abbrev take45 : Call
take45 = take_blocks 45 15 (lent 64)

abbrev rules : Rules
rules c = {limits}

abbrev xs : List Call
xs = take45 ∷ take45 ∷ release_blocks 45 15 (smalls (3 ∷ 1027 ∷ 2051 ∷ [])) ∷ release_blocks 45 15 (smalls (4099 ∷ 5123 ∷ 6147 ∷ [])) ∷ []

abbrev vs : List Event
vs = events 4 rules xs

no-used : (q : ℕ) → Used vs 45 q → ⊥
UNFOLDING
no-used q u = absurd (live_in 0 u.out.entry [] vs u.out.live)
{body}""",
    )


# The first is empty and the second cold; yet a take has blocks of the second.
NOT_EMPTY_FIRST = two_parked(
    "limits 1 1",
    f"""
abbrev second : ℕ
second = {(1 << 62) + 4099}

not-chilled : Chilled 45 0 vs → ⊥
UNFOLDING
not-chilled c = false≢true (observed (chills 45 0) (draws 45 0) vs c)

cold : ComesFrom IsCold vs 45 second
UNFOLDING
cold = record {{ run = 1; has = inr (inl (refl, refl)); is = (no-used 1, inr (inr (inr (inl (refl, refl))))); block = refl }}

empty : Has IsEmpty vs 45
UNFOLDING
empty = record {{ run = 0; has = inl (refl, refl); is = (no-used 0, not-chilled) }}

denied : Sources 4 rules xs → ⊥
UNFOLDING
denied s = (((s.turns take45 45 15 (lent 64) refl refl).cold second refl).0 cold).1 empty
""",
)

# Both are empty; yet a take has blocks of the first.
NOT_LAST_FIRST = two_parked(
    "limits 4 256",
    f"""
abbrev first : ℕ
first = {(1 << 62) + 3}

not-chilled : (q : ℕ) → Chilled 45 q vs → since_from (chills 45 q) (draws 45 q) false vs ≡ false → ⊥
not-chilled q c n = false≢true (sym n ∙ observed (chills 45 q) (draws 45 q) vs c)

one : ComesFrom IsEmpty vs 45 first
UNFOLDING
one = record {{ run = 0; has = inl (refl, refl); is = (no-used 0, λ c. not-chilled 0 c refl); block = refl }}

other : Has IsEmpty vs 45
UNFOLDING
other = record {{ run = 1; has = inr (inl (refl, refl)); is = (no-used 1, λ c. not-chilled 1 c refl) }}

not-later : Later 45 0 1 vs → ⊥
UNFOLDING
not-later l = false≢true (observed (follows 45 0 1) (releases_to 45 1) vs l)

denied : Sources 4 rules xs → ⊥
UNFOLDING one other
denied s = elim ((s.turns take45 45 15 (lent 64) refl refl).last_empty refl first refl one other) [
  | inl e ↦ true≢false (ap (λ (n : ℕ). eqb n 0) e)
  | inr l ↦ not-later l
]
""",
)

NOT_CONTAINED = (
    "Reserved",
    """
denied : Reserved 8 plain_rules (commit 15 1 ∷ []) → ⊥
UNFOLDING
denied r = false≢true (ap is_contained ((r.contains 0 524288).1 (record { granted = refl; no_overflow = omega arith; inside = omega arith })))
""",
)

NOT_COUNTED = (
    "Counted",
    """
abbrev xs : List Call
xs = commit 15 1 ∷ grow_frontier 15 0 1 2 ∷ []

denied : Counted 8 plain_rules xs (Heaps.figures 8 (heap_after 8 plain_rules xs)) → ⊥
UNFOLDING
denied c = false≢true (ap (λ (n : ℕ). eqb n 2) c.commits)
""",
)


def not_given(empty):
    """Two pages of class 45, wholly out, come back as groups; so many empty ones are kept, and no cold one."""
    return (
        "GroupsGive",
        f"""
abbrev whole : ℕ → Page
whole q = record {{ first = q; free = []; carved = 3; virgin = true; retired = false }}

abbrev ws : List ℕ
ws = smalls (3 ∷ 1027 ∷ 2051 ∷ 4099 ∷ 5123 ∷ 6147 ∷ [])

denied : GroupsGive (shape_of 45) (limits {empty} 0) (lists [] [] [] (whole 0 ∷ whole 1 ∷ [])) → ⊥
UNFOLDING
denied g = false≢true (ap (λ (l : List ℕ). eqb (get_or l 0 9) 0) (g.gives 15 ws (chunk_word 3 0 ∷ chunk_word 3 1 ∷ []) (9 ∷ 9 ∷ []) none))
""",
    )


def at(column, *lines):
    return "\n".join(" " * column + line for line in lines)


def limit(name, heap, plain):
    """A limit of the stores: a constant of the original, and one of the limits without rows, in definition and code alike."""
    const, old, new = heap
    family, which = plain
    told = dict(small=[4, 256], medium=[32, 256])[family]
    wrong = [int(new) if which == at else number for at, number in enumerate(told)]
    by_family = lambda small, medium: f"if c < NUM_CLASSES {{ {small} }} else {{ {medium} }}"
    others = dict(small=[32, 256], medium=[4, 256])[family][which]
    changed = by_family(new, others) if family == "small" else by_family(others, new)
    in_code = ("let empty = " + by_family(4, 32), "let empty = " + changed) if which == 0 else ("cold: 256 }", f"cold: {changed} }}")
    return Rule(
        name,
        heap=[("heap.rs", f"const {const} = {old};", f"const {const} = {new};")],
        model=[
            (ROWS, f"(limits {told[0]} {told[1]})", f"(limits {wrong[0]} {wrong[1]})"),
            (ROWS_CODE, *in_code),
        ],
    )


def unlinked_where(test):
    """When its batch is full a take unlinks a page that passes the test."""
    full, *ends = "if *count >= REFILL_BATCH {", "    break;", "}"
    return "heap.rs", at(12, full, *ends), at(12, full, f"    if {test} {{", "        unlink_partial(list, page);", "    }", *ends)


def empty_where(small, medium):
    """A take turns to the empty runs by another test: of a small class, of a medium one."""
    asked = lambda test: f"if {test} && !list.empty.is_null() {{"
    in_small = lambda test: at(12, asked(test), "    // Recycle")
    in_medium = lambda test: at(12, "    refill_cap,", ");") + "\n\n" + at(12, asked(test))
    return [("heap.rs", place("count == 0"), place(test)) for place, test in [(in_small, small), (in_medium, medium)]]


RULES = [
    Rule(
        "a reuse is counted for a fresh run",
        heap=[
            (
                "arena.rs",
                at(24, "return (base as *mut u8, true);"),
                at(24, "self.reuses.fetch_add(1, Ordering::Relaxed);", "return (base as *mut u8, true);"),
            )
        ],
        model=[(ARENA, "reuses = cond fresh a.reuses (more a.reuses)", "reuses = more a.reuses")],
    ),
    Rule(
        "a refused reservation does not disable",
        heap=[
            (
                "arena.rs",
                "if raw == usize::MAX {\n" + at(16, "self.state.store(2, Ordering::Release);"),
                "if raw == usize::MAX {\n" + at(16, "self.state.store(0, Ordering::Release);"),
            )
        ],
        model=[(ARENA, "(given (with_status disabled a) none false)", "(given a none false)")],
    ),
    Rule(
        "a cold span is virgin",
        heap=[
            (
                "heap.rs",
                at(16, "(*span).init(mclass, pages);", "(*span).flags &= !FLAG_VIRGIN;", "virgin = false;"),
                at(16, "(*span).init(mclass, pages);", "virgin = true;"),
            )
        ],
        model=[(CLASS, "(c.zeroed && not (is_medium sh))", "c.zeroed")],
    ),
    Rule(
        "a done discard zeroes without bit 3",
        heap=[("sys/unix.rs", "zeroed: ok && dontneed_zeroes(),", "zeroed: ok,")],
        model=[
            (RELEASE, "use Rattle.words.specs.Host.{discard_zeroed}", "use Rattle.words.specs.Host.{discard_done}"),
            (RELEASE, "zeroed = discard_zeroed h", "zeroed = discard_done h"),
        ],
    ),
    Rule(
        "a cold span is answered as 1",
        heap=[
            ("heap.rs", "enum SpanFate {\n    Keep,\n", "enum SpanFate {\n    Keep,\n    Cold,\n"),
            (
                "heap.rs",
                at(12, "sys::discard(span.cast::<u8>(), span_bytes);", "SpanFate::Keep"),
                at(12, "sys::discard(span.cast::<u8>(), span_bytes);", "SpanFate::Cold"),
            ),
            ("heap.rs", at(8, "SpanFate::Keep => {}"), at(8, "SpanFate::Keep | SpanFate::Cold => {}")),
            ("compare/seams/parts.rs", "SpanFate::Keep => 0,", "SpanFate::Keep => 0,\\n        SpanFate::Cold => 1,"),
        ],
        model=[(DESTINATION, "fate_of sh ToCold = cond (is_medium sh) kept_fate 1", "fate_of sh ToCold = 1")],
    ),
    Rule(
        "virgin goes by the first page only",
        heap=[
            (
                "heap.rs",
                at(8, "if (*page).flags & FLAG_VIRGIN == 0 {", "    *virgin = false;", "}", "let before"),
                at(8, "if *count == 0 && (*page).flags & FLAG_VIRGIN == 0 {", "    *virgin = false;", "}", "let before"),
            )
        ],
        model=[(CLASS, "virgin = v && f.virgin;", "virgin = v;")],
        alike="a virgin page enters an empty list only, so it stands behind all others",
    ),
    Rule(
        "several pages' blocks stand in reverse page order",
        heap=[
            (
                "compare/src/oracle/mod.rs",
                at(8, "(words_of_chain(family, chain, count), virgin)"),
                at(
                    8,
                    "let mut pages: Vec<Vec<Word>> = Vec::new();",
                    "for word in words_of_chain(family, chain, count) {",
                    "    match pages.last_mut() {",
                    "        Some(page) if self.run_of(family, page[0]) == self.run_of(family, word) => page.push(word),",
                    "        _ => pages.push(vec![word]),",
                    "    }",
                    "}",
                    "pages.reverse();",
                    "(pages.concat(), virgin)",
                ),
            )
        ],
        model=[(CLASS, "blocks = f.blocks ++ x.blocks;", "blocks = x.blocks ++ f.blocks;")],
    ),
    limit(
        "5 empty pages",
        ("EMPTY_PAGE_CACHE_PER_CLASS: u32", "4", "5"),
        ("small", 0),
    ),
    limit(
        "128 cold pages",
        ("MAX_COLD_PAGE_SLOTS: usize", "256", "128"),
        ("small", 1),
    ),
    limit(
        "128 cold spans",
        ("MAX_COLD_SPAN_SLOTS: usize", "256", "128"),
        ("medium", 1),
    ),
    limit("16 empty spans", ("EMPTY_SPAN_CACHE_PER_CLASS: u32", "32", "16"), ("medium", 0)),
    Rule(
        "144 pages of empty spans",
        heap=[
            (
                "heap.rs",
                "const MAX_EMPTY_SPAN_BYTES_PER_CLASS: usize = 8 * 1024 * 1024;",
                "const MAX_EMPTY_SPAN_BYTES_PER_CLASS: usize = 9 * 1024 * 1024;",
            )
        ],
        model=[(SHAPE, "emptypages = 128", "emptypages = 144"), (SHAPE_CODE, "emptypages: 128", "emptypages: 144")],
    ),
    Rule(
        "rows give no more than document 01's limits",
        heap=[("compare/src/oracle/limits.rs", "given => given as usize,", "given => own.min(given as usize),")],
        model=[
            (DESTINATION, "◌*◌, Bool, true", "◌*◌, min, Bool, true"),
            (DESTINATION, "ltb e lim.empty &&", "ltb e (min lim.empty (cond (is_medium sh) 32 4)) &&"),
        ],
    ),
    Rule(
        "a row's two limits are exchanged",
        heap=[(PARKING, ".map(|row| [row[2], row[3]])", ".map(|row| [row[3], row[2]])")],
        model=[(ROWS, "row_limits r = limits r.empty r.cold", "row_limits r = limits r.cold r.empty")],
        crate="rules",
    ),
    Rule(
        "a limit of 257 passes",
        heap=[(PARKING, "pub const MOST: u32 = 256;", "pub const MOST: u32 = 257;")],
    ),
    Rule(
        "17 comes before 18",
        heap=[(PARKING, "} else if (0..CLASSES).any(|class| of(class) > 1) {", "} else if (0..CLASSES).all(|class| of(class) > 0) && (0..CLASSES).any(|class| of(class) > 1) {")],
        model=[(ROWS, "(cond (two_rows ws) 18 (cond (no_row ws) 17 0))", "(cond (no_row ws) 17 (cond (two_rows ws) 18 0))")],
        crate="rules",
    ),
    Rule(
        "a class above 75 passes",
        heap=[(PARKING, "row[1] >= CLASSES", "row[1] > CLASSES")],
        model=[(ROWS, "ltb r.last class_count", "leb r.last class_count")],
        crate="rules",
    ),
    Rule(
        "2,057 groups pass",
        heap=[
            ("compare/src/words.rs", "MAX_CHUNKS: usize = 2_056", "MAX_CHUNKS: usize = 2_057"),
            ("heap.rs", "MAX_PAGE_RELEASE_GROUPS: usize = 2056;", "MAX_PAGE_RELEASE_GROUPS: usize = 2057;"),
        ],
        model=[(CHUNKS, "chunks_max = 2056", "chunks_max = 2057")],
    ),
    Rule(
        "groups are treated in reverse order",
        heap=[
            (
                "heap.rs",
                at(12, "for (i, g) in chunks.iter().enumerate() {", "    let fate = if g.n"),
                at(12, "for (i, g) in chunks.iter().enumerate().rev() {", "    let fate = if g.n"),
            )
        ],
        model=[
            (
                CHUNKS,
                at(
                    4,
                    "let b = settle_chunk sh lim h s ws (locate (starts_at (page_of g)) s) in",
                    "let r = settle_chunks sh lim h ws b.class gs in",
                    "record { class = r.class;",
                ),
                at(
                    4,
                    "let r = settle_chunks sh lim h ws s gs in",
                    "let b = settle_chunk sh lim h r.class ws (locate (starts_at (page_of g)) r.class) in",
                    "record { class = b.class;",
                ),
            )
        ],
    ),
    Rule(
        "a group's chain is turned round",
        heap=[
            (
                "heap.rs",
                at(
                    24,
                    "if g.head.is_null() {",
                    "    g.head = cursor;",
                    "} else {",
                    "    *g.tail.cast::<*mut u8>() = cursor;",
                    "}",
                    "g.tail = cursor;",
                    "*cursor.cast::<*mut u8>() = ptr::null_mut();",
                ),
                at(
                    24,
                    "if g.head.is_null() {",
                    "    g.tail = cursor;",
                    "}",
                    "*cursor.cast::<*mut u8>() = g.head;",
                    "g.head = cursor;",
                ),
            )
        ],
        model=[
            (CHUNKS, "◌++◌, map, Bool", "◌++◌, map, reverse, Bool"),
            (CHUNKS, "true (blocks_on sh ws x.page) x", "true (reverse (blocks_on sh ws x.page)) x"),
        ],
    ),
    Rule(
        "a released list goes behind the free list",
        heap=[
            (
                "heap.rs",
                at(4, "*tail.cast::<*mut u8>() = (*page).free_head;", "(*page).free_head = head;"),
                at(
                    4,
                    "*tail.cast::<*mut u8>() = ptr::null_mut();",
                    "let mut link: *mut *mut u8 = &mut (*page).free_head;",
                    "while !(*link).is_null() {",
                    "    link = (*link).cast();",
                    "}",
                    "*link = head;",
                ),
            )
        ],
        model=[(PAGE, "free = ws ++ p.free;", "free = p.free ++ ws;")],
    ),
    Rule(
        "a page enters the partial list at its tail",
        heap=[
            (
                "heap.rs",
                at(4, "(*p).next = *list;", "if !(*list).is_null() {", "    (**list).prev = p;", "}", "*list = p;"),
                at(
                    4,
                    "(*p).next = ptr::null_mut();",
                    "let mut link: *mut *mut PageHeader = list;",
                    "while !(*link).is_null() {",
                    "    (*p).prev = *link;",
                    "    link = &mut (**link).next;",
                    "}",
                    "*link = p;",
                ),
            )
        ],
        model=[(RELEASE, "with = λ p. lists (p ∷ s.partial)", "with = λ p. lists (s.partial ++ p ∷ [])")],
    ),
    Rule(
        "empty pages come first in first out",
        denied=NOT_LAST_FIRST,
        heap=[
            (
                "heap.rs",
                at(8, "(*page).next = list.empty;", "list.empty = page;"),
                at(
                    8,
                    "(*page).next = ptr::null_mut();",
                    "let mut link: *mut *mut PageHeader = &mut list.empty;",
                    "while !(*link).is_null() {",
                    "    link = &mut (**link).next;",
                    "}",
                    "*link = page;",
                ),
            )
        ],
        model=[(RELEASE, "(p ∷ s.empty) s.cold", "(s.empty ++ p ∷ []) s.cold")],
    ),
    Rule(
        "cold pages come oldest first",
        heap=[
            (
                "heap.rs",
                at(16, "list.cold_len -= 1;", "let cidx = list.cold_len as usize;", "let page ="),
                at(
                    16,
                    "let all = list.cold_len as usize;",
                    "list.cold[..all].rotate_left(1);",
                    "list.cold_zeroed[..all].rotate_left(1);",
                    "list.cold_decommitted[..all].rotate_left(1);",
                    "list.cold_len -= 1;",
                    "let cidx = list.cold_len as usize;",
                    "let page =",
                ),
            )
        ],
        model=[
            (
                RELEASE,
                "(record { first = p.first; zeroed = discard_zeroed h } ∷ s.cold)",
                "(s.cold ++ record { first = p.first; zeroed = discard_zeroed h } ∷ [])",
            )
        ],
    ),
    Rule(
        "a run may have 2 to the 48th pages",
        heap=[("compare/src/words.rs", "RUN_LIMIT: u64 = 1 << 48;", "RUN_LIMIT: u64 = (1 << 48) + 1;")],
        model=[(HEAP, "leb (2 ^ 48) n", "ltb (2 ^ 48) n")],
    ),
    Rule(
        "a host word of 16",
        heap=[("compare/src/words.rs", "HOST_ALL: u32 = 15;", "HOST_ALL: u32 = 16;")],
        model=[(HOST, "host_max = 15", "host_max = 16"), (HOST_CODE, "pub const MOST: u32 = 15;", "pub const MOST: u32 = 16;")],
    ),
    Rule(
        "`contains` before the reservation",
        heap=[
            (
                "compare/src/oracle/mod.rs",
                "arena::contains(address(offset as usize), length as usize)",
                "offset.checked_add(length).is_some_and(|end| end <= u64::from(self.pages) * PAGE_BYTES as u64)",
            )
        ],
        model=[(ARENA, "contains size o b a = is_ready a.status && (", "contains size o b a = (")],
    ),
    Rule(
        "`contains` is no at the arena's end",
        heap=[("arena.rs", "start <= b && top <= end && b >= start", "start <= b && top <= end && b < end")],
        model=[(ARENA, "leb (o + b) (size * page_bytes))", "(leb (o + b) (size * page_bytes) && ltb o (size * page_bytes)))")],
    ),
    Rule(
        "the report's commits and reuses are exchanged",
        heap=[("compare/src/reference.rs", "let [commits, reuses, abandoned] =", "let [reuses, commits, abandoned] =")],
        model=[(HEAP, "commits = a.commits;\n  reuses = a.reuses", "commits = a.reuses;\n  reuses = a.commits")],
    ),
    Rule(
        "the report's reuses and abandoned are exchanged",
        heap=[("compare/src/reference.rs", "let [commits, reuses, abandoned] =", "let [commits, abandoned, reuses] =")],
        model=[(HEAP, "reuses = a.reuses;\n  abandoned = a.abandoned", "reuses = a.abandoned;\n  abandoned = a.reuses")],
    ),
    Rule(
        "the report's held and idle pages are exchanged",
        heap=[
            (
                "compare/src/reference.rs",
                "self.ledger.held(), original.idle_pages()",
                "original.idle_pages(), self.ledger.held()",
            )
        ],
        model=[
            (
                HEAP,
                "held = held;\n  idle = a.store.total + (size - a.frontier) + parked",
                "held = a.store.total + (size - a.frontier) + parked;\n  idle = held",
            )
        ],
    ),
    Rule(
        "cold pages are not idle",
        heap=[
            (
                "compare/seams/heap.rs",
                "list.empty_count as usize + list.cold_bytes / PAGE_SIZE",
                "list.empty_count as usize",
            )
        ],
        model=[(HEAP, "parked_runs s = length s.empty + length s.cold", "parked_runs s = length s.empty")],
    ),
    Rule(
        "a parked span is one idle page",
        heap=[
            (
                "compare/seams/heap.rs",
                "(list.empty_bytes + list.cold_bytes) / PAGE_SIZE",
                "(list.empty_count + list.cold_len) as usize",
            )
        ],
        model=[(HEAP, "runs c * (shape_of c).pages", "runs c")],
    ),
    Rule(
        "of equal holes the lowest index",
        heap=[(OURS, "min_by_key(|&i| (self.entries[i].1, self.entries[i].0))", "min_by_key(|&i| self.entries[i].1)")],
        model=[(HOLES, "&& leb h.first g.first", "")],
    ),
    Rule(
        "of equal holes the highest page",
        heap=[(OURS, "(self.entries[i].1, self.entries[i].0))", "(self.entries[i].1, std::cmp::Reverse(self.entries[i].0)))")],
        model=[(HOLES, "leb h.first g.first", "leb g.first h.first")],
    ),
    Rule(
        "the lowest page of all that suffice",
        heap=[(OURS, "(self.entries[i].1, self.entries[i].0))", "self.entries[i].0)")],
        model=[(HOLES, "ltb h.pages g.pages || eqb h.pages g.pages && leb h.first g.first", "leb h.first g.first")],
    ),
    Rule(
        "the holes behind a used-up one move up",
        alike="the order of the holes shows in no answer (`orderless`); the row and the book's words hold it",
        heap=[(OURS, "holes.entries[i] = holes.entries[holes.len];", "let last = holes.len;\n            holes.entries.copy_within(i + 1..last + 1, i);")],
        model=[
            (
                HOLES,
                "remove_at i hs = set_at i (last_hole hs) (without_last hs)",
                "remove_at i [] = []\nremove_at zero (h ∷ hs) = hs\nremove_at (suc i) (h ∷ hs) = h ∷ remove_at i hs",
            )
        ],
    ),
    Rule(
        "a cut hole goes to the end",
        alike="the order of the holes shows in no answer (`orderless`); the row and the book's words hold it",
        heap=[
            (
                OURS,
                "holes.entries[i] = (off + pages * ARENA_ALIGN, length - pages);",
                "let last = holes.len - 1;\n            holes.entries[i] = holes.entries[last];\n"
                "            holes.entries[last] = (off + pages * ARENA_ALIGN, length - pages);",
            )
        ],
        model=[
            (
                HOLES,
                "(store (set_at i (hole (x.first + n) (x.pages - n)) s.holes) (s.total - n))",
                "(store (remove_at i s.holes ++ hole (x.first + n) (x.pages - n) ∷ []) (s.total - n))",
            )
        ],
    ),
    Rule(
        "4,095 holes",
        heap=[("arena.rs", "HOLE_SLOTS: usize = 4096;", "HOLE_SLOTS: usize = 4095;")],
        model=[(LIMITS, "hole_slots = 4096", "hole_slots = 4095")],
    ),
    Rule(
        "a total of just 65,536 pages is abandoned",
        heap=[(OURS, "<= HOLE_CAP_BYTES", "< HOLE_CAP_BYTES")],
        model=[(HOLES, "leb (s.total + n) hole_pages_max", "ltb (s.total + n) hole_pages_max")],
    ),
    Rule(
        "a repeat is 10",
        heap=[(LEDGER, "return Some(15);", "return Some(10);")],
        model=[(file, REPEATED, "(cond (repeats sh s ws) (refuse s 10)") for file in (RELEASE, CHUNKS)],
    ),
    Rule(
        "a block that is not out comes before a repeat",
        heap=[(LEDGER, "if self.count_out(id, &twice) > 0 {", "if self.count_out(id, &twice) > 0 && words.iter().all(|&word| self.count_out(id, &[word]) == 1) {")],
        model=[(file, f"{REPEATED}\n    {FOREIGN}", f"{FOREIGN}\n    {REPEATED}") for file in (RELEASE, CHUNKS)],
    ),
    Rule(
        "a repeat of a block that is not out is 15",
        heap=[(LEDGER, "if self.count_out(id, &twice) > 0 {", "if !twice.is_empty() {")],
        model=[(RELEASE, "not (distinct (filter (out_here sh s) ws))", "not (distinct ws)")],
    ),
    Rule(
        "a repeat comes after 11",
        heap=[
            (
                LEDGER,
                "self.block_refusal(family, class, list)\n",
                "self.block_refusal(family, class, list)\n"
                ".map(|number| match list.iter().all(|word| self.run.get(page_of(*word) as usize) == self.run.get(page_of(list[0]) as usize)) {\n"
                "    true => number,\n"
                "    false => number.min(11),\n"
                "})\n",
            )
        ],
        model=[
            (RELEASE, f"    {REPEATED}\n", ""),
            (RELEASE, "(on_page sh lim h s ws (site_of_first sh s ws)))))", "(on_page sh lim h s ws (site_of_first sh s ws))))"),
            (RELEASE, "    (let b = settle sh lim h false ws x in done", f"    {REPEATED}\n    (let b = settle sh lim h false ws x in done"),
            (RELEASE, "gives = b.gives }))\n    (refuse s 11)", "gives = b.gives })))\n    (refuse s 11)"),
        ],
    ),
    Rule(
        "holes that touch stay apart",
        heap=[(OURS, "((0..self.len).find(ends), (0..self.len).find(starts))", "(None, None)")],
        model=[(HOLES, "(place n q s.holes (hole_before q s.holes) (hole_after (q + n) s.holes))", "(place n q s.holes none none)")],
    ),
    Rule(
        "a run joins the hole before it alone",
        heap=[(OURS, "(0..self.len).find(starts))", "None)")],
        model=[(HOLES, "(hole_after (q + n) s.holes)) (s.total + n)", "none) (s.total + n)")],
    ),
    Rule(
        "a run joins the hole after it alone",
        heap=[(OURS, "((0..self.len).find(ends),", "(None,")],
        model=[(HOLES, "(place n q s.holes (hole_before q s.holes)", "(place n q s.holes none")],
    ),
    Rule(
        "a run that joins needs a slot",
        heap=[(OURS, "(None, None) if self.len >= HOLE_SLOTS", "_ if self.len >= HOLE_SLOTS")],
        model=[(HOLES, "is_some b || is_some c || ltb (length hs) hole_slots", "ltb (length hs) hole_slots")],
    ),
    Rule(
        "a run that joins may pass 65,536 pages",
        heap=[(OURS, "if !self.has_room(pages) {", "if !self.has_room(pages) && self.touching(off, pages) == (None, None) {")],
        model=[(HOLES, "accepts n q s = leb (s.total + n) hole_pages_max &&", "accepts n q s = (leb (s.total + n) hole_pages_max || is_some (hole_before q s.holes)) &&")],
    ),
    Rule(
        "the joined hole stands at the index of the one after",
        alike="the order of the holes shows in no answer (`orderless`); the row and the book's words hold it",
        heap=[
            (OURS, "self.entries[before].1 += pages + self.entries[after].1;", "self.entries[after] = (self.entries[before].0, self.entries[before].1 + pages + self.entries[after].1);"),
            (OURS, "self.entries[after] = self.entries[last];", "self.entries[before] = self.entries[last];"),
        ],
        model=[(HOLES, "remove_at j (set_at i (with_both", "remove_at i (set_at j (with_both")],
    ),
    Rule(
        "a block's granule is cut to 30 bits",
        heap=[
            (
                "compare/src/stand_in.rs",
                at(8, "_ => slice::from_raw_parts(words, len).to_vec(),"),
                at(
                    8,
                    "_ => {",
                    "    let mut list = slice::from_raw_parts(words, len).to_vec();",
                    "    let cut = |word: Word| if word >> 62 == 3 { word } else { word & (3 << 62 | 0x3FFF_FFFF) };",
                    "    if size_of::<T>() == size_of::<Word>() {",
                    "        slice::from_raw_parts_mut(list.as_mut_ptr().cast::<Word>(), len).iter_mut().for_each(|word| *word = cut(*word));",
                    "    }",
                    "    list",
                    "}",
                ),
            )
        ],
        model=[(WORD, "granule_of w = w % 2 ^ kind_bits", "granule_of w = w % 2 ^ 30")],
    ),
    Rule(
        "a group's page is cut to 18 bits",
        heap=[(WORDS, "word & ((1 << CHUNK_PAGE_BITS) - 1)", "word & ((1 << 18) - 1)")],
        model=[(WORD, "page_of w = w % 2 ^ page_bits", "page_of w = w % 2 ^ 18")],
    ),
    Rule(
        "1,048,577 pages open",
        heap=[(WORDS, "MAX_PAGES: u32 = 1_048_576;", "MAX_PAGES: u32 = 1_048_577;")],
    ),
    # The statements told from the history (docs/MODEL.md, "Statements"): what is at hand, virgin, the reservation, the counts, the groups'
    # runs and the sources.
    Rule(
        "free blocks of a carved page leave the list",
        denied=not_offered(70),
        heap=[
            unlinked_where("(*page).used as usize + (*page).free_count as usize >= (*page).capacity()"),
        ],
        model=[
            (
                CLASS,
                "stays sh p = has_more sh p",
                "stays sh p = cond (is_medium sh) (has_more sh p) (has_more sh (record { first = p.first; free = []; carved = p.carved; virgin = p.virgin; retired = p.retired }))",
            )
        ],
    ),
    Rule(
        "a page with one block left leaves the list",
        denied=not_offered(65),
        heap=[
            unlinked_where("(*page).free_count == 1 && (*page).used as usize + 1 >= (*page).capacity()"),
            (
                "heap.rs",
                at(16, "if (*span).free_count == 0 {", "    munlink_partial(list, span);"),
                at(16, "if (*span).free_count == 0 || (*span).free_count == 1 && *count == cap {", "    munlink_partial(list, span);"),
            ),
        ],
        model=[
            (
                CLASS,
                "stays sh p = has_more sh p",
                "stays sh p = has_more sh (record { first = p.first; free = drop 1 p.free; carved = p.carved; virgin = p.virgin; retired = p.retired })",
            )
        ],
    ),
    Rule(
        "a group release keeps virgin on a page with more to yield",
        denied=NOT_VIRGIN,
        heap=[
            (
                "heap.rs",
                at(
                    16,
                    "} else {",
                    "    release_inner(",
                    "        &mut list,",
                    "        g.page,",
                    "        g.head,",
                    "        g.tail,",
                    "        g.n & !PAGE_RELEASE_RETIRED,",
                    "    )",
                    "};",
                ),
                at(
                    16,
                    "} else {",
                    "    let listed = (*g.page).flags & FLAG_IN_PARTIAL != 0;",
                    "    let virgin = (*g.page).flags & FLAG_VIRGIN;",
                    "    let fate = release_inner(&mut list, g.page, g.head, g.tail, g.n & !PAGE_RELEASE_RETIRED);",
                    "    if listed {",
                    "        (*g.page).flags |= virgin;",
                    "    }",
                    "    fate",
                    "};",
                ),
            )
        ],
        model=[
            (RELEASE, "Bool, false, cond, not, eqb", "Bool, false, cond, not, ◌&&◌, eqb"),
            (RELEASE, "{Page, is_out, none_out, returned, retire}", "{Page, is_out, none_out, has_more, returned, retire}"),
            (
                RELEASE,
                "(record { class = x.with (returned ws x.page); fate",
                "(record { class = x.with (record { first = x.page.first; free = ws ++ x.page.free; carved = x.page.carved; "
                "virgin = retires && (has_more sh x.page && x.page.virgin); retired = false }); fate",
            ),
        ],
    ),
    Rule(
        "a commit longer than the arena does not ask",
        denied=not_reserved("commit 15 9"),
        heap=[
            (
                "arena.rs",
                at(8, "if !self.ensure_init() {", "    return (ptr::null_mut(), false);"),
                at(8, "if len > self.size || !self.ensure_init() {", "    return (ptr::null_mut(), false);"),
            )
        ],
        model=[
            (
                ARENA,
                "commit_as size h n a unasked = cond (reservation_granted h)",
                "commit_as size h n a unasked = cond (ltb size n) (given a none false) (cond (reservation_granted h)",
            ),
            (ARENA, "(given (with_status disabled a) none false)", "(given (with_status disabled a) none false))"),
        ],
    ),
    Rule(
        "a take that is refused the reservation leaves it to be asked for again",
        denied=not_reserved("take_blocks 45 14 (lent 64)"),
        heap=[
            ("heap.rs", "let (base, fresh) = crate::arena::commit(pages);", "let (base, fresh) = crate::arena::commit_for_take(pages);"),
            (
                "arena.rs",
                "/// Membership test for the unmap-vs-return decision.\n",
                at(
                    0,
                    "pub(crate) unsafe fn commit_for_take(pages: usize) -> (*mut u8, bool) {",
                    "    let unasked = ARENA.state.load(Ordering::Acquire) == 0;",
                    "    let given = ARENA.commit(pages);",
                    "    if unasked && ARENA.state.load(Ordering::Acquire) == 2 {",
                    "        ARENA.state.store(0, Ordering::Release);",
                    "    }",
                    "    given",
                    "}",
                    "",
                ),
            ),
        ],
        model=[
            (HEAP, "use Rattle.model.specs.Arena as Arenas\n", "use Rattle.words.specs.Host.{reservation_granted}\nuse Rattle.model.specs.Arena as Arenas\n"),
            (
                HEAP,
                "offer size h a (asks n k) = Arenas.commit size h n a",
                "offer size h a (asks n k) = cond (reservation_granted h || Arenas.is_ready a.status) (Arenas.commit size h n a) (given a none false)",
            ),
        ],
    ),
    Rule(
        "`contains` goes up to the frontier",
        denied=NOT_CONTAINED,
        heap=[("arena.rs", "start <= b && top <= end && b >= start", "start <= b && top <= start + self.bump.load(Ordering::Relaxed)")],
        model=[(ARENA, "leb (o + b) (size * page_bytes))", "leb (o + b) (a.frontier * page_bytes))")],
    ),
    Rule(
        "a growth is no commit",
        denied=NOT_COUNTED,
        heap=[
            (
                "arena.rs",
                at(8, "if self.commit_range(added_base as usize, new_len - old_len) {", "    self.commits.fetch_add(1, Ordering::Relaxed);"),
                at(8, "if self.commit_range(added_base as usize, new_len - old_len) {"),
            )
        ],
        model=[(ARENA, "grown (counted true b) true", "grown b true")],
    ),
    Rule(
        "the counts are kept modulo 2 to the 32nd",
        alike="in a history of fewer than 2 to the 32nd commits; the book's words hold it",
        heap=[
            ("arena.rs", f"self.{count}.load(Ordering::Relaxed) as u64", f"self.{count}.load(Ordering::Relaxed) as u32 as u64")
            for count in ("commits", "reuses", "abandoned")
        ],
        model=[(ARENA, "more n = (n + 1) % 2 ^ 64", "more n = (n + 1) % 2 ^ 32")],
    ),
    Rule(
        "groups give their runs in reverse order",
        denied=not_given(0),
        heap=[
            (
                "heap.rs",
                at(
                    8,
                    "for (g, slot) in chunks.iter().zip(fate_storage.iter_mut()) {",
                    "    // Safe: every `0..chunks.len()` slot was written just above,",
                    "    // under the same iteration bound.",
                    "    let fate = unsafe { slot.assume_init() };",
                    "    act_page_fate(g.page, fate);",
                    "}",
                ),
                at(
                    8,
                    "for (g, slot) in chunks.iter().zip(fate_storage.iter_mut()).rev() {",
                    "    if let PageFate::Unmap = slot.assume_init() {",
                    "        crate::arena::release(g.page.cast::<u8>(), 1);",
                    "    }",
                    "}",
                    "for (_, slot) in chunks.iter().zip(fate_storage.iter_mut()) {",
                    "    super::super::fates::push(match slot.assume_init() {",
                    "        PageFate::Keep => 0,",
                    "        PageFate::Cold => 1,",
                    "        PageFate::Unmap => 2,",
                    "    });",
                    "}",
                ),
            )
        ],
        model=[(CHUNKS, "gives = b.gives ++ r.gives", "gives = r.gives ++ b.gives")],
    ),
    Rule(
        "groups' fates stand in reverse order",
        denied=not_given(1),
        heap=[
            (
                "compare/src/oracle/mod.rs",
                "made.chunks.iter().zip(fates).map(|(chunk, fate)| if retired(chunk) { fate + 4 } else { fate }).collect()",
                "made.chunks.iter().zip(fates).map(|(chunk, fate)| if retired(chunk) { fate + 4 } else { fate }).rev().collect()",
            )
        ],
        model=[(CHUNKS, "fates = b.fate ∷ r.fates;", "fates = r.fates ++ b.fate ∷ [];")],
    ),
    Rule(
        "an empty page comes before the partial ones",
        denied=NOT_PARTIAL_FIRST,
        heap=[
            (
                "heap.rs",
                at(
                    12,
                    "let mut list = self.classes[class].lock();",
                    "fill_from_list(&mut list.head, &mut chain, &mut count, &mut virgin);",
                ),
                at(
                    12,
                    "let mut list = self.classes[class].lock();",
                    "if list.empty.is_null() {",
                    "    fill_from_list(&mut list.head, &mut chain, &mut count, &mut virgin);",
                    "}",
                ),
            ),
            (
                "heap.rs",
                at(
                    12,
                    "let mut list = self.classes[mclass].lock();",
                    "mfill_from_list(",
                    "    &mut list.head,",
                    "    &mut chain,",
                    "    &mut count,",
                    "    &mut virgin,",
                    "    refill_cap,",
                ),
                at(
                    12,
                    "let mut list = self.classes[mclass].lock();",
                    "let none_empty = list.empty.is_null();",
                    "mfill_from_list(",
                    "    &mut list.head,",
                    "    &mut chain,",
                    "    &mut count,",
                    "    &mut virgin,",
                    "    if none_empty { refill_cap } else { 0 },",
                ),
            ),
        ],
        model=[
            (
                CLASS,
                FROM_PARTIAL,
                "take_from sh l ps (e ∷ es) cs fs = done (served l (fill_from_list sh sh.batch (reused sh e ∷ ps)) es cs fs)",
            ),
            (
                CLASS,
                FROM_EMPTY,
                "take_from sh l (p ∷ ps) [] cs fs = done (served l (fill_from_list sh sh.batch (p ∷ ps)) [] cs fs)",
            ),
        ],
    ),
    Rule(
        "a cold page comes before the empty ones",
        denied=NOT_EMPTY_FIRST,
        heap=empty_where("count == 0 && list.cold_len == 0", "count == 0 && list.cold_len == 0"),
        model=[
            (
                CLASS,
                FROM_EMPTY,
                "take_from sh l [] es (c ∷ cs) fs = done (served l (fill_from_list sh sh.batch (thawed sh c ∷ [])) es cs fs)",
            ),
            (
                CLASS,
                "take_from sh l [] [] (c ∷ cs) fs = done (served l (fill_from_list sh sh.batch (thawed sh c ∷ [])) [] cs fs)",
                "take_from sh l [] (e ∷ es) [] fs = done (served l (fill_from_list sh sh.batch (reused sh e ∷ [])) es [] fs)",
            ),
        ],
    ),
    Rule(
        "an empty page comes after partial ones that did not fill the list",
        denied=NOT_PARTIAL_FIRST,
        heap=empty_where("count < REFILL_BATCH", "count < refill_cap"),
        model=[
            (CLASS, "not, ◌&&◌, eqb, length", "not, ◌&&◌, eqb, ltb, length"),
            (
                CLASS,
                FROM_PARTIAL + "\n",
                "take_from sh l (p ∷ ps) [] cs fs = done (served l (fill_from_list sh sh.batch (p ∷ ps)) [] cs fs)\n"
                "take_from sh l (p ∷ ps) (e ∷ es) cs fs =\n"
                "    cond (ltb (length (fill_from_list sh sh.batch (p ∷ ps)).blocks) sh.batch)\n"
                "    (done (served l (fill_from_list sh sh.batch ((p ∷ ps) ++ reused sh e ∷ [])) es cs fs))\n"
                "    (done (served l (fill_from_list sh sh.batch (p ∷ ps)) (e ∷ es) cs fs))\n",
            ),
        ],
    ),
    Rule(
        "an ungranted run from the frontier is lost",
        heap=[
            (
                "arena.rs",
                at(20, "self.holes_give(base as *mut u8, pages);", "return (ptr::null_mut(), false);"),
                at(20, "return (ptr::null_mut(), false);"),
            )
        ],
        model=[(ARENA, "(given (give n q a) none false)", "(given (cond f a (give n q a)) none false)")],
    ),
    Rule(
        "after an ungranted growth the frontier goes back",
        heap=[
            (
                "arena.rs",
                "self.holes_give(added_base, new_pages - old_pages);",
                "self.bump.store(old_end, Ordering::Release);",
            )
        ],
        model=[(ARENA, "(grown (give n e b) false)", "(grown a false)")],
    ),
    # What a word may hold shows in no history: the table of ranges has it, and editor/tests/boundaries/ranges.rs.
    Rule("VIRGIN up to 7", model=[(RANGES, "(virgin_flag p) = up_to 1", "(virgin_flag p) = up_to 7")], crate="demands"),
    Rule("LISTED up to 9", model=[(RANGES, "(listed_flag p) = up_to 1", "(listed_flag p) = up_to 9")], crate="demands"),
]


def run(command, folder, **more):
    """What a command says, both streams; one that does not end in time has status 124."""
    try:
        return subprocess.run(command, cwd=folder, text=True, stdout=subprocess.PIPE, stderr=subprocess.STDOUT, **more)
    except subprocess.TimeoutExpired:
        return subprocess.CompletedProcess(command, 124, stdout="")


class Edited:
    """Files with changes, as they were again afterwards."""

    def __init__(self, place, changes):
        self.place, self.changes, self.before = place, changes, {}

    def __enter__(self):
        try:
            for name, old, new in self.changes:
                path = self.place(name)
                text = path.read_text()
                if text.count(old) != 1:
                    raise SystemExit(f"{name}: {text.count(old)} places, not 1, for:\n{old}")
                self.before.setdefault(path, text)
                path.write_text(text.replace(old, new))
        except BaseException:
            self.__exit__()
            raise

    def __exit__(self, *_):
        for path, text in self.before.items():
            path.write_text(text)


class Heaps:
    """Stand-ins built from copies of the original and of this tool."""

    def __init__(self, work, stored):
        self.work, self.library, self.stored = work, work / "library", stored
        self.original, self.tool = work / "original", work / "compare"
        shutil.copytree(ORIGINAL, self.original, dirs_exist_ok=True)
        shutil.copytree(ROOT / "compare", self.tool, dirs_exist_ok=True, ignore=shutil.ignore_patterns("target"))
        self.library.mkdir(exist_ok=True)

    def place(self, name):
        return self.work / name if name.startswith("compare/") else self.original / name

    def build(self):
        quick = {"CARGO_PROFILE_DEV_OPT_LEVEL": "0", "CARGO_PROFILE_DEV_DEBUG": "false"}
        settings = dict(os.environ, VIGBUSO_ORIGINAL=str(self.original), **quick)
        built = run(["cargo", "build", "--offline", "--lib"], self.tool, env=settings)
        if built.returncode != 0:
            raise SystemExit(built.stdout)
        shutil.copy(self.tool / "target/debug/libstand_in.so", self.library / "libvigbuso.so")

    def build_tests(self):
        tests = ROOT / "editor/tests/boundaries/main.rs"
        command = ["rustc", "--edition", "2021", "--test", "-L", f"native={self.library}", "-o", "boundaries", tests]
        built = run(command, self.work)
        if built.returncode != 0:
            raise SystemExit(built.stdout)

    def replay(self):
        """The first stored answer that differs, or nothing."""
        command = [sys.executable, __file__, "--replay", self.library / "libvigbuso.so", "--stored", self.stored]
        answer = run(command, self.work, timeout=600)
        if answer.returncode == 0:
            return ""
        return answer.stdout.strip().splitlines()[0] if answer.returncode == 1 else f"status {answer.returncode}"

    def boundaries(self):
        """The boundary tests that fail."""
        settings = dict(os.environ, LD_LIBRARY_PATH=str(self.library))
        # The stand-in's book has no words but one, and these look at others.
        skipped = [word for test in BOOK_TESTS for word in ("--skip", test)]
        answer = run([self.work / "boundaries", *skipped], self.work, env=settings, timeout=600)
        failed = re.findall(r"^test (\S+) \.\.\. FAILED", answer.stdout, re.M)
        return failed if failed or answer.returncode == 0 else [f"status {answer.returncode}"]


def replay(library, stored):
    return ctypes.CDLL(library).stand_in_replay(str(stored).encode())


class Models:
    """A copy of the crates. What `rt check` kept in the repository, a check of the copy begins with."""

    def __init__(self, work):
        self.folder = work / "model"
        # A module may be called out too.
        kept = lambda folder, names: {"out"} & set(names) if "src" in names else set()
        shutil.copytree(ROOT / "crates", self.folder / "crates", dirs_exist_ok=True, ignore=kept)
        shutil.copy(ROOT / "crates.txt", self.folder)

    def place(self, name):
        return self.folder / name

    def check(self, crate):
        """What `rt check` refuses, by name; what only rests on it is left out."""
        answer = run(["rt", "check"], self.place(f"crates/{crate}"))
        errors = re.findall(r"error: `([^`]+)`: (.*)", answer.stdout)
        names = dict.fromkeys(name for name, why in errors if "not admitted" not in why)
        if answer.returncode == 0 or names:
            return list(names)
        return answer.stdout.strip().splitlines()[-1:]

    def denies(self, proof):
        """Whether the checker takes a proof of `denied`."""
        lib, file = self.place(f"{PROOFS}/Lib.antt"), self.place(f"{PROOFS}/Denied.antt")
        before = lib.read_text()
        try:
            lib.write_text(before + "pub mod Denied\n")
            file.write_text(DENIED + proof.replace("UNFOLDING", UNFOLDING).lstrip())
            answer = run(["rt", "check"], self.place("crates/model"))
        finally:
            lib.write_text(before)
            file.unlink(missing_ok=True)
        names = set(re.findall(r"Denied\.antt:\d+:\d+: error: `([^`]+)`", answer.stdout))
        if "control" not in names:
            raise SystemExit(answer.stdout)
        return names == {"control"}


def try_heaps(rules, work, stored):
    heaps = Heaps(work, stored)
    heaps.build()
    heaps.build_tests()
    plain = heaps.replay(), heaps.boundaries()
    print(f"the original as it is: {'nothing differs' if plain == ('', []) else plain}", flush=True)
    good = plain == ("", [])
    for rule in rules:
        if not rule.heap:
            continue
        with Edited(heaps.place, rule.heap):
            heaps.build()
            answer, tests = heaps.replay(), heaps.boundaries()
        print(rule.name)
        print(f"    stored: {answer[:150] or 'nothing differs'}")
        print(f"    tests: {', '.join(tests) or 'none fails'}", flush=True)
        if not answer and not tests:
            print(f"    {'answers alike: ' + rule.alike if rule.alike else 'NOT NOTICED'}", flush=True)
        good &= bool(answer or tests) != bool(rule.alike)
    return good


def try_models(rules, work):
    models = Models(work)
    good = True
    for rule in rules:
        if not rule.model:
            continue
        statement, proof = rule.denied or ("", "")
        with Edited(models.place, rule.model):
            refused = models.check(rule.crate)
            false = bool(proof) and models.denies(proof)
        print(f"{rule.name}\n    {rule.crate}: {', '.join(refused) or 'NOT NOTICED'}", flush=True)
        good &= bool(refused)
        if proof:
            # Of the definitions as they are, nothing of the kind is taken.
            false = false and not models.denies(proof)
            print(f"    {statement}: {'false of it' if false else 'NOT DENIED'}", flush=True)
            good &= false
    return good


def main():
    arguments = argparse.ArgumentParser(description=__doc__, formatter_class=argparse.RawDescriptionHelpFormatter)
    arguments.add_argument("--heap", action="store_true", help="heaps only")
    arguments.add_argument("--model", action="store_true", help="definitions only")
    arguments.add_argument("--work", type=pathlib.Path, help="a folder that is kept; the default is a temporary one")
    arguments.add_argument("--stored", type=pathlib.Path, default=ROOT / "crates/replay/stdin", help="other histories")
    arguments.add_argument("--replay", metavar="LIBRARY", help=argparse.SUPPRESS)
    arguments.add_argument("words", nargs="*")
    asked = arguments.parse_args()
    if asked.replay:
        return replay(asked.replay, asked.stored)
    rules = [rule for rule in RULES if not asked.words or any(word in rule.name for word in asked.words)]
    with tempfile.TemporaryDirectory() as temporary:
        work = (asked.work or pathlib.Path(temporary)).resolve()
        work.mkdir(parents=True, exist_ok=True)
        good = asked.model or try_heaps(rules, work, asked.stored.resolve())
        good &= asked.heap or try_models(rules, work)
    return 0 if good else 1


if __name__ == "__main__":
    sys.exit(main())
