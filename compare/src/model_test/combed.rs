//! Histories at the limit of 4,096 holes. The checker cannot compute the thousands of calls that lead there, so that the
//! heap after them is written down, and the calls from then on are computed. Where there are few holes it is computed
//! too that the calls lead to this heap, and that histories from an opening and from it answer alike.

use super::{equations, names, Case};
use crate::call::Due;
use crate::call::{Answer, Call};
use crate::generate::{self, HOLE_LIMIT};
use crate::history::History;
use crate::plan::{Intent, Plan, Step};
use crate::random::Random;
use crate::run;
use crate::words::HOST_ALL;

/// Pages above the frontier when the holes are there.
const ABOVE: u32 = 20;
/// The comb that is computed.
const FEW: Comb = Comb { holes: 24, frontier: 108 };

/// The heap that a history starts from.
#[derive(Clone, Copy)]
pub struct Comb {
    holes: u32,
    frontier: u32,
}

/// The calls that lead to the comb.
fn prefix(Comb { holes, frontier }: Comb) -> Vec<Step> {
    let step = |intent| Step { intent, host: HOST_ALL, chance: 0 };
    let gives = (0..u64::from(holes)).map(|hole| step(Intent::ReleaseAt { first: 1 + 2 * hole, pages: 1 }));
    std::iter::once(step(Intent::Commit { pages: u64::from(frontier) })).chain(gives).collect()
}

/// A history from a comb a few holes short of the limit, so that the next gives reach it; and one with few holes,
/// from an opening and from its comb.
pub fn cases(random: &mut Random, steps: usize) -> [Case; 3] {
    let short = random.below(4) as u32;
    let [opened, combed] = recorded(random, FEW, steps);
    let holes = HOLE_LIMIT as u32 - short;
    let [_, limit] = recorded(random, Comb { holes, frontier: 2 * holes + 60 }, steps);
    [opened, combed, limit]
}

/// The history from an opening, and its part from the comb on.
fn recorded(random: &mut Random, comb: Comb, steps: usize) -> [Case; 2] {
    let mut plan = Plan { scenario: "comb", pages: comb.frontier + ABOVE, rows: Vec::new(), steps: prefix(comb) };
    plan.steps.extend(generate::at_hole_limit(random, u64::from(2 * comb.holes + 2), steps));
    let calls = run::record(&plan, |_| true);
    let (before, after) = calls.split_at(comb.holes as usize + 1);
    assert!(before.iter().all(leads), "the calls that lead to the comb answer as they must");
    let history = |calls: &[Due]| History { pages: plan.pages, rows: Vec::new(), calls: calls.to_vec() };
    [Case { start: None, history: history(&calls) }, Case { start: Some(comb), history: history(after) }]
}

impl Comb {
    pub fn term(self) -> String {
        format!("(combed {} {})", self.frontier, self.holes)
    }
}

fn leads((call, answer): &Due) -> bool {
    match (call, answer) {
        (Call::Commit { .. }, Answer::Run { first, fresh }) => *first == 0 && *fresh,
        (Call::Release { .. }, Answer::Released) => true,
        _ => false,
    }
}

/// The module that writes the comb down, and computes one with few holes from its calls.
pub fn module(own_crate: &str) -> String {
    let plan = Plan { scenario: "comb", pages: FEW.frontier + ABOVE, rows: Vec::new(), steps: prefix(FEW) };
    let calls: Vec<Call> = run::record(&plan, |_| true).into_iter().map(|(call, _)| call).collect();
    let computed = format!(
        "(Histories.{heap_from} {pages} (Heaps.{new_heap} {plain}) calls)",
        heap_from = names::HEAP_FROM,
        new_heap = names::NEW_HEAP,
        plain = names::PLAIN_RULES,
        pages = plan.pages,
    );
    let written = FEW.term();
    let pages: Vec<String> = (0..plan.pages).map(|page| page.to_string()).collect();
    let laws: String = names::COMPARED
        .iter()
        .enumerate()
        .map(|(number, part)| {
            let sides = [&computed, &written].map(|heap| part.replace("{}", heap));
            format!(
                "\nsame{number} : {} ≡ {}\nunfolding computed combed calls pages comb\nsame{number} = refl\n",
                sides[0], sides[1]
            )
        })
        .collect();
    format!(
        "-- A heap with many holes, and that the calls which lead to one with {holes} holes lead there. Assumes nothing.\n\
         use Prim.Native.Nat.{{ℕ, zero, suc, ◌+◌, ◌-◌, ◌*◌, ◌%◌}}\n\
         use mathlib.Core.Path.{{◌≡◌, refl}}\n\
         use mathlib.Core.List.{{List, [], ◌∷◌, map}}\n\
         use mathlib.Core.Bool.{{Bool, true, false, cond, not, ◌&&◌}}\n\
         use lib.Dec.{{eqb, ltb}}\n\
         use Rattle.{model}.specs.{calls_module}.{{{call_type}}}\n\
         use Rattle.{model}.specs.{history} as Histories\n\
         use Rattle.{model}.specs.{heap} as Heaps\n\
         {uses}\
         use Rattle.{own_crate}.proofs.Answers.{{computed}}\n\n\
         {combed}\n\
         calls : List {call_type}\ncalls = {calls}\n\n\
         pages : List ℕ\npages = {pages}\n{laws}",
        holes = FEW.holes,
        model = names::CRATE,
        calls_module = names::CALLS_MODULE,
        call_type = names::CALL_TYPE,
        history = names::HISTORY_MODULE,
        heap = names::HEAP_MODULE,
        uses = names::COMBED_USES,
        combed = names::COMBED,
        calls = equations::calls_term(&calls),
        pages = equations::list_of(&pages, " "),
    )
}
