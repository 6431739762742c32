//! A history as an equation of the model: the answers that it computes are the original's.

use std::fmt::Display;

use super::names;
use crate::call::{Answer, Call, Lent};
use crate::history::History;

/// The text of a module that states and proves one history from an opening.
pub fn module(own_crate: &str, history: &History) -> String {
    stated(own_crate, history, "Answers.{computed}", &format!("computed {}", words(&history.rows)))
}

/// The same by document 01's own hole store.
pub fn module_original(own_crate: &str, history: &History) -> String {
    stated(own_crate, history, "Answers.{computed_original}", "computed_original")
}

/// The same from a heap that the module `Combed` writes down.
pub fn module_from(own_crate: &str, history: &History, start: &str) -> String {
    let uses = format!("Answers.{{computed_from}}\nuse Rattle.{own_crate}.proofs.Combed.{{combed}}");
    stated(own_crate, history, &uses, &format!("computed_from {start}"))
}

fn stated(own_crate: &str, history: &History, used: &str, computed: &str) -> String {
    let calls: Vec<Call> = history.calls.iter().map(|(call, _)| call.clone()).collect();
    let answers: Vec<String> = history.calls.iter().map(|(call, answer)| answer_term(call, answer)).collect();
    let unfolding = computed.replace(|other: char| !other.is_alphabetic() && other != '_', " ");
    format!(
        "-- One history with the original's answers. Assumes nothing.\n\
         use Prim.Native.Nat.{{ℕ}}\n\
         use mathlib.Core.Path.{{◌≡◌, refl}}\n\
         use mathlib.Core.List.{{List, [], ◌∷◌, ◌++◌}}\n\
         use mathlib.Core.Bool.{{Bool, true, false}}\n\
         use lib.ListN.{{replicate}}\n\
         use Rattle.{model}.specs.{calls_module}.{{{call_type}, {answer_type}}}\n\
         use Rattle.{own_crate}.proofs.{used}\n\n\
         as-answered :\n  {computed} {pages} (\n    {calls})\n  ≡ {answers}\n\
         unfolding {unfolding}\n\
         as-answered = refl\n",
        model = names::CRATE,
        calls_module = names::CALLS_MODULE,
        call_type = names::CALL_TYPE,
        answer_type = names::ANSWER_TYPE,
        pages = history.pages,
        calls = calls_term(&calls),
        answers = list_of(&answers, "\n    "),
    )
}

pub fn calls_term(calls: &[Call]) -> String {
    let terms: Vec<String> = calls.iter().map(call_term).collect();
    list_of(&terms, "\n    ")
}

/// The module that names the model's answers and what the checker may unfold to compute them.
pub fn answers_module(unfolded: &[(String, String, Vec<String>)]) -> String {
    let uses: String = unfolded
        .iter()
        .map(|(owner, module, _)| format!("use Rattle.{owner}.specs.{module} as {}\n", alias(owner, module)))
        .collect();
    let unfolding: Vec<String> = unfolded
        .iter()
        .flat_map(|(owner, module, all)| all.iter().map(move |name| format!("{}.{name}", alias(owner, module))))
        .collect();
    format!(
        "-- The model's answers, with all that the checker unfolds to compute them. Assumes nothing.\n\
         use Prim.Native.Nat.{{ℕ}}\n\
         use mathlib.Core.List.{{List, map}}\n\
         use Rattle.{model}.specs.{heap_module}.{{Heap}}\n\
         use Rattle.{model}.specs.{calls}.{{{call_type}, {answer_type}}}\n\
         use Rattle.{model}.specs.{history} as Histories\n\
         use {rules}.{{{rules_of}}}\n\
         {uses}\n\
         unfoldable pub computed : List ℕ → ℕ → List {call_type} → List {answer_type}\n\
         unfolding {unfolding}\n\
         computed rows size calls = Histories.{answers} size ({rules_of} rows) calls\n\n\
         unfoldable pub computed_from : Heap → ℕ → List {call_type} → List {answer_type}\n\
         unfolding computed\n\
         computed_from heap size calls = map (λ (e : Histories.Event). e.answer) (Histories.{events_from} size heap calls)\n\n\
         unfoldable pub computed_original : ℕ → List {call_type} → List {answer_type}\n\
         unfolding computed\n\
         computed_original size calls = {original} size calls\n",
        model = names::CRATE,
        calls = names::CALLS_MODULE,
        history = names::HISTORY_MODULE,
        rules = names::RULES_MODULE,
        rules_of = names::RULES_OF,
        call_type = names::CALL_TYPE,
        answer_type = names::ANSWER_TYPE,
        answers = names::ANSWERS,
        heap_module = names::HEAP_MODULE,
        events_from = names::EVENTS_FROM,
        original = format!("{}.{}", alias(names::CRATE, names::ORIGINAL_MODULE), names::ORIGINAL_ANSWERS),
        unfolding = unfolding.join(" "),
    )
}

fn alias(owner: &str, module: &str) -> String {
    format!("{owner}{module}")
}

pub fn list_of(terms: &[String], between: &str) -> String {
    let mut text: String = terms.iter().map(|term| format!("{term} ∷{between}")).collect();
    text.push_str("[]");
    text
}

fn words<T: Display>(list: &[T]) -> String {
    let terms: Vec<String> = list.iter().map(T::to_string).collect();
    format!("({})", list_of(&terms, " "))
}

fn lent_list<T: Display>(lent: &Lent<T>) -> String {
    format!("(replicate {} {})", lent.len, lent.fill)
}

/// A lent list after the call: what was written, then what it held.
fn written<T: Display>(list: &[T], lent: &Lent<T>) -> String {
    format!("({} ++ replicate {} {})", words(list), lent.len - list.len(), lent.fill)
}

fn call_term(call: &Call) -> String {
    let arguments = match call {
        Call::Take { class, host, lent, .. } => format!("{class} {host} {}", lent_list(lent)),
        Call::ReleaseBlocks { class, host, list, .. } => format!("{class} {host} {}", words(list)),
        Call::ReleaseChunks { class, host, list, chunks, lent } => {
            format!("{class} {host} {} {} {}", words(list), words(chunks), lent_list(lent))
        }
        Call::Commit { host, pages } => format!("{host} {pages}"),
        Call::Grow { host, first, old, new } => format!("{host} {first} {old} {new}"),
        Call::Release { host, first, pages } => format!("{host} {first} {pages}"),
        Call::Contains { offset, length } => format!("{offset} {length}"),
        Call::Report => String::new(),
        Call::Pool { .. } | Call::Look(_) => unreachable!("the pool's calls are left out"),
    };
    let name = names::call(call.kind()).expect("a call of the model");
    format!("{}.{name} {arguments}", names::CALL_TYPE).trim_end().to_string()
}

fn answer_term(call: &Call, answer: &Answer) -> String {
    let (name, arguments) = match (call, answer) {
        (_, Answer::Refused(number)) => (names::REFUSED, number.to_string()),
        (Call::Take { lent, .. }, Answer::Taken { virgin, words }) => {
            (names::TAKEN, format!("{} {} {virgin}", words.len(), written(words, lent)))
        }
        (_, Answer::Fate(fate)) => (names::FATE, fate.to_string()),
        (Call::ReleaseChunks { lent, .. }, Answer::Fates(fates)) => (names::FATES, written(fates, lent)),
        (_, Answer::Run { first, fresh }) => (names::RUN, format!("{first} {fresh}")),
        (_, Answer::NoRun) => (names::NO_RUN, String::new()),
        (_, Answer::Grown(grown)) => (names::GROWN, grown.to_string()),
        (_, Answer::Released) => (names::RELEASED, String::new()),
        (_, Answer::Contains(yes)) => (names::CONTAINED, yes.to_string()),
        (_, Answer::Report(figures)) => {
            let fields = names::FIGURES.iter().zip(figures).map(|(name, figure)| format!("{name} = {figure}"));
            (names::REPORTED, format!("(record {{ {} }})", fields.collect::<Vec<String>>().join("; ")))
        }
        (_, Answer::Taken { .. } | Answer::Fates(_) | Answer::Broken(_))
        | (_, Answer::Block(_) | Answer::Freed | Answer::Told(_)) => unreachable!("no answer of this call"),
    };
    format!("{}.{name} {arguments}", names::ANSWER_TYPE).trim_end().to_string()
}
