//! The model's definitions against the original: histories with the original's answers are written as equations of the
//! model, and the checker computes them.

mod combed;
mod equations;
mod names;
mod repository;

use std::fs;
use std::path::{Path, PathBuf};

use self::combed::Comb;
use crate::arguments::Arguments;
use crate::call::Call;
use crate::generate;
use crate::history::{self, History};
use crate::oracle::rules::Rules;
use crate::progress::Progress;
use crate::random::Random;
use crate::run;
use crate::tally::Tally;

/// Scenario, histories of it in one round, and the most steps of one. The checker computes on lists, so that long
/// histories cost it more than in proportion.
const ROUND: [(&str, usize, usize); 11] = [
    ("direct", 8, 150),
    ("lengths", 2, 120),
    ("growth", 5, 120),
    ("refused reservation", 4, 40),
    ("long holes", 1, 30),
    ("page limit", 2, 20),
    ("mixed", 14, 150),
    ("exhaustion", 10, 120),
    ("chunks", 3, 120),
    ("small stores", 1, 700),
    ("medium stores", 1, 570),
];

/// The scenario whose histories start where nearly 4,096 holes are stored.
const HOLE_LIMIT: (&str, usize, usize) = ("hole limit", 1, 30);

/// A history from an opening, or from a comb.
pub struct Case {
    start: Option<Comb>,
    history: History,
}

pub fn run(words: &[String]) -> Result<bool, String> {
    let arguments = Arguments::read(words, &["calls", "seed", "file", "scenario", "longest", "repository", "rules"])?;
    let rules = match arguments.text("rules") {
        None => Rules::Amended,
        Some("original") => Rules::Plain,
        Some(other) => return Err(format!("no rules {other}")),
    };
    let cases = match arguments.text("file") {
        Some(file) => {
            let text = fs::read_to_string(file).map_err(|error| format!("{file}: {error}"))?;
            let histories = history::parse(&text)?;
            let calls = || histories.iter().flat_map(|history| &history.calls);
            if let Some((call, _)) = calls().find(|(call, _)| names::call(call.kind()).is_none()) {
                return Err(format!("{file}: {} is no call of the model", call.kind().name()));
            }
            histories.into_iter().map(|history| Case { start: None, history }).collect()
        }
        None => generated(&arguments, rules)?,
    };
    let own = Path::new(env!("CARGO_MANIFEST_DIR")).join("..");
    let root = arguments.text("repository").map_or(own, PathBuf::from);
    let progress = Progress::begin();
    let verdict = repository::check(&root, &cases, rules)?;
    let computed = cases.iter().enumerate().filter(|(at, _)| !verdict.too_long.contains(at));
    println!("{}", counted(computed.map(|(_, case)| case)));
    println!("{:.0} s for the checker", progress.seconds());
    println!("not the original's, but the tool's own reading: refusals 3 to 12 and 15, the report's pages held");
    let lost: usize = verdict.too_long.iter().map(|&at| cases[at].history.calls.len()).sum();
    println!("not computed, for the checker's limit of steps: {} histories of {lost} calls", verdict.too_long.len());
    match &verdict.refused {
        None if verdict.too_long.len() == cases.len() => println!("nothing was computed"),
        None => println!("0 differences: the model computes these answers in every history"),
        Some(refused) => {
            println!("the checker refuses it ({} is left):\n{}", refused.folder.display(), refused.said);
            if let Some(at) = refused.history {
                print!("# the first history that it refuses:\n{}", cases[at].history.text());
            }
        }
    }
    Ok(verdict.refused.is_none() && verdict.too_long.len() < cases.len())
}

fn counted<'a>(cases: impl Iterator<Item = &'a Case>) -> Tally {
    let mut tally = Tally::default();
    for case in cases {
        tally.begin(if case.start.is_some() { "from a heap with many holes" } else { "from an opening" });
        case.history.calls.iter().for_each(|(call, answer)| tally.count(call, answer));
    }
    tally
}

/// Rounds of histories until there are enough calls. At the limit of holes a heap is written down, without document 01's memory.
fn generated(arguments: &Arguments, rules: Rules) -> Result<Vec<Case>, String> {
    let calls: usize = arguments.number("calls")?.unwrap_or(3_000);
    let mut random = Random::new(arguments.number("seed")?.unwrap_or(1));
    let longest: Option<usize> = arguments.number("longest")?;
    let round: Vec<(&str, usize, usize)> = ROUND
        .into_iter()
        .chain([HOLE_LIMIT])
        .filter(|(name, ..)| rules == Rules::Amended || *name != HOLE_LIMIT.0)
        .filter(|(name, ..)| arguments.text("scenario").is_none_or(|only| only == *name))
        .collect();
    if round.is_empty() {
        return Err("no such scenario for the model".into());
    }
    let mut cases: Vec<Case> = Vec::new();
    while cases.iter().map(|case| case.history.calls.len()).sum::<usize>() < calls {
        for &(name, times, steps) in &round {
            let steps = longest.unwrap_or(steps);
            for _ in 0..times {
                if name == HOLE_LIMIT.0 {
                    cases.extend(combed::cases(&mut random, steps));
                } else {
                    cases.push(case(&mut random, name, steps, rules));
                }
            }
        }
    }
    Ok(cases)
}

fn case(random: &mut Random, name: &str, steps: usize, rules: Rules) -> Case {
    let mut plan = generate::plan(random, |_| true, Some(name), None);
    plan.steps.truncate(steps);
    if rules == Rules::Plain {
        plan.rows.clear();
    }
    let calls = run::record_by(rules, &plan, |_| true);
    let history = affordable(History { pages: plan.pages, rows: plan.rows, calls });
    Case { start: None, history }
}

/// The checker computes at most so many steps for one equation. It looks a page's holder up through every call before,
/// which is what counts: this many lookups of one call's change are well within it.
const LOOKUPS: u64 = 1_500_000;

/// The history as far as the checker can compute it. A report, which changes nothing, is left out where it costs much.
fn affordable(history: History) -> History {
    let mut left = LOOKUPS;
    let mut calls = Vec::new();
    for (call, answer) in history.calls {
        let before = calls.len() as u64 + 1;
        let cost = match &call {
            Call::Report => u64::from(history.pages) * before,
            Call::Release { pages, .. } | Call::Grow { old: pages, .. } => {
                pages.min(&u64::from(history.pages)) * before
            }
            // Each word is looked for on each page of the class.
            Call::ReleaseChunks { list, chunks, .. } => 4 * list.len() as u64 * (chunks.len() as u64 + 40),
            _ => 0,
        };
        match (call, cost <= left) {
            (Call::Report, false) => {}
            (_, false) => break,
            (Call::Report, true) if cost > left / 4 => {}
            (call, true) => {
                left -= cost;
                calls.push((call, answer));
            }
        }
    }
    History { calls, ..history }
}
