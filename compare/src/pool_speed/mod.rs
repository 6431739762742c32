//! The pool's cost against other allocators', in time and in instructions: the same programs' records on each side, in one process.
//!
//! Times are of rounds that go through all sides in turn. A round is timed in stretches, short enough that most are not interrupted; of each
//! stretch the lower quartile of the rounds counts. Instructions are all that a step takes,
//! the loop over the steps included, which is the same on every side; those of an alloc and a free alone are counted apart.

mod loaded;
mod sides;
mod traces;

use std::process::Command;
use std::time::Instant;
use std::{env, fs};

use self::loaded::{load, TUNABLE};
use self::sides::{Pairs, Side};
use self::traces::{Step, PROGRAMS};
use crate::arguments::Arguments;
use crate::speed::{counted, watch, Counter, Quartiles};

const TUNABLES: &str = "GLIBC_TUNABLES";

/// Other allocators, by their library and its functions.
const LIBRARIES: [(&str, &str, [&str; 2]); 2] =
    [("mimalloc", "libmimalloc.so.2", ["mi_malloc", "mi_free"]), ("jemalloc", "libjemalloc.so.2", ["malloc", "free"])];
/// Of a library that is named: compare/rust_pool has them.
const RUST_POOL: [&str; 2] = ["rust_pool_alloc", "rust_pool_free"];

/// A side by its name.
type Named = (&'static str, Box<dyn Side>);

/// Every side that there is, and of the others why not.
fn all_sides(rust_pool: Option<&str>) -> (Vec<Named>, Vec<String>) {
    let mut sides = vec![
        ("malloc", sides::glibc()),
        ("pool, class at hand", sides::by_class()),
        ("pool, by size", sides::by_size()),
        ("pool, by block", sides::by_block()),
        ("take, release of one", sides::by_heap()),
    ];
    let mut missing = Vec::new();
    let libraries = LIBRARIES.into_iter().chain(rust_pool.map(|file| ("the crate's Pool", file, RUST_POOL)));
    for (name, file, functions) in libraries {
        match load(file, functions) {
            Ok(loaded) => sides.push((name, sides::loaded(loaded))),
            Err(why) => missing.push(format!("{name} is left out: {why}\n")),
        }
    }
    (sides, missing)
}

/// A program's steps with each record's class.
fn with_classes(steps: &[Step]) -> Vec<(Step, u32)> {
    let class = |step: &Step| if let Step::Alloc { bytes, .. } = step { sides::class_of(*bytes) } else { 0 };
    steps.iter().map(|step| (*step, class(step))).collect()
}

/// Steps that are timed together.
const STRETCH: usize = 2_000;
/// Rounds that are not counted: they find cold memory on every side.
const FIRST_ROUNDS: usize = 2;

pub fn time(words: &[String]) -> Result<bool, String> {
    let arguments = Arguments::read(words, &["rounds", "rust-pool", "file"])?;
    let rounds: usize = arguments.number("rounds")?.unwrap_or(20);
    if !env::var(TUNABLES).is_ok_and(|set| set.contains(TUNABLE)) {
        return again(words);
    }
    let (mut sides, missing) = all_sides(arguments.text("rust-pool"));
    let mut text = header(&sides, "ns a step");
    for program in &PROGRAMS {
        let (steps, slots) = program.record();
        let steps = with_classes(&steps);
        // By side, then by stretch: the times of the rounds.
        let mut times = vec![vec![Vec::new(); steps.len().div_ceil(STRETCH)]; sides.len()];
        for round in 0..FIRST_ROUNDS + rounds.max(1) {
            for ((_, side), times) in sides.iter_mut().zip(&mut times) {
                for (stretch, times) in steps.chunks(STRETCH).zip(times) {
                    let began = Instant::now();
                    side.replay(stretch, slots);
                    if round >= FIRST_ROUNDS {
                        times.push(began.elapsed().as_nanos() as f64);
                    }
                }
            }
        }
        let all = |stretches: Vec<Vec<f64>>| {
            stretches.into_iter().map(|times| Quartiles::of(times).lower).sum::<f64>() / steps.len() as f64
        };
        let lower: Vec<f64> = times.into_iter().map(all).collect();
        text += &line(program.name, steps.len(), &lower, 1);
    }
    let load = fs::read_to_string("/proc/loadavg").unwrap_or_default();
    text += &format!(
        "\nOf each {STRETCH} steps the lower quartile of {rounds} rounds, added up. Load average {}.\n",
        load.split(' ').next().unwrap_or("")
    );
    told(&(text + &missing.concat()), &arguments)
}

/// This command once more, with room for jemalloc's variables.
fn again(words: &[String]) -> Result<bool, String> {
    let program = env::current_exe().map_err(|error| error.to_string())?;
    let status = Command::new(program).arg("pool-speed").args(words).env(TUNABLES, TUNABLE).status();
    status.map(|status| status.success()).map_err(|error| error.to_string())
}

pub fn count(words: &[String]) -> Result<bool, String> {
    let arguments = Arguments::read(words, &["rust-pool", "file", "part", "worker"])?;
    match (arguments.text("worker"), arguments.text("part")) {
        (Some(dumps), Some(CALLS)) => count_calls(&Counter::new(dumps)),
        (Some(dumps), _) => count_steps(&Counter::new(dumps), &arguments),
        (None, _) => {
            let part = |part: &str| [words, &["--part".into(), part.into()]].concat();
            let calls = watch("pool-count", &part(CALLS), &["vigbuso_alloc", "vigbuso_free"], Some(TUNABLE))?;
            Ok(watch("pool-count", &part(STEPS), &[], Some(TUNABLE))? && calls)
        }
    }
}

const CALLS: &str = "calls";
const STEPS: &str = "steps";

/// The classes whose calls are counted: blocks of 16, 32, 1,152 and 16,384 bytes, and a medium one.
const COUNTED_CLASSES: [u32; 5] = [0, 1, 23, 45, 64];

fn count_calls(counter: &Counter) -> Result<bool, String> {
    println!("| class | alloc from the stock | free into it |\n|---|---|---|");
    for class in COUNTED_CLASSES {
        const BLOCKS: usize = 7;
        let mut pairs = Pairs::open(class, BLOCKS);
        let alloc = counted(counter, || pairs.allocs()) / BLOCKS as f64;
        let free = counted(counter, || pairs.frees()) / BLOCKS as f64;
        println!("| {class} | {alloc:.0} | {free:.0} |");
    }
    println!();
    Ok(true)
}

fn count_steps(counter: &Counter, arguments: &Arguments) -> Result<bool, String> {
    let (mut sides, missing) = all_sides(arguments.text("rust-pool"));
    let mut text = header(&sides, "instructions a step");
    for program in &PROGRAMS {
        let (steps, slots) = program.record();
        let steps = with_classes(&steps);
        let costs: Vec<f64> = sides
            .iter_mut()
            .map(|(_, side)| {
                side.replay(&steps, slots);
                counted(counter, || side.replay(&steps, slots)) / steps.len() as f64
            })
            .collect();
        text += &line(program.name, steps.len(), &costs, 0);
    }
    told(&(text + &missing.concat()), arguments)
}

fn header(sides: &[Named], what: &str) -> String {
    let names: String = sides.iter().map(|(name, _)| format!(" {name} |")).collect();
    format!("| {what} | steps |{names}\n|---|---|{}\n", "---|".repeat(sides.len()))
}

fn line(name: &str, steps: usize, costs: &[f64], digits: usize) -> String {
    let costs: String = costs.iter().map(|cost| format!(" {cost:.digits$} |")).collect();
    format!("| {name} | {steps} |{costs}\n")
}

/// Prints the table, and writes it to the file that is named, if one is.
fn told(table: &str, arguments: &Arguments) -> Result<bool, String> {
    print!("{table}");
    match arguments.text("file") {
        Some(file) => fs::write(file, table).map_err(|error| format!("{file}: {error}")).map(|()| true),
        None => Ok(true),
    }
}

#[cfg(test)]
mod tests {
    use super::*;

    /// Every record of a program is given back, and every side can serve it again and again.
    #[test]
    fn programs_and_sides() {
        let (mut sides, _) = all_sides(None);
        for program in &PROGRAMS {
            let (steps, slots) = program.record();
            let allocs = steps.iter().filter(|step| matches!(step, Step::Alloc { .. })).count();
            assert_eq!(2 * allocs, steps.len(), "{}", program.name);
            let steps = with_classes(&steps);
            for (_, side) in &mut sides {
                (0..2).for_each(|_| side.replay(&steps, slots));
            }
        }
    }

    #[test]
    fn a_missing_library_is_told() {
        let (sides, missing) = all_sides(Some("librust_pool_that_is_not_there.so"));
        assert!(sides.len() >= 5);
        assert!(missing.iter().any(|line| line.starts_with("the crate's Pool is left out: ")), "{missing:?}");
    }
}
