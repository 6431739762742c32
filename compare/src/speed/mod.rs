//! The port's cost against the original's, in time and in instructions: the same calls on both in one run.
//!
//! A scenario (`scenarios.rs`) has one or more rows of the table. A round opens both heaps anew, brings them to the
//! scenario's state and measures a batch of calls for each row; both must answer the same. Times are of many rounds that
//! alternate, of which the lower quartile counts. Instructions are the same in each round, so that one is enough.

mod counter;
mod fill;
mod meter;
mod opening;
mod rounds;
mod scenarios;
mod sides;
mod table;
mod trace;

use std::fs;
use std::time::Duration;

pub use self::counter::{counted, watch, Counter};
pub use self::fill::calls as fill_calls;
#[cfg(test)]
pub use self::fill::{kinds as fill_kinds, Style};
use self::meter::Meter;
pub use self::rounds::Quartiles;
use self::scenarios::Scenario;
use self::sides::{OriginalSide, PortSide};
use self::table::{Counts, Times};
use crate::arguments::Arguments;
use crate::oracle;
use crate::words::MAX_PAGES;

/// Valgrind has less address space to give than the longest arena and its book take.
const LONGEST_COUNTED: u32 = 262_144;

/// Rounds of openings that are timed.
const OPENING_ROUNDS: usize = 2_000;

pub fn time(words: &[String]) -> Result<bool, String> {
    let arguments = Arguments::read(words, &["file", "seconds"])?;
    let seconds: f64 = arguments.number("seconds")?.unwrap_or(1.0);
    let budget = Duration::try_from_secs_f64(seconds).map_err(|error| format!("--seconds {seconds}: {error}"))?;
    let clock = Meter::calibrated_clock();
    let mut times = Times::new(&clock);
    let same = for_each(MAX_PAGES, |scenario, original, port| {
        times.add(scenario, rounds::measure(scenario, original, port, budget, &clock)?);
        Ok(())
    });
    if !same {
        return Ok(false);
    }
    let Some(traced) = trace::line(&clock) else {
        println!("a trace: other blocks or figures than its calls one by one");
        return Ok(false);
    };
    told(&(times.markdown() + &opening::line(&clock, "ns", OPENING_ROUNDS) + &traced), &arguments)
}

pub fn count(words: &[String]) -> Result<bool, String> {
    let arguments = Arguments::read(words, &["file", "worker"])?;
    let Some(dumps) = arguments.text("worker") else { return watch("count", words, &counter::COUNTED, None) };
    let counter = Meter::Counter(Counter::new(dumps));
    let mut counts = Counts::default();
    oracle::shorten(LONGEST_COUNTED);
    let same = for_each(LONGEST_COUNTED, |scenario, original, port| {
        counts.add(scenario, rounds::on_both(scenario, original, port, &counter, 0)?);
        Ok(())
    });
    Ok(same && told(&(counts.markdown() + &opening::line(&counter, "instructions", 1)), &arguments)?)
}

/// Whether both sides answer the same in every scenario with an arena of up to so many pages.
fn for_each(
    longest: u32,
    mut measure: impl FnMut(&Scenario, &mut OriginalSide, &mut PortSide) -> Result<(), String>,
) -> bool {
    let (mut original, mut port) = (OriginalSide::open(longest), PortSide::open(longest));
    for scenario in scenarios::all().iter().filter(|scenario| scenario.pages() <= longest) {
        if let Err(difference) = measure(scenario, &mut original, &mut port) {
            println!("{}: {difference}", scenario.rows()[0].call);
            return false;
        }
    }
    true
}

/// Prints the table, and writes it to the file that is named, if one is.
fn told(table: &str, arguments: &Arguments) -> Result<bool, String> {
    print!("{table}");
    if let Some(file) = arguments.text("file") {
        fs::write(file, table).map_err(|error| format!("{file}: {error}"))?;
    }
    Ok(true)
}
