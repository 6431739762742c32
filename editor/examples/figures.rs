//! The figures of a trace (docs/CALLS.md, "A trace"): a table, a line for each report, and a picture of bytes out and pages held.
//!
//!     cargo run --release --example fill -- --trace fill.trace
//!     cargo run --release --example figures -- fill.trace --pages 32 --svg figures.svg
//!
//! The file has the trace's words: 32 bits each, the low byte first, or as text, one number a line.

#[path = "figures/mod.rs"]
mod figures;

use std::process::ExitCode;

use figures::arguments::{Arguments, USAGE};
use figures::Outcome;
use figures::{input, plot, room, table, wait};
use vigbuso::Heap;

fn main() -> ExitCode {
    match run() {
        Ok(true) => ExitCode::SUCCESS,
        Ok(false) => ExitCode::FAILURE,
        Err(error) => {
            eprintln!("figures: {error}");
            ExitCode::FAILURE
        }
    }
}

/// Whether the trace was carried out to its end.
fn run() -> Outcome<bool> {
    let Some(arguments) = Arguments::parse(std::env::args().skip(1))? else {
        print!("{USAGE}");
        return Ok(true);
    };
    let file = &arguments.file;
    let bytes = std::fs::read(file).map_err(|error| format!("{file}: {error}"))?;
    let trace = input::trace(&bytes).map_err(|error| format!("{file}: {error}"))?;
    let (traced, unserved) = wait::until_done(trace.words().len(), || {
        let traced = Heap::from_trace(arguments.pages, &trace).map_err(|error| error.to_string())?;
        let unserved = room::unserved(&trace, &traced).map_err(|error| error.to_string())?;
        Ok::<_, String>((traced, unserved))
    })?;
    print!("{}", table::text(&trace, &traced, unserved));
    if let Some(svg) = &arguments.svg {
        std::fs::write(svg, plot::svg(&trace, &traced)).map_err(|error| format!("{svg}: {error}"))?;
        println!("picture: {svg}");
    }
    Ok(!traced.stopped)
}
