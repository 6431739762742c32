//! Fills a crossword grid by a backtracking search whose records stand in heap blocks.
//!
//! The words that still fit into each open slot, the candidates of each open choice with their scores, the index of the word
//! list and the best fill are in blocks; how the search went is in a run of pages that grows. What a choice has written is
//! freed as the search turns back, and its blocks are used anew. The arena is a plain `Vec<u8>`. Every read is compared
//! with what was written there. At the end, also of a search that ran out of turns or of room, the best fill, its score and
//! the heap's status line are printed, and everything is released.
//!
//!     cargo run --release --example fill -- --draw
//!     cargo run --release --example fill -- --grid examples/fill/15x15.txt --plot search.svg
//!
//! `--help` tells the options.

#[path = "fill/mod.rs"]
mod fill;

use std::process::ExitCode;

use fill::arguments::{Arguments, USAGE};
use fill::job::{Done, Job};
use fill::progress::Line;
use fill::{picture, plot, Outcome};

fn main() -> ExitCode {
    match run() {
        Ok(()) => ExitCode::SUCCESS,
        Err(error) => {
            eprintln!("fill: {error}");
            ExitCode::FAILURE
        }
    }
}

fn run() -> Outcome<()> {
    let arguments = Arguments::parse(std::env::args().skip(1))?;
    if arguments.help {
        print!("{USAGE}");
        return Ok(());
    }
    let job = Job::new(&arguments)?;
    let mut line = Line::new();
    let done = job.run(&mut |progress| line.show(progress));
    line.clear();
    let done = done?;
    print!("{}", job.text(&done));
    draw(&arguments, &done)?;
    match done.best {
        Some(_) => Ok(()),
        None => Err("no fill was found".into()),
    }
}

fn draw(arguments: &Arguments, done: &Done) -> Outcome<()> {
    if arguments.draw {
        print!("\n{}", picture::text(&done.pages));
    }
    if let Some(file) = &arguments.svg {
        write(file, &picture::svg(&done.pages))?;
    }
    if let Some(file) = &arguments.plot {
        write(file, &plot::svg(&done.history, arguments.pages))?;
    }
    if let (Some(file), Some(trace)) = (&arguments.trace, &done.trace) {
        let bytes: Vec<u8> = trace.words().iter().flat_map(|word| word.to_le_bytes()).collect();
        std::fs::write(file, bytes).map_err(|error| format!("{file}: {error}"))?;
        println!("trace: {file}, {} words", trace.words().len());
    }
    Ok(())
}

fn write(file: &str, picture: &str) -> Outcome<()> {
    std::fs::write(file, picture).map_err(|error| format!("{file}: {error}"))?;
    println!("picture: {file}");
    Ok(())
}
