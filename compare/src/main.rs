//! Compares Vigbuso's exported calls with the Rust that they port. README.md says how to run it.

mod arguments;
mod call;
mod class_tables;
mod damaged;
mod fits;
mod game;
mod generate;
mod histories;
mod history;
mod joining;
mod ledger;
mod listing;
mod lookups;
mod marks;
mod memory;
mod model_test;
mod openings;
mod oracle;
mod parking;
mod places;
mod plan;
mod planned;
mod pool;
mod pool_speed;
mod port;
mod progress;
mod random;
mod reference;
mod run;
mod shrink;
mod sizes;
mod speed;
mod stocks;
mod tally;
#[cfg(test)]
mod tests;
mod touched;
mod trace_file;
mod traces;
mod words;

use std::process::ExitCode;

const USAGE: &str = "usage: compare COMMAND [--NAME VALUE ..]
  lookups      both size lookups
  tables       class tables from a growth rate
  game         an asker against any placing
  listing      all short histories of the direct calls
  histories    [--calls N] [--seed S] [--pages N,N..] [--scenario NAME]
               random histories on the original and on the port
  record       --file F [--calls N] [--seed S] [--pages N,N..] [--scenario NAME] [--kinds all|arena] | --given G
               random histories, or the calls of G, on the original, written down with its answers
  replay       --file F
               histories that were written down, on the port
  pool         [--calls N] [--seed S] [--scenario NAME]
               random histories of the pool's calls, on a plain pool over the original and on the port
  mixed        [--calls N] [--seed S] [--scenario NAME]
               the same of every call, with the heap's and the pool's on the same classes
  model-test   [--calls N] [--seed S] [--scenario NAME] [--longest STEPS] [--file F] [--repository FOLDER] [--rules original]
               histories with the original's answers, computed by the checker on the model
  damaged      [--calls N] [--seed S] [--kinds all|blocks|pool] [--only HISTORY]
               calls with any arguments on damaged books
  marks        [--calls N] [--seed S]
               releases and takes of random histories, also on a book whose mark words hold anything
  fits         [--plans N] [--seed S]
               plans of takes, made in orders of chance on arenas of just their total and of a page less
  openings     [--openings N] [--seed S]
               openings with parking rules, many of them refused
  places       [--pairs N] [--seed S]
               neighbouring calls on two classes the other way round, books compared word for word
  joining      [--turns N] [--seed S]
               a workload like a long fill, with holes that touch left apart and with joins
  traces       [--traces N] [--seed S]
               random traces on the port, against their calls one by one on the original and on the port
  trace        FILE [--pages N]
               a trace that a program wrote, on the original as it is and on the port: the first block that differs, and why
  memory       the memory that long direct commits touch
  speed        [--file F] [--seconds S]
               the port's time against the original's, for each scenario S seconds; the table is also written to F
  count        [--file F]
               instructions of each call, the port's against the original's, by valgrind; the table is also written to F
  pool-speed   [--file F] [--rounds N] [--rust-pool LIBRARY]
               the pool's time against malloc, mimalloc and jemalloc where they are installed, and a library of the crate's Pool
  pool-count   [--file F] [--rust-pool LIBRARY]
               the same in instructions, by valgrind";

fn main() -> ExitCode {
    let words: Vec<String> = std::env::args().skip(1).collect();
    let rest = words.get(1..).unwrap_or(&[]);
    let result = match words.first().map(String::as_str) {
        Some("lookups") => Ok(lookups::run()),
        Some("tables") => Ok(class_tables::run()),
        Some("game") => Ok(game::run()),
        Some("listing") => Ok(listing::run()),
        Some("histories") => histories::histories(rest),
        Some("record") => histories::record(rest),
        Some("replay") => histories::replay(rest),
        Some("pool") => pool::run(rest, &pool::SCENARIOS),
        Some("mixed") => pool::run(rest, &pool::mixed::SCENARIOS),
        Some("model-test") => model_test::run(rest),
        Some("damaged") => damaged::run(rest),
        Some("marks") => marks::run(rest),
        Some("fits") => fits::run(rest),
        Some("openings") => openings::run(rest),
        Some("places") => places::run(rest),
        Some("joining") => joining::run(rest),
        Some("traces") => traces::run(rest),
        Some("trace") => trace_file::run(rest),
        Some("memory") => touched::run(),
        Some("speed") => speed::time(rest),
        Some("count") => speed::count(rest),
        Some("pool-speed") => pool_speed::time(rest),
        Some("pool-count") => pool_speed::count(rest),
        _ => Err(USAGE.into()),
    };
    match result {
        Ok(true) => ExitCode::SUCCESS,
        Ok(false) => ExitCode::FAILURE,
        Err(message) => {
            eprintln!("{message}");
            ExitCode::from(2)
        }
    }
}
