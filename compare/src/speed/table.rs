//! The tables of a run, as Markdown.

use std::fs;

use super::meter::Meter;
use super::rounds::Measured;
use super::scenarios::{Row, Scenario};

pub struct Times<'a> {
    clock: &'a Meter,
    load: String,
    lines: Vec<(Row, Measured)>,
}

/// Holes up to which a commit is compared by its ratio, beyond by the nanoseconds of a hole.
const FEW_HOLES: u32 = 10;

impl Times<'_> {
    pub fn new(clock: &Meter) -> Times<'_> {
        Times { clock, load: load(), lines: Vec::new() }
    }

    pub fn add(&mut self, scenario: &Scenario, measured: Vec<Measured>) {
        self.lines.extend(scenario.rows().into_iter().zip(measured));
    }

    pub fn markdown(&self) -> String {
        let mut text = String::from(
            "| call | holes | original ns | port ns | ratio | port ns per hole beyond 10 |\n|---|---|---|---|---|---|\n",
        );
        for (row, measured) in &self.lines {
            let port = measured.port.lower;
            let each = self.per_hole(row, port).map_or(String::new(), |each| format!("{each:.2}"));
            text += &format!("{} {each} |\n", line(row, measured.original.lower, port, 1));
        }
        text + &self.noise()
    }

    /// What each hole beyond ten adds, by the same call's row with ten.
    fn per_hole(&self, row: &Row, port: f64) -> Option<f64> {
        let holes = row.holes.filter(|&holes| holes > FEW_HOLES)?;
        let few = self.lines.iter().find(|(other, _)| other.call == row.call && other.holes == Some(FEW_HOLES))?;
        let each = (port - few.1.port.lower) / f64::from(holes - FEW_HOLES);
        // No minus before what is printed as zero.
        Some(if each.abs() < 0.005 { 0.0 } else { each })
    }

    fn noise(&self) -> String {
        let spread: Vec<f64> = self
            .lines
            .iter()
            .flat_map(|(_, measured)| [measured.original, measured.port])
            .map(|quartiles| quartiles.upper / quartiles.lower)
            .collect();
        let least = spread.iter().copied().fold(f64::INFINITY, f64::min);
        let most = spread.iter().copied().fold(0.0, f64::max);
        let rounds = self.lines.iter().map(|(_, measured)| measured.rounds);
        format!(
            "\nLower quartiles of {} to {} rounds of each side; the upper ones are {least:.2} to {most:.2} times as much. \
             The clock's own {:.0} ns are taken off each batch. Load average {} at the start, {} at the end.\n",
            rounds.clone().min().unwrap_or(0),
            rounds.max().unwrap_or(0),
            self.clock.own(),
            self.load,
            load()
        )
    }
}

/// Processes that wanted a core in the last minute.
fn load() -> String {
    let text = fs::read_to_string("/proc/loadavg").unwrap_or_default();
    text.split(' ').next().unwrap_or("").to_string()
}

/// Instructions.
#[derive(Default)]
pub struct Counts {
    lines: String,
}

impl Counts {
    pub fn add(&mut self, scenario: &Scenario, (original, port): (Vec<f64>, Vec<f64>)) {
        for (at, row) in scenario.rows().iter().enumerate() {
            self.lines += &format!("{}\n", line(row, original[at], port[at], 0));
        }
    }

    pub fn markdown(&self) -> String {
        format!("| call | holes | original | port | ratio |\n|---|---|---|---|---|\n{}", self.lines)
    }
}

/// The columns that both tables have, with so many digits.
fn line(row: &Row, original: f64, port: f64, digits: usize) -> String {
    let holes = row.holes.map_or(String::new(), |holes| holes.to_string());
    format!("| {} | {holes} | {original:.digits$} | {port:.digits$} | {:.2} |", row.call, port / original)
}
