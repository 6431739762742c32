//! The parts of the figures example. `figures.rs` runs them from the command line, `tests/figures.rs` one by one.

pub mod arguments;
pub mod input;
#[path = "../fill/number.rs"]
pub mod number;
#[path = "../fill/panels.rs"]
pub mod panels;
pub mod plot;
pub mod room;
#[allow(dead_code)] // some of it is for the fill's own pictures
#[path = "../fill/svg.rs"]
pub mod svg;
pub mod table;
pub mod wait;

use vigbuso::{Figures, Say, Trace, Traced};

/// What a step of the example gives, or why it could not.
pub type Outcome<T> = Result<T, Box<dyn std::error::Error>>;

/// The figures with the number of steps up to each report, its own included. A step is a word of the trace: a take, a release or a
/// report.
pub fn reports<'a>(trace: &'a Trace, traced: &'a Traced) -> impl Iterator<Item = (usize, &'a Figures)> {
    let reports = trace.says().enumerate().filter(|(_, say)| *say == Some(Say::Report));
    reports.map(|(place, _)| place + 1).zip(&traced.figures)
}
