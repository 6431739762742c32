//! The figures as text.

use std::fmt::Write;

use super::reports;
use super::room::Unserved;
use vigbuso::{Say, Trace, Traced};

const HEADS: [&str; 6] = ["steps", "blocks out", "bytes", "pages held", "idle", "highest bytes"];
const WIDTHS: [usize; 6] = [12, 12, 16, 12, 12, 16];

/// A line for each report; then what all of the trace came to, whether the arena was too small for it, and where it stopped if it did.
pub fn text(trace: &Trace, traced: &Traced, unserved: Option<Unserved>) -> String {
    let mut text = line(&HEADS.map(String::from));
    for (steps, figures) in reports(trace, traced) {
        let numbers = [steps as u64, figures.out, figures.bytes, figures.held, figures.idle, figures.highest];
        text += &line(&numbers.map(|number| number.to_string()));
    }
    let (carried, all) = (traced.words, trace.words().len());
    let (blocks, reports) = (traced.blocks.len(), traced.figures.len());
    writeln!(text, "total: {carried} of {all} steps, {blocks} blocks handed out, {reports} reports").expect("a string");
    if let Some(Unserved { takes, first }) = unserved {
        let (pages, plural) = (traced.heap.pages(), if takes == 1 { "" } else { "s" });
        writeln!(text, "{pages} pages are too few: {takes} take{plural} found no room, the first at step {first}")
            .expect("a string");
    }
    if traced.stopped {
        let (step, word) = (carried + 1, trace.words()[carried]);
        let why = match Say::from_word(word) {
            Some(Say::Release(place)) => format!("it releases block {place}, counted from 0, which is not out"),
            _ => "it is no take, release or report".into(),
        };
        writeln!(text, "stopped at step {step}, {word:#010x}: {why}").expect("a string");
    }
    text
}

fn line(entries: &[String; 6]) -> String {
    let entries: Vec<String> = entries.iter().zip(WIDTHS).map(|(entry, width)| format!("{entry:>width$}")).collect();
    entries.concat().trim_end().to_string() + "\n"
}
