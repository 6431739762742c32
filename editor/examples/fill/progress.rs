//! A line that tells how far the search is, on a terminal only.

use std::io::{stderr, IsTerminal, Write};
use std::time::{Duration, Instant};

use super::search::Progress;

const PAUSE: Duration = Duration::from_millis(100);

pub struct Line {
    shown: Option<Instant>,
    on: bool,
}

impl Line {
    pub fn new() -> Line {
        Line { shown: None, on: stderr().is_terminal() }
    }

    pub fn show(&mut self, progress: &Progress) {
        if self.on && self.shown.is_none_or(|shown| shown.elapsed() >= PAUSE) {
            // The progress of a search is no reason to end it.
            let _ = write!(stderr(), "\r{}\x1b[K", text(progress));
            self.shown = Some(Instant::now());
        }
    }

    /// Removes the line, for what comes after it.
    pub fn clear(&mut self) {
        if self.shown.take().is_some() {
            let _ = write!(stderr(), "\r\x1b[K");
        }
    }
}

pub fn text(Progress { turns, standing, best, blocks_out }: &Progress) -> String {
    let best = best.map_or("no fill yet".into(), |score| format!("best score {score}"));
    format!("turned back {turns} times, {standing} words standing, {blocks_out} blocks out, {best}")
}
