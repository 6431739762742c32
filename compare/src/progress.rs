//! A line on long runs, on the standard error so that the results stay apart.

use std::io::{IsTerminal, Write};
use std::time::{Duration, Instant};

pub struct Progress {
    began: Instant,
    last: Instant,
    shown: bool,
}

/// Between two lines: often on a terminal, where one overwrites the other.
fn pause() -> Duration {
    Duration::from_secs(if std::io::stderr().is_terminal() { 1 } else { 20 })
}

impl Progress {
    pub fn begin() -> Progress {
        let now = Instant::now();
        Progress { began: now, last: now, shown: false }
    }

    pub fn show(&mut self, done: u64, of: u64, what: &str) {
        if self.last.elapsed() < pause() {
            return;
        }
        self.last = Instant::now();
        self.shown = true;
        let seconds = self.began.elapsed().as_secs();
        let end = if std::io::stderr().is_terminal() { '\r' } else { '\n' };
        let percent = done * 100 / of.max(1);
        eprint!("{done} of {of} {what} ({percent} %), {seconds} s   {end}");
        let _ = std::io::stderr().flush();
    }

    pub fn seconds(&self) -> f64 {
        self.began.elapsed().as_secs_f64()
    }
}

impl Drop for Progress {
    fn drop(&mut self) {
        if self.shown && std::io::stderr().is_terminal() {
            eprintln!();
        }
    }
}
