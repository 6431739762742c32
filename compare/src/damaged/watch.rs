//! The process that watches the one that makes the calls.

use std::io::{BufRead, BufReader};
use std::process::{Command, Stdio};
use std::sync::mpsc::{self, RecvTimeoutError};
use std::time::Duration;

use super::{CALLS, MARK};
use crate::progress::Progress;

/// A history that takes longer does not end.
const PATIENCE: Duration = Duration::from_secs(120);

/// Runs the worker and tells where it died, if it does.
pub fn run(calls: u64, seed: u64, kinds: &str, only: Option<u64>) -> Result<bool, String> {
    let mut progress = Progress::begin();
    let mut last = 0;
    let ended = work(calls, seed, kinds, only, |line| match line.strip_prefix(MARK) {
        Some(number) => {
            last = number.parse().unwrap_or(last);
            progress.show(last * CALLS, calls, "calls");
        }
        None => println!("{line}"),
    })?;
    if !ended.began_to_end {
        println!("history {last}: a call {}", ended.how);
        println!("its calls, the last of which is that one:");
        if only.is_none() {
            let _ = work(calls, seed, kinds, Some(last), |line| println!("{line}"));
        }
        println!("seen again by: damaged --seed {seed} --kinds {kinds} --only {last}");
    }
    println!("{:.1} s", progress.seconds());
    Ok(ended.good)
}

struct Ended {
    good: bool,
    /// The worker came to its end by itself.
    began_to_end: bool,
    how: String,
}

fn work(calls: u64, seed: u64, kinds: &str, only: Option<u64>, mut told: impl FnMut(&str)) -> Result<Ended, String> {
    let program = std::env::current_exe().map_err(|error| error.to_string())?;
    let mut command = Command::new(program);
    command.args(["damaged", "--worker", "1", "--kinds", kinds]);
    command.args(["--calls", &calls.to_string(), "--seed", &seed.to_string()]);
    if let Some(one) = only {
        command.args(["--only", &one.to_string()]);
    }
    let mut worker = command.stdout(Stdio::piped()).spawn().map_err(|error| error.to_string())?;
    let output = worker.stdout.take().ok_or("the worker has no output")?;
    let (send, receive) = mpsc::channel();
    std::thread::spawn(move || {
        for line in BufReader::new(output).lines().map_while(Result::ok) {
            if send.send(line).is_err() {
                return;
            }
        }
    });
    loop {
        match receive.recv_timeout(PATIENCE) {
            Ok(line) => told(&line),
            Err(RecvTimeoutError::Disconnected) => break,
            Err(RecvTimeoutError::Timeout) => {
                let _ = worker.kill();
                let _ = worker.wait();
                let how = format!("has not ended after {} s", PATIENCE.as_secs());
                return Ok(Ended { good: false, began_to_end: false, how });
            }
        }
    }
    let status = worker.wait().map_err(|error| error.to_string())?;
    let how = format!("trapped ({status})");
    Ok(Ended { good: status.success(), began_to_end: status.code().is_some(), how })
}
