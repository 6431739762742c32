//! A line that tells for how long a trace has been going, on a terminal only. The library carries a trace out in one call.

use std::io::{stderr, IsTerminal, Write};
use std::sync::mpsc::{channel, RecvTimeoutError};
use std::thread;
use std::time::{Duration, Instant};

const PAUSE: Duration = Duration::from_millis(200);

pub fn until_done<T: Send>(steps: usize, work: impl FnOnce() -> T + Send) -> T {
    let (on, start) = (stderr().is_terminal(), Instant::now());
    thread::scope(|scope| {
        let (done, waiting) = channel::<()>();
        let worker = scope.spawn(move || {
            let result = work();
            drop(done);
            result
        });
        let mut shown = false;
        while waiting.recv_timeout(PAUSE) == Err(RecvTimeoutError::Timeout) {
            if on {
                // A line that cannot be shown is no reason to end.
                let _ = write!(stderr(), "\r{}\x1b[K", text(steps, start.elapsed()));
                shown = true;
            }
        }
        if shown {
            let _ = write!(stderr(), "\r\x1b[K");
        }
        worker.join().expect("the trace does not panic")
    })
}

pub fn text(steps: usize, time: Duration) -> String {
    format!("carrying out {steps} steps: {:.1} s", time.as_secs_f64())
}
