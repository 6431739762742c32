//! What a batch of calls costs: nanoseconds by the clock, or instructions by valgrind.

use std::hint::black_box;
use std::time::Instant;

use super::counter::Counter;
use super::rounds::Quartiles;

pub enum Meter {
    /// What reading the clock twice costs is taken off every batch.
    Clock {
        cost: f64,
    },
    Counter(Counter),
}

impl Meter {
    pub fn calibrated_clock() -> Meter {
        let clock = Meter::Clock { cost: 0.0 };
        let empty: Vec<f64> = (0..20_000).map(|_| clock.measure(1, || ()).1).collect();
        Meter::Clock { cost: Quartiles::of(empty).lower }
    }

    /// What measuring costs by itself, and is taken off.
    pub fn own(&self) -> f64 {
        match self {
            Meter::Clock { cost } => *cost,
            Meter::Counter(_) => 0.0,
        }
    }

    /// What the work answers, and its cost for each of so many calls.
    #[inline]
    pub fn measure<T>(&self, calls: usize, work: impl FnOnce() -> T) -> (T, f64) {
        if let Meter::Counter(counter) = self {
            counter.begin();
        }
        let began = Instant::now();
        let answer = black_box(work());
        let nanoseconds = began.elapsed().as_nanos() as f64;
        let cost = match self {
            Meter::Clock { cost } => (nanoseconds - cost).max(0.0),
            Meter::Counter(counter) => counter.end() as f64,
        };
        (answer, cost / calls as f64)
    }
}
