//! Rounds that alternate between the two sides, and what is told of them.

use std::time::{Duration, Instant};

use super::meter::Meter;
use super::scenarios::Scenario;
use super::sides::Side;

/// Of one round: what a call costs for each row, and the answers, which must be the same on both sides.
#[derive(Default)]
pub struct Round {
    pub costs: Vec<f64>,
    pub answers: Vec<u64>,
}

impl Round {
    pub fn new<T: Into<u64>>(costs: Vec<f64>, answers: Vec<T>) -> Round {
        Round { costs, answers: answers.into_iter().map(T::into).collect() }
    }
}

#[derive(Clone, Copy)]
pub struct Quartiles {
    pub lower: f64,
    pub upper: f64,
}

impl Quartiles {
    pub fn of(mut values: Vec<f64>) -> Quartiles {
        values.sort_by(f64::total_cmp);
        let at = |quarters: usize| values[(values.len() - 1) * quarters / 4];
        Quartiles { lower: at(1), upper: at(3) }
    }
}

/// Of one row: both sides, and the rounds of each.
pub struct Measured {
    pub original: Quartiles,
    pub port: Quartiles,
    pub rounds: usize,
}

const LEAST_ROUNDS: usize = 40;
/// Rounds that are not counted.
const FIRST_ROUNDS: usize = 5;

pub fn measure(
    scenario: &Scenario,
    original: &mut impl Side,
    port: &mut impl Side,
    budget: Duration,
    clock: &Meter,
) -> Result<Vec<Measured>, String> {
    let rows = scenario.rows().len();
    let mut times = vec![(Vec::new(), Vec::new()); rows];
    let began = Instant::now();
    let mut rounds = 0;
    while rounds < FIRST_ROUNDS + LEAST_ROUNDS || began.elapsed() < budget {
        let both = on_both(scenario, original, port, clock, rounds)?;
        rounds += 1;
        if rounds > FIRST_ROUNDS {
            for (row, of_row) in times.iter_mut().enumerate() {
                of_row.0.push(both.0[row]);
                of_row.1.push(both.1[row]);
            }
        }
    }
    let measured = |(original, port)| Measured {
        original: Quartiles::of(original),
        port: Quartiles::of(port),
        rounds: rounds - FIRST_ROUNDS,
    };
    Ok(times.into_iter().map(measured).collect())
}

/// What a call costs for each row in a round on the original and on the port, which must answer the same. Neither side
/// always comes first.
pub fn on_both(
    scenario: &Scenario,
    original: &mut impl Side,
    port: &mut impl Side,
    meter: &Meter,
    turn: usize,
) -> Result<(Vec<f64>, Vec<f64>), String> {
    let (of_original, of_port) = if turn % 2 == 0 {
        let of_original = scenario.round(original, meter);
        (of_original, scenario.round(port, meter))
    } else {
        let of_port = scenario.round(port, meter);
        (scenario.round(original, meter), of_port)
    };
    if !port.is_sound() {
        return Err("the port refuses a call".into());
    }
    if of_original.answers != of_port.answers {
        return Err(difference(&of_original.answers, &of_port.answers));
    }
    Ok((of_original.costs, of_port.costs))
}

fn difference(original: &[u64], port: &[u64]) -> String {
    match original.iter().zip(port).position(|(one, other)| one != other) {
        Some(at) => format!("answer {at}: the original's is {}, the port's {}", original[at], port[at]),
        None => format!("the original has {} answers, the port {}", original.len(), port.len()),
    }
}
