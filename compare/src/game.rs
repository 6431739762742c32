//! The game of an asker against any placing, against a reading of document 02 (A.12): every input, and some that are refused.

use crate::port;

/// What stands in the out-parameter before a call.
const UNTOUCHED: u32 = 0xDEAD_BEEF;

/// Which pages are live, and where runs start, as bits.
#[derive(Clone, Copy)]
struct State {
    live: u32,
    starts: u32,
}

/// So many pages from one on.
fn pages(first: u32, many: u32) -> u32 {
    ((1 << many) - 1) << first
}

impl State {
    fn placed(self, first: u32, many: u32) -> Option<State> {
        let run = pages(first, many);
        (self.live & run == 0).then_some(State { live: self.live | run, starts: self.starts | 1 << first })
    }

    /// Without the run that starts at a page; it ends where another starts or a page is free.
    fn released(self, first: u32) -> State {
        let mut end = first + 1;
        while self.live & 1 << end != 0 && self.starts & 1 << end == 0 {
            end += 1;
        }
        State { live: self.live & !pages(first, end - first), starts: self.starts & !(1 << first) }
    }
}

fn wins(n: u32, limit: u32, state: State, moves: u32) -> bool {
    if moves == 0 {
        return false;
    }
    let asks = 1..=limit - state.live.count_ones();
    let mut asks = asks.map(|many| (0..=n - many).filter_map(move |first| state.placed(first, many)));
    asks.any(|mut placings| placings.all(|next| wins(n, limit, next, moves - 1)))
        || (0..n).any(|first| state.starts & 1 << first != 0 && wins(n, limit, state.released(first), moves - 1))
}

/// The number that is due, and the out-parameter afterwards.
fn due(n: u64, limit: u64, moves: u64) -> (u32, u32) {
    if !(1..=6).contains(&n) || !(1..=n).contains(&limit) || moves > 8 {
        return (21, UNTOUCHED);
    }
    (0, u32::from(wins(n as u32, limit as u32, State { live: 0, starts: 0 }, moves as u32)))
}

pub fn run() -> bool {
    let (mut inputs, mut yes, mut refused, mut differences) = (0, 0, 0, 0);
    let beyond = [9, 10, 1 << 32, u64::MAX];
    let all = || (0..=8).chain(beyond);
    for (n, limit, moves) in all().flat_map(|n| all().flat_map(move |limit| all().map(move |moves| (n, limit, moves))))
    {
        let mut written = UNTOUCHED;
        let number = port::asker_wins(n, limit, moves, &mut written);
        match number {
            0 => inputs += 1,
            _ => refused += 1,
        }
        yes += u32::from(number == 0 && written == 1);
        if (number, written) != due(n, limit, moves) {
            println!("asker_wins({n}, {limit}, {moves}): the port answers {number} and writes {written}");
            differences += 1;
        }
    }
    println!("asker_wins: {inputs} inputs compared, {yes} of them yes; {refused} refused");
    println!("{differences} differences");
    differences == 0
}
