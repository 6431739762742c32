//! The listing of short histories, against a reading of document 02 (A.10): every input, with lists that are long enough and too
//! short, and numbers outside. The arena is the papers', with page numbers, holes in a list, best fit of the lowest page, and joins.

use crate::port;

/// What stands in the list and the out-parameter before a call.
const UNTOUCHED: u32 = 0xDEAD_BEEF;

const COUNT_UNTOUCHED: u64 = 0xDEAD_BEEF_DEAD_BEEF;

#[derive(Clone, Copy)]
struct Run {
    first: u64,
    pages: u64,
}

/// An arena, the calls so far as they are written, and the run from each while it is held.
#[derive(Clone, Default)]
struct State {
    frontier: u64,
    holes: Vec<Run>,
    written: Vec<u32>,
    runs: Vec<Option<Run>>,
}

impl State {
    /// From the front of the lowest of the shortest holes that suffice, else from the frontier.
    fn draw(&mut self, size: u64, pages: u64) -> Option<Run> {
        let enough = (0..self.holes.len()).filter(|&i| self.holes[i].pages >= pages);
        let Some(best) = enough.min_by_key(|&i| (self.holes[i].pages, self.holes[i].first)) else {
            let first = self.frontier;
            self.frontier += if first + pages <= size { pages } else { 0 };
            return (self.frontier > first).then_some(Run { first, pages });
        };
        let hole = &mut self.holes[best];
        let first = hole.first;
        *hole = Run { first: first + pages, pages: hole.pages - pages };
        if hole.pages == 0 {
            self.holes.swap_remove(best);
        }
        Some(Run { first, pages })
    }

    /// With the hole that ends where it starts, and the one that starts where it ends.
    fn give(&mut self, mut run: Run) {
        self.holes.retain(|hole| {
            let (before, after) = (hole.first + hole.pages == run.first, run.first + run.pages == hole.first);
            if before || after {
                run = Run { first: run.first.min(hole.first), pages: run.pages + hole.pages };
            }
            !before && !after
        });
        self.holes.push(run);
    }

    fn commit(&self, size: u64, pages: u64) -> State {
        let mut next = self.clone();
        next.written.push(pages as u32);
        let run = next.draw(size, pages);
        next.runs.push(run);
        next
    }

    fn release(&self, earlier: usize) -> Option<State> {
        let mut next = self.clone();
        let run = next.runs[earlier].take()?;
        next.give(run);
        next.written.push(3 + 1 + earlier as u32);
        next.runs.push(None);
        Some(next)
    }

    /// All that can come next, in the order.
    fn next(&self, size: u64) -> Vec<State> {
        let releases = (0..self.runs.len()).filter_map(|earlier| self.release(earlier));
        (1..=size).map(|pages| self.commit(size, pages)).chain(releases).collect()
    }
}

/// The whole listing, call by call: all histories of a length, then each with one call more.
fn listing(size: u64, length: u64) -> Vec<u32> {
    let one = vec![State::default()];
    let all = (0..length).fold(one, |all, _| all.iter().flat_map(|state| state.next(size)).collect());
    all.into_iter().flat_map(|state| state.written).collect()
}

/// The number that is due, and list and out-parameter afterwards.
fn due(size: u64, length: u64, room: usize) -> (u32, Vec<u32>, u64) {
    let mut list = vec![UNTOUCHED; room];
    if !(1..=3).contains(&size) || length > 4 {
        return (20, list, COUNT_UNTOUCHED);
    }
    let numbers = listing(size, length);
    match list.get_mut(..numbers.len()) {
        None => (20, list, COUNT_UNTOUCHED),
        Some(front) => {
            front.copy_from_slice(&numbers);
            (0, list, numbers.len() as u64)
        }
    }
}

pub fn run() -> bool {
    let (mut listed, mut numbers, mut refused, mut differences) = (0, 0, 0, 0);
    let beyond = [5, 6, 1 << 32, (1 << 32) + 1, u64::MAX];
    let all = || (0..=4).chain(beyond);
    for (size, length) in all().flat_map(|size| all().map(move |length| (size, length))) {
        for room in 0..=800 {
            let mut list = vec![UNTOUCHED; room];
            let mut written = COUNT_UNTOUCHED;
            let number = port::short_histories(size, length, &mut list, &mut written);
            match number {
                0 => listed += 1,
                _ => refused += 1,
            }
            numbers += if number == 0 { written } else { 0 };
            if (number, list, written) != due(size, length, room) {
                println!(
                    "short_histories({size}, {length}) with room for {room}: the port answers {number}, {written}"
                );
                differences += 1;
            }
        }
    }
    println!("short_histories: {listed} listings with {numbers} numbers compared; {refused} refused");
    println!("{differences} differences");
    differences == 0
}
