//! What small programs with a fixed seed ask for and give back, in their order. The first four are those of the crate's own benchmark.

use std::collections::{BTreeMap, HashMap, VecDeque};

use crate::random::Random;

/// A step of a program. Slots number the records that are there at a time.
#[derive(Clone, Copy)]
pub enum Step {
    Alloc { slot: u32, bytes: u32 },
    Free { slot: u32 },
}

pub struct Program {
    pub name: &'static str,
    run: fn(&mut Recorder),
}

pub const PROGRAMS: [Program; 6] = [
    Program { name: "values used latest", run: latest_used },
    Program { name: "a search that turns back", run: search },
    Program { name: "a queue in bursts", run: queue },
    Program { name: "a document, built and thrown away", run: document },
    Program { name: "pairs of one class", run: pairs },
    Program { name: "40 records of 60 sizes, one freed at random for each new one", run: mixed },
];

impl Program {
    /// Its steps, and how many records are there at a time.
    pub fn record(&self) -> (Vec<Step>, usize) {
        let mut recorder = Recorder { steps: Vec::new(), free_slots: Vec::new(), slots: 0, random: Random::new(1) };
        (self.run)(&mut recorder);
        (recorder.steps, recorder.slots as usize)
    }
}

struct Recorder {
    steps: Vec<Step>,
    free_slots: Vec<u32>,
    slots: u32,
    random: Random,
}

impl Recorder {
    fn alloc(&mut self, bytes: usize) -> u32 {
        let slot = self.free_slots.pop().unwrap_or_else(|| {
            self.slots += 1;
            self.slots - 1
        });
        self.steps.push(Step::Alloc { slot, bytes: bytes as u32 });
        slot
    }

    fn free(&mut self, slot: u32) {
        self.steps.push(Step::Free { slot });
        self.free_slots.push(slot);
    }

    fn below(&mut self, limit: usize) -> usize {
        self.random.index(limit)
    }
}

/// A store of 5,000 values that keeps those used latest: keys of which few are frequent, values of 20 to 2,000 bytes.
fn latest_used(trace: &mut Recorder) {
    let mut values: HashMap<usize, (u32, usize)> = HashMap::new();
    let mut by_use: BTreeMap<usize, usize> = BTreeMap::new();
    for turn in 0..150_000 {
        let key = trace.below(200) * trace.below(200);
        if let Some((_, used)) = values.get_mut(&key) {
            by_use.remove(used);
            *used = turn;
        } else {
            if values.len() == 5_000 {
                let (_, oldest) = by_use.pop_first().expect("a use of each");
                trace.free(values.remove(&oldest).expect("it is used").0);
            }
            let bytes = 20 + trace.below(45) * trace.below(45);
            values.insert(key, (trace.alloc(bytes), turn));
        }
        by_use.insert(turn, key);
    }
    for key in by_use.into_values() {
        trace.free(values[&key].0);
    }
}

/// A search that goes down with three records for each choice, and turns back by up to 30 choices.
fn search(trace: &mut Recorder) {
    let mut choices: Vec<[u32; 3]> = Vec::new();
    for _ in 0..30_000 {
        if choices.len() < 60 && trace.below(20) > 0 {
            let sizes = [16 + 8 * trace.below(4), 24, 8 + 8 * trace.below(30)];
            choices.push(sizes.map(|bytes| trace.alloc(bytes)));
            continue;
        }
        let stay = choices.len().saturating_sub(1 + trace.below(30));
        choices.drain(stay..).rev().flatten().for_each(|slot| trace.free(slot));
    }
    choices.into_iter().flatten().for_each(|slot| trace.free(slot));
}

/// A queue with up to 20,000 messages of 100 to 400 bytes, which comes in bursts.
fn queue(trace: &mut Recorder) {
    let mut messages = VecDeque::new();
    for _ in 0..60 {
        for _ in 0..trace.below(4_000) {
            let bytes = 100 + trace.below(300);
            messages.push_back(trace.alloc(bytes));
        }
        let most = if messages.len() > 20_000 { 20_000 } else { 4_000 };
        for _ in 0..trace.below(most).min(messages.len()) {
            let slot = messages.pop_front().expect("one of them");
            trace.free(slot);
        }
    }
    messages.into_iter().for_each(|slot| trace.free(slot));
}

/// A document that is built of 60,000 nodes of 32 to 96 bytes and then thrown away.
fn document(trace: &mut Recorder) {
    let nodes: Vec<u32> = (0..60_000)
        .map(|_| {
            let bytes = 32 + 16 * trace.below(5);
            trace.alloc(bytes)
        })
        .collect();
    nodes.into_iter().for_each(|slot| trace.free(slot));
}

fn pairs(trace: &mut Recorder) {
    for _ in 0..100_000 {
        let slot = trace.alloc(24);
        trace.free(slot);
    }
}

fn mixed(trace: &mut Recorder) {
    let size = |trace: &mut Recorder| 16 + 24 * trace.below(60);
    let mut records: Vec<u32> = Vec::new();
    for _ in 0..40 {
        let bytes = size(trace);
        records.push(trace.alloc(bytes));
    }
    for _ in 0..100_000 {
        let at = trace.below(records.len());
        trace.free(records.swap_remove(at));
        let bytes = size(trace);
        records.push(trace.alloc(bytes));
    }
    records.into_iter().for_each(|slot| trace.free(slot));
}
