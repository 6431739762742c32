//! A pool and a region against the system's malloc, on the same traces: what each program asked for and gave back, in its order.
//!
//!     cargo bench --bench pool
//!
//! The traces are recorded anew each time, by small programs with a fixed seed. Replays alternate between the three sides; of
//! each side's rounds the lower quartile counts. Every record gets its first eight bytes written; a region's, which is 0 else, all.
#![allow(clippy::cast_possible_truncation, clippy::cast_precision_loss)] // sizes and times are small

use std::collections::{BTreeMap, HashMap};
use std::hint::black_box;
use std::time::Instant;

use vigbuso::{Block, Handle, Pool, Region, PAGE_BYTES};

const PAGES: usize = 2_048;
const ROUNDS: usize = 41;

/// A step of a trace. Slots number the records that are there at a time.
#[derive(Clone, Copy)]
enum Step {
    Alloc { slot: u32, bytes: u32 },
    Free { slot: u32 },
}

/// Records what a program asks for and gives back.
#[derive(Default)]
struct Recorder {
    steps: Vec<Step>,
    free_slots: Vec<u32>,
    slots: u32,
    random: u64,
}

impl Recorder {
    fn alloc(&mut self, bytes: usize) -> u32 {
        let slot = self.free_slots.pop().unwrap_or_else(|| {
            self.slots += 1;
            self.slots - 1
        });
        self.steps.push(Step::Alloc { slot, bytes: bytes as u32 });
        slot
    }

    fn free(&mut self, slot: u32) {
        self.steps.push(Step::Free { slot });
        self.free_slots.push(slot);
    }

    fn below(&mut self, limit: usize) -> usize {
        self.random = self.random.wrapping_mul(6_364_136_223_846_793_005).wrapping_add(1_442_695_040_888_963_407);
        (self.random >> 33) as usize % limit
    }
}

/// A store of 5,000 values that keeps those used latest: keys of which few are frequent, values of 20 to 2,000 bytes.
fn latest_used(trace: &mut Recorder) {
    let mut values: HashMap<usize, (u32, usize)> = HashMap::new();
    let mut by_use: BTreeMap<usize, usize> = BTreeMap::new();
    for turn in 0..150_000 {
        let key = trace.below(200) * trace.below(200);
        if let Some((_, used)) = values.get_mut(&key) {
            by_use.remove(used);
            *used = turn;
        } else {
            if values.len() == 5_000 {
                let (_, oldest) = by_use.pop_first().expect("a use of each");
                trace.free(values.remove(&oldest).expect("it is used").0);
            }
            let bytes = 20 + trace.below(45) * trace.below(45);
            values.insert(key, (trace.alloc(bytes), turn));
        }
        by_use.insert(turn, key);
    }
    for key in by_use.into_values() {
        trace.free(values[&key].0);
    }
}

/// A search that goes down with three records for each choice, and turns back by up to 30 choices.
fn search(trace: &mut Recorder) {
    let mut choices: Vec<[u32; 3]> = Vec::new();
    for _ in 0..30_000 {
        if choices.len() < 60 && trace.below(20) > 0 {
            let sizes = [16 + 8 * trace.below(4), 24, 8 + 8 * trace.below(30)];
            choices.push(sizes.map(|bytes| trace.alloc(bytes)));
            continue;
        }
        let stay = choices.len().saturating_sub(1 + trace.below(30));
        choices.drain(stay..).rev().flatten().for_each(|slot| trace.free(slot));
    }
    choices.into_iter().flatten().for_each(|slot| trace.free(slot));
}

/// A queue with up to 20,000 messages of 100 to 400 bytes, which comes in bursts.
fn queue(trace: &mut Recorder) {
    let mut messages = std::collections::VecDeque::new();
    for _ in 0..60 {
        for _ in 0..trace.below(4_000) {
            let bytes = 100 + trace.below(300);
            messages.push_back(trace.alloc(bytes));
        }
        let most = if messages.len() > 20_000 { 20_000 } else { 4_000 };
        for _ in 0..trace.below(most).min(messages.len()) {
            let slot = messages.pop_front().expect("one of them");
            trace.free(slot);
        }
    }
    for slot in messages {
        trace.free(slot);
    }
}

/// A document that is built of 60,000 nodes of 32 to 96 bytes and then thrown away.
fn document(trace: &mut Recorder) {
    let nodes: Vec<u32> = (0..60_000)
        .map(|_| {
            let bytes = 32 + 16 * trace.below(5);
            trace.alloc(bytes)
        })
        .collect();
    for slot in nodes {
        trace.free(slot);
    }
}

#[inline(never)] // so that its instructions can be counted
fn with_malloc(steps: &[Step], slots: &mut [Vec<u8>]) {
    for step in steps {
        match *step {
            Step::Alloc { slot, bytes } => {
                let mut record = Vec::with_capacity(bytes as usize);
                record.extend_from_slice(&[1; 8]);
                slots[slot as usize] = black_box(record);
            }
            Step::Free { slot } => drop(std::mem::take(&mut slots[slot as usize])),
        }
    }
}

#[inline(never)]
fn with_pool(steps: &[Step], slots: &mut [Option<Block>], pool: &mut Pool, arena: &mut [u8]) {
    for step in steps {
        match *step {
            Step::Alloc { slot, bytes } => {
                let block = pool.alloc(bytes as usize).expect("there is room");
                arena[block.range(8)].copy_from_slice(&[1; 8]);
                slots[slot as usize] = black_box(Some(block));
            }
            Step::Free { slot } => {
                let block = slots[slot as usize].take().expect("a record");
                pool.free(block).expect("it is out");
            }
        }
    }
}

#[inline(never)]
fn with_region(steps: &[Step], slots: &mut [Option<Handle>], region: &mut Region) {
    for step in steps {
        match *step {
            Step::Alloc { slot, bytes } => {
                let handle = region.alloc_zeroed(bytes as usize).expect("there is room");
                region[handle][..8].copy_from_slice(&[1; 8]);
                slots[slot as usize] = black_box(Some(handle));
            }
            Step::Free { slot } => {
                let handle = slots[slot as usize].take().expect("a record");
                region.free(handle).expect("it is there");
            }
        }
    }
}

/// The lower quartile of the rounds' times, in nanoseconds for each step.
fn quartile(mut rounds: Vec<f64>) -> f64 {
    rounds.sort_by(f64::total_cmp);
    rounds[rounds.len() / 4]
}

/// What a trace came to: its steps, its slots, and the nanoseconds of a step for each side.
fn measure(program: fn(&mut Recorder)) -> (usize, usize, [f64; 3]) {
    let mut trace = Recorder { random: 1, ..Recorder::default() };
    program(&mut trace);
    let (steps, slots) = (trace.steps, trace.slots as usize);
    let (mut pool, mut arena) = (Pool::open(PAGES as u64).expect("a length"), vec![0; PAGES * PAGE_BYTES]);
    let mut region = Region::open(PAGES as u64).expect("a length");
    let (mut records, mut blocks, mut handles) = (vec![Vec::new(); slots], vec![None; slots], vec![None; slots]);
    let mut rounds = [const { Vec::new() }; 3];
    let time = |work: &mut dyn FnMut()| {
        let start = Instant::now();
        work();
        start.elapsed().as_nanos() as f64 / steps.len() as f64
    };
    for round in 0..ROUNDS {
        let times = [
            time(&mut || with_malloc(&steps, &mut records)),
            time(&mut || with_pool(&steps, &mut blocks, &mut pool, &mut arena)),
            time(&mut || with_region(&steps, &mut handles, &mut region)),
        ];
        // The first round finds cold memory on all sides.
        if round > 0 {
            rounds.iter_mut().zip(times).for_each(|(rounds, time)| rounds.push(time));
        }
    }
    pool.flush().expect("nothing was freed twice");
    assert!(region.is_empty());
    (steps.len(), slots, rounds.map(quartile))
}

fn main() {
    let row = |name: &str, program: fn(&mut Recorder)| {
        let (steps, slots, [malloc, pool, region]) = measure(program);
        let (pools, regions) = (pool / malloc, region / malloc);
        println!("| {name} | {steps} | {slots} | {malloc:.1} | {pool:.1} | {pools:.2} | {region:.1} | {regions:.2} |");
    };
    println!("| trace | steps | records at a time, at most | malloc ns | pool ns | ratio | region ns | ratio |");
    println!("|---|---|---|---|---|---|---|---|");
    row("values used latest", latest_used);
    row("a search that turns back", search);
    row("a queue in bursts", queue);
    row("a document, built and thrown away", document);
}
