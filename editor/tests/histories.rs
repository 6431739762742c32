//! Long histories of takes and releases: no two blocks that are out share a byte, nor one with a page held directly, and
//! every page that is held comes to light.

use std::collections::BTreeMap;

use vigbuso::{Block, Chunk, Class, Heap, Host, Run, PAGE_BYTES};

/// A plain linear congruential generator: the same history every time.
struct Random(u64);

impl Random {
    fn below(&mut self, limit: usize) -> usize {
        self.0 = self.0.wrapping_mul(6_364_136_223_846_793_005).wrapping_add(1_442_695_040_888_963_407);
        (self.0 >> 33) as usize % limit
    }
}

/// Bytes that a block or a direct run has: where each starts and ends.
#[derive(Default)]
struct InUse(BTreeMap<u64, u64>);

impl InUse {
    fn add(&mut self, first: u64, end: u64) {
        if let Some((_, &before)) = self.0.range(..end).next_back() {
            assert!(before <= first, "bytes {first} to {end} are in use already");
        }
        self.0.insert(first, end);
    }

    /// Forgets the block or run that starts here.
    fn remove(&mut self, first: u64) {
        assert!(self.0.remove(&first).is_some());
    }
}

struct Play {
    heap: Heap,
    random: Random,
    in_use: InUse,
    /// The blocks that are out, by class.
    out: BTreeMap<Class, Vec<Block>>,
    runs: Vec<Run>,
    nothing_left: usize,
}

impl Play {
    fn new(pages: u64, seed: u64) -> Play {
        let mut heap = Heap::open(pages).expect("a length");
        heap.set_host(Host::ALL);
        let (in_use, out, runs) = (InUse::default(), BTreeMap::new(), Vec::new());
        Play { heap, random: Random(seed), in_use, out, runs, nothing_left: 0 }
    }

    fn class(&mut self) -> Class {
        let number = |random: &mut Random, limit| u32::try_from(random.below(limit)).expect("at most 64");
        match self.random.below(4) {
            0 => Class::medium(number(&mut self.random, 12)),
            1 => Class::small(number(&mut self.random, 64)),
            _ => Class::small(number(&mut self.random, 4) * 15),
        }
        .expect("a class")
    }

    fn take(&mut self) {
        let class = self.class();
        let bytes = class.bytes() as u64;
        let taken = self.heap.take(class).expect("an opened book");
        self.nothing_left += usize::from(taken.is_empty());
        for &block in &taken {
            assert_eq!(block.kind(), class.kind());
            assert!(class.first_page(block).is_some());
            assert!(self.heap.contains(block.byte_offset(), bytes));
            self.in_use.add(block.byte_offset(), block.byte_offset() + bytes);
        }
        self.out.entry(class).or_default().extend(taken);
    }

    /// Releases some blocks of a class: those of one page, or any.
    fn release(&mut self) {
        let classes: Vec<Class> = self.out.iter().filter(|(_, out)| !out.is_empty()).map(|(&class, _)| class).collect();
        if classes.is_empty() {
            return;
        }
        let class = classes[self.random.below(classes.len())];
        let out = self.out.get_mut(&class).expect("it is listed");
        let run = class.first_page(out[self.random.below(out.len())]);
        let (any, most) = (self.random.below(2) == 0, 1 + self.random.below(80));
        let mut list = Vec::new();
        out.retain(|&block| {
            let goes = (any || class.first_page(block) == run) && list.len() < most;
            if goes {
                list.push(block);
            }
            !goes
        });
        if any {
            self.heap.release_all(class, &mut list).expect("the blocks are out");
        } else {
            self.heap.release(class, &list).expect("the blocks are out, and on one page");
        }
        for block in list {
            self.in_use.remove(block.byte_offset());
        }
    }

    fn direct(&mut self) {
        if self.random.below(2) == 0 || self.runs.is_empty() {
            let pages = 1 + self.random.below(5) as u64;
            if let Some(answer) = self.heap.commit(pages).expect("a length") {
                self.add_run(answer.run);
            }
            return;
        }
        let run = self.runs.swap_remove(self.random.below(self.runs.len()));
        self.in_use.remove(run.bytes().start);
        if self.random.below(2) == 0 {
            self.heap.release_run(run).expect("the run is held");
            return;
        }
        let grown = self.heap.grow_frontier(run, run.pages + 1).expect("the run is held");
        self.add_run(grown.unwrap_or(run));
    }

    fn add_run(&mut self, run: Run) {
        self.in_use.add(run.bytes().start, run.bytes().end);
        self.runs.push(run);
    }

    /// Every page with a byte in use is held.
    fn check(&self) {
        let page = PAGE_BYTES as u64;
        let ends = self.in_use.0.iter().map(|(&first, &end)| (first / page, (end - 1) / page));
        let mut pages: Vec<u64> = ends.flat_map(|(first, last)| first..=last).collect();
        pages.dedup();
        let report = self.heap.report().expect("a reached book");
        assert!(pages.len() as u64 <= report.held);
        assert_eq!(report.abandoned, 0);
        assert_eq!(report.held + report.idle, self.heap.pages() + report.overlap);
    }
}

fn play(pages: u64, seed: u64, calls: usize) -> Play {
    let mut play = Play::new(pages, seed);
    for call in 0..calls {
        match play.random.below(5) {
            0 | 1 => play.take(),
            2 | 3 => play.release(),
            _ => play.direct(),
        }
        if call % 100 == 0 {
            play.check();
        }
    }
    play.check();
    play
}

#[test]
fn blocks_are_disjoint_with_room_to_spare() {
    play(4_000, 1, 3_000);
}

#[test]
fn blocks_are_disjoint_when_the_arena_runs_out() {
    assert!(play(24, 2, 3_000).nothing_left > 0);
}

#[test]
fn a_release_by_chunks_returns_everything() {
    let class = Class::small(20).expect("0 to 63");
    let mut heap = Heap::open(64).expect("64 pages");
    let blocks: Vec<Block> = (0..100).flat_map(|_| heap.take(class).expect("there is room")).collect();
    let held = heap.report().expect("a reached book").held;
    let chunks = Chunk::of(&blocks);
    assert_eq!(chunks.len() as u64, held);
    let fates = heap.release_chunks(class, &blocks, &chunks).expect("the blocks are out");
    assert!(fates.iter().all(|fate| fate.is_retired()));
    assert_eq!(fates.len(), chunks.len());
}

/// One take may be of several pages: `release` refuses it then, `release_all` does not.
#[test]
fn a_take_of_two_pages_goes_back_whole() {
    let class = Class::small(45).expect("0 to 63");
    let mut heap = Heap::open(64).expect("64 pages");
    let pages: Vec<_> = (0..4).map(|_| heap.take(class).expect("there is room")).collect();
    for page in &pages {
        heap.release(class, &page[..1]).expect("they are out");
    }
    let mut taken = heap.take(class).expect("there are partial pages");
    assert_eq!(taken.len(), 4);
    assert!(heap.release(class, &taken).is_err());
    heap.release_all(class, &mut taken).expect("they are out");
}

/// More pages than a call has chunks.
#[test]
fn a_list_of_very_many_pages_goes_back() {
    let class = Class::small(45).expect("0 to 63");
    let mut heap = Heap::open(2_200).expect("2,200 pages");
    let mut blocks: Vec<Block> = (0..2_200).flat_map(|_| heap.take(class).expect("there is room")).collect();
    assert_eq!(blocks.len(), 6_600);
    heap.release_all(class, &mut blocks).expect("they are out");
    // All but the pages that the class parks are the arena's again.
    assert_eq!(heap.report().expect("a reached book").held, 260);
}

/// Virgin speaks of pages: on a run that came back, the bytes are old.
#[test]
fn virgin_blocks_on_a_reused_run_have_old_bytes() {
    let mut arena = vec![0; PAGE_BYTES];
    let mut heap = Heap::open(1).expect("a page");
    let run = heap.commit(1).expect("a length").expect("there is room").run;
    arena[run.range()].fill(1);
    heap.release_run(run).expect("it is held");
    let taken = heap.take(Class::small(0).expect("0 to 63")).expect("an opened book");
    assert!(taken.is_virgin());
    assert!(taken.iter().all(|block| arena[block.range(16)] == [1; 16]));
}
