//! Takes and releases, the pool's calls and the direct ones on one book, in any order. Whatever is out shares no byte with anything
//! else that is out, and what is given back the wrong way is refused and changes no word of the book.

use std::collections::{BTreeMap, BTreeSet};

use crate::heap::{granule, Answer, Family, Heap, ALL};

/// Few pages, so that they change hands often.
const PAGES: u64 = 32;
const PAGE: u64 = 65_536;

/// Classes by one number, with the bytes of their blocks. Heap and pool use all of them.
const CLASSES: [(u32, u64); 8] =
    [(0, 16), (6, 112), (21, 912), (44, 14_752), (45, 16_384), (46, 16_384), (65, 20_736), (75, 65_472)];

/// All granted; plain memory; no commit, no zeroes. The reservation is granted in all of them.
const HOSTS: [u32; 6] = [ALL, ALL, ALL, 3, 13, 7];

/// Who has handed something out.
#[derive(Clone, Copy, PartialEq, Eq, PartialOrd, Ord, Debug)]
enum Holder {
    Heap(u32),
    Pool(u32),
    Hand,
}

/// A block that is out, or a page that is held by hand.
#[derive(Clone, Copy, Debug)]
struct Live {
    holder: Holder,
    end: u64,
}

struct Program {
    heap: Heap,
    /// By first byte; and the first bytes by holder.
    live: BTreeMap<u64, Live>,
    held: BTreeSet<(Holder, u64)>,
    /// Words that were handed out some time.
    seen: Vec<u64>,
    random: u64,
    /// How many calls were right, found no room, and were wrong.
    right: usize,
    full: usize,
    wrong: usize,
}

fn word(class: u32, start: u64) -> u64 {
    Family::of(class).0.word(start / 16)
}

impl Program {
    fn open(rows: &[u32], seed: u64) -> Program {
        let heap = Heap::open_with(PAGES, rows);
        let (live, held, seen) = Default::default();
        Program { heap, live, held, seen, random: seed, right: 0, full: 0, wrong: 0 }
    }

    fn below(&mut self, limit: usize) -> usize {
        self.random = self.random.wrapping_mul(6_364_136_223_846_793_005).wrapping_add(1_442_695_040_888_963_407);
        (self.random >> 33) as usize % limit
    }

    fn class(&mut self) -> (u32, u64) {
        CLASSES[self.below(CLASSES.len())]
    }

    fn host(&mut self) -> u32 {
        HOSTS[self.below(HOSTS.len())]
    }

    /// These bytes are handed out: nobody has one of them, and they are in the arena.
    fn add(&mut self, holder: Holder, start: u64, bytes: u64) {
        let end = start + bytes;
        let before = self.live.range(..end).next_back();
        assert!(before.is_none_or(|(_, before)| before.end <= start), "{holder:?} from {start} on: {before:?} is out");
        assert!(end <= PAGES * PAGE && self.heap.contains(start, bytes));
        self.live.insert(start, Live { holder, end });
        self.held.insert((holder, start));
    }

    /// Something that is out with this holder, as first byte.
    fn pick(&mut self, holder: Holder) -> Option<u64> {
        let from = self.below((PAGES * PAGE) as usize) as u64;
        let from_on = |from| self.held.range((holder, from)..).next().filter(|found| found.0 == holder);
        from_on(from).or_else(|| from_on(0)).map(|found| found.1)
    }

    /// Some of what is out with this holder, at most so many, in no order.
    fn some(&mut self, holder: Holder, most: usize) -> Vec<u64> {
        let mut starts: Vec<u64> = (0..=self.below(most)).filter_map(|_| self.pick(holder)).collect();
        starts.sort_unstable();
        starts.dedup();
        for at in (1..starts.len()).rev() {
            let other = self.below(at + 1);
            starts.swap(at, other);
        }
        starts
    }

    fn remove(&mut self, starts: &[u64]) {
        for start in starts {
            let live = self.live.remove(start).expect("it was out");
            assert!(self.held.remove(&(live.holder, *start)));
        }
        self.right += starts.len();
    }

    fn take(&mut self) {
        let ((class, bytes), host) = (self.class(), self.host());
        let (family, number) = Family::of(class);
        let (granules, _) = self.heap.take(family, number, host).expect("a right call");
        self.full += usize::from(granules.is_empty());
        for granule in granules {
            self.add(Holder::Heap(class), 16 * granule, bytes);
            self.seen.push(family.word(granule));
        }
    }

    /// By list: blocks of one page or span.
    fn release(&mut self) {
        let ((class, bytes), host) = (self.class(), self.host());
        let (family, number) = Family::of(class);
        let starts = self.some(Holder::Heap(class), 70);
        let Some(&first) = starts.first() else { return };
        let run = |start: u64| run_of(class, bytes, start);
        let list: Vec<u64> = starts.into_iter().filter(|&start| run(start) == run(first)).collect();
        let granules: Vec<u64> = list.iter().map(|start| start / 16).collect();
        assert!(self.heap.give(family, number, host, &granules).is_ok());
        self.remove(&list);
    }

    /// By chunks: blocks of any pages.
    fn release_chunks(&mut self) {
        let (class, _) = self.class();
        if class >= 64 {
            return;
        }
        let list = self.some(Holder::Heap(class), 70);
        if list.is_empty() {
            return;
        }
        let granules: Vec<u64> = list.iter().map(|start| start / 16).collect();
        let chunks = chunks_of(&granules);
        assert!(self.heap.give_chunks(class, &granules, &chunks, chunks.len()).is_ok());
        self.remove(&list);
    }

    fn alloc(&mut self) {
        let ((class, bytes), host) = (self.class(), self.host());
        match self.heap.alloc(class, host).expect("a right call") {
            Some(word) => {
                self.add(Holder::Pool(class), 16 * granule(word), bytes);
                self.seen.push(word);
                assert!(self.heap.granted(class, word) && self.heap.class_of(word) == class);
            }
            None => self.full += 1,
        }
    }

    fn free(&mut self) {
        let ((class, _), host) = (self.class(), self.host());
        if let Some(start) = self.pick(Holder::Pool(class)) {
            assert_eq!(self.heap.free(class, host, word(class, start)), Ok(()));
            self.remove(&[start]);
        }
    }

    /// What goes back was nobody's.
    fn trim(&mut self) {
        let ((class, bytes), host) = (self.class(), self.host());
        let stocked = self.heap.stocked(class);
        let word = self.heap.trim(class, host).expect("a right call");
        assert_eq!(word.is_some(), stocked > 0);
        if let Some(start) = word.map(|word| 16 * granule(word)) {
            assert_eq!(self.heap.stocked(class), stocked - 1);
            self.add(Holder::Pool(class), start, bytes);
            self.remove(&[start]);
        }
    }

    fn commit(&mut self) {
        let (pages, host) = (1 + self.below(4) as u64, self.host());
        match self.heap.commit(host, pages).expect("a right call") {
            Some((first, _)) => self.hold(first.into(), pages),
            None => self.full += 1,
        }
    }

    fn hold(&mut self, first: u64, pages: u64) {
        for page in first..first + pages {
            self.add(Holder::Hand, page * PAGE, PAGE);
        }
        self.right += 1;
    }

    /// Pages side by side that are held by hand: the first and how many.
    fn run(&mut self) -> Option<(u64, u64)> {
        let first = self.pick(Holder::Hand)? / PAGE;
        let most = 1 + self.below(4) as u64;
        let held = |page: &u64| self.live.get(&(page * PAGE)).is_some_and(|live| live.holder == Holder::Hand);
        Some((first, (first..first + most).take_while(held).count() as u64))
    }

    fn grow(&mut self) {
        let (host, more) = (self.host(), 1 + self.below(3) as u64);
        let Some((first, pages)) = self.run() else { return };
        if self.heap.grow(host, first, pages, pages + more).expect("a right call") {
            self.hold(first + pages, more);
        }
    }

    fn give(&mut self) {
        let host = self.host();
        let Some((first, pages)) = self.run() else { return };
        assert_eq!(self.heap.release(host, first, pages), Ok(()));
        let starts: Vec<u64> = (first..first + pages).map(|page| page * PAGE).collect();
        self.remove(&starts);
    }

    /// A call that is refused with this number and changes nothing.
    #[track_caller]
    fn refused<T>(&mut self, number: u32, call: impl Fn(&mut Heap) -> Answer<T>) {
        let before = self.heap.book.clone();
        assert_eq!(call(&mut self.heap).err(), Some(number));
        assert!(self.heap.book == before, "refused as {number}, and the book changed");
        self.wrong += 1;
    }

    /// A word that some call has handed out, or one beside it, is given back in some class to heap and pool: to whoever has not
    /// handed it out in that class.
    fn give_wrongly(&mut self) {
        let place = self.below(self.seen.len().max(1));
        let Some(&seen) = self.seen.get(place) else { return };
        let ((class, _), host, beside) = (self.class(), self.host(), [0, 0, 0, 1, 64, 4_096][self.below(6)]);
        let (family, number) = Family::of(class);
        let block = seen + beside;
        let (granule, kind) = (granule(block), if family.word(0) == block - granule(block) { 10 } else { 9 });
        let holder = self.live.get(&(16 * granule)).map(|live| live.holder);
        let of = holder.map(|holder| match holder {
            Holder::Heap(class) | Holder::Pool(class) => class,
            Holder::Hand => 76,
        });
        assert!(of.is_none_or(|of| self.heap.class_of(block) == of), "{holder:?}");
        let granted = kind == 10 && holder == Some(Holder::Pool(class));
        assert_eq!(self.heap.granted(class, block), granted);
        if !granted {
            self.refused(kind, |heap| heap.free(class, host, block));
        }
        if holder == Some(Holder::Heap(class)) {
            return self.refused(15, |heap| heap.give(family, number, host, &[granule, granule]));
        }
        self.refused(10, |heap| heap.give(family, number, host, &[granule]));
        // Beside one that is right, which then stays out too.
        if let Some(right) = self.pick(Holder::Heap(class)) {
            let list = [right / 16, granule];
            self.refused(10, |heap| heap.give(family, number, host, &list));
            if class < 64 {
                self.refused(10, |heap| heap.give_chunks(class, &list, &chunks_of(&list), 2));
            }
        }
    }

    /// Pages of which one at least is not held by hand.
    fn give_pages_wrongly(&mut self) {
        let (host, first, pages) = (self.host(), self.below(PAGES as usize) as u64, 1 + self.below(4) as u64);
        let held = |page: u64| self.live.get(&(page * PAGE)).is_some_and(|live| live.holder == Holder::Hand);
        if !(first..first + pages).all(held) {
            self.refused(12, |heap| heap.release(host, first, pages));
            self.refused(12, |heap| heap.grow(host, first, pages, pages + 1));
        }
    }

    fn step(&mut self) {
        match self.below(32) {
            0..3 => self.take(),
            3..9 => self.release(),
            9..12 => self.release_chunks(),
            12..19 => self.alloc(),
            19..23 => self.free(),
            23..25 => self.trim(),
            25 => self.commit(),
            26 => self.grow(),
            27 => self.give(),
            28..31 => self.give_wrongly(),
            _ => self.give_pages_wrongly(),
        }
        // So that pages change hands.
        if self.below(100) == 0 {
            let place = self.below(self.held.len().max(1));
            if let Some(&(holder, _)) = self.held.iter().nth(place) {
                self.give_all(holder);
            }
        }
    }

    /// All that one of them has out goes back, block by block and page by page.
    fn give_all(&mut self, holder: Holder) {
        while let Some(start) = self.pick(holder) {
            let answer = match holder {
                Holder::Heap(class) => {
                    let (family, number) = Family::of(class);
                    self.heap.give(family, number, ALL, &[start / 16]).map(drop)
                }
                Holder::Pool(class) => self.heap.free(class, ALL, word(class, start)),
                Holder::Hand => self.heap.release(ALL, start / PAGE, 1),
            };
            assert_eq!(answer, Ok(()), "{holder:?} from {start} on");
            self.remove(&[start]);
        }
    }

    /// Everything goes back: no page has a block out then, and nobody holds one.
    fn close(mut self) -> Heap {
        while let Some(&(holder, _)) = self.held.first() {
            self.give_all(holder);
        }
        for (class, _) in CLASSES {
            while self.heap.trim(class, ALL).expect("a right call").is_some() {}
        }
        let [_, _, abandoned, held, idle, overlap] = self.heap.report();
        assert_eq!((abandoned, held, idle), (0, overlap, PAGES));
        self.heap
    }
}

/// The first byte of the page or span of a class's block. No two blocks of a span have the same place on their pages.
fn run_of(class: u32, bytes: u64, start: u64) -> u64 {
    match class {
        0..64 => start / PAGE,
        _ => (0..10)
            .find_map(|block| (start - 64).checked_sub(block * bytes).filter(|first| first % PAGE == 0))
            .expect("one"),
    }
}

/// Their counts and pages.
fn chunks_of(granules: &[u64]) -> Vec<(u64, u64)> {
    let mut counts: BTreeMap<u64, u64> = BTreeMap::new();
    for granule in granules {
        *counts.entry(granule / 4_096).or_default() += 1;
    }
    counts.into_iter().map(|(page, count)| (count, page)).collect()
}

/// With document 01's parking, with none, and with a run of each kind.
#[test]
fn whatever_is_out_shares_no_byte() {
    for (rows, seed) in [(&[][..], 5), (&[0, 75, 0, 0], 7), (&[0, 75, 1, 1], 9)] {
        let mut program = Program::open(rows, seed);
        for _ in 0..100_000 {
            program.step();
        }
        let Program { right, full, wrong, .. } = program;
        let heap = program.close();
        if rows == [0, 75, 0, 0] {
            assert_eq!(heap.report()[3], 0, "nothing is parked");
        }
        assert!(right > 20_000 && full > 5_000 && wrong > 20_000, "{right} right, {full} full, {wrong} wrong");
    }
}
