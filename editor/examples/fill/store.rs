//! Records in the arena: the heap says where, the arena has the bytes.

use std::cell::Cell;
use std::collections::{HashMap, HashSet};
use std::ops::Range;

use vigbuso::{Rules, Trace};

use super::blocks::{Block, Blocks, Class, Report, Run, PAGE_BYTES};
use super::pages::{Holder, Pages};
use super::Outcome;

/// Where a record stands: in a block, or in pages of its own if no block is large enough.
#[derive(Clone, Copy, PartialEq, Eq, Debug)]
enum Place {
    Block(Block),
    Run(Run),
}

impl Place {
    fn start(self) -> usize {
        match self {
            Place::Block(block) => block.byte_offset() as usize,
            Place::Run(run) => range(run).start,
        }
    }
}

#[derive(Clone, Copy, PartialEq, Eq, Debug)]
pub struct Record {
    place: Place,
    bytes: usize,
}

impl Record {
    pub fn bytes(self) -> usize {
        self.bytes
    }

    fn range(self, part: Range<usize>) -> Range<usize> {
        self.place.start() + part.start..self.place.start() + part.end
    }
}

/// How often blocks were used anew.
#[derive(Clone, Default)]
pub struct Tally {
    /// Records written into blocks.
    pub records: usize,
    /// Blocks that have a record now, and the most that ever had.
    pub out: usize,
    pub most: usize,
    /// All blocks that ever had one.
    places: HashSet<Block>,
}

impl Tally {
    pub fn blocks(&self) -> usize {
        self.places.len()
    }

    fn count(&mut self, block: Block) {
        self.records += 1;
        self.out += 1;
        self.most = self.most.max(self.out);
        self.places.insert(block);
    }
}

pub struct Store {
    blocks: Blocks,
    rules: Rules,
    arena: Vec<u8>,
    /// By its first byte what was written into each record, kept apart from the arena: were two records to share a byte,
    /// or a block to be handed out twice, a read would show it.
    written: HashMap<usize, (Record, Vec<u8>)>,
    pages: Pages,
    tally: Tally,
    reads: Cell<usize>,
}

impl Store {
    pub fn open(pages: usize, rules: Rules) -> Outcome<Store> {
        Ok(Store {
            blocks: Blocks::open(pages, &rules)?,
            rules,
            arena: vec![0; pages * PAGE_BYTES],
            written: HashMap::new(),
            pages: Pages::new(pages),
            tally: Tally::default(),
            reads: Cell::new(0),
        })
    }

    /// From now on a trace of the blocks is written.
    pub fn record(&mut self, pages: usize) -> Outcome<()> {
        self.blocks.record(pages)
    }

    /// A report in the trace, if one is written.
    pub fn note(&mut self) {
        self.blocks.note();
    }

    pub fn trace(&self) -> Option<&Trace> {
        self.blocks.trace()
    }

    /// Writes a record; none if the arena has no room for it.
    pub fn put(&mut self, bytes: &[u8]) -> Outcome<Option<Record>> {
        let Some(place) = self.place_for(bytes.len())? else {
            return Ok(None);
        };
        let record = Record { place, bytes: bytes.len() };
        self.arena[record.range(0..bytes.len())].copy_from_slice(bytes);
        match self.written.insert(place.start(), (record, bytes.to_vec())) {
            None => Ok(Some(record)),
            Some(_) => Err(format!("{place:?} was handed out twice").into()),
        }
    }

    fn place_for(&mut self, bytes: usize) -> Outcome<Option<Place>> {
        let Some(class) = Class::for_size(bytes) else {
            return Ok(self.commit(bytes.div_ceil(PAGE_BYTES))?.map(Place::Run));
        };
        let block = self.blocks.alloc(bytes)?;
        if let Some(block) = block {
            let first = class.first_page(block).unwrap_or(block.page()) as usize;
            self.pages.hold(first..first + class.pages(), Holder::Class(class));
            self.tally.count(block);
        }
        Ok(block.map(Place::Block))
    }

    /// Writes something else of the same length into a record.
    pub fn set(&mut self, record: Record, bytes: &[u8]) -> Outcome<()> {
        self.get(record, 0..record.bytes)?;
        self.arena[record.range(0..record.bytes)].copy_from_slice(bytes);
        self.written.insert(record.place.start(), (record, bytes.to_vec()));
        Ok(())
    }

    /// Reads a part of a record.
    pub fn get(&self, record: Record, part: Range<usize>) -> Outcome<&[u8]> {
        let read = &self.arena[record.range(part.clone())];
        let written = self.written.get(&record.place.start()).and_then(|(_, bytes)| bytes.get(part));
        if written != Some(read) {
            return Err(format!("{:?} does not have what was written into it", record.place).into());
        }
        self.count_read();
        Ok(read)
    }

    /// Forgets a record, whose place is then free for others.
    pub fn free(&mut self, record: Record) -> Outcome<()> {
        self.get(record, 0..record.bytes)?;
        self.written.remove(&record.place.start());
        match record.place {
            Place::Block(block) => {
                self.tally.out -= 1;
                self.blocks.free(block)
            }
            Place::Run(run) => self.release_run(run),
        }
    }

    /// A run of pages, to be used directly; none if the arena has no such run left.
    pub fn commit(&mut self, pages: usize) -> Outcome<Option<Run>> {
        let run = self.blocks.commit(pages)?;
        Ok(run.inspect(|&run| self.pages.hold(pages_of(run), Holder::Direct)))
    }

    /// The run with one page more, if it can grow where it is.
    pub fn grow(&mut self, run: Run) -> Outcome<Option<Run>> {
        let run = self.blocks.grow(run)?;
        Ok(run.inspect(|&run| self.pages.hold(pages_of(run), Holder::Direct)))
    }

    pub fn release_run(&mut self, run: Run) -> Outcome<()> {
        self.pages.hold(pages_of(run), Holder::Hole);
        self.blocks.release_run(run)
    }

    /// The bytes of a run.
    pub fn run(&self, run: Run) -> &[u8] {
        &self.arena[range(run)]
    }

    pub fn run_mut(&mut self, run: Run) -> &mut [u8] {
        &mut self.arena[range(run)]
    }

    /// Copies the bytes of one run to the start of another.
    pub fn copy_run(&mut self, from: Run, to: Run) {
        self.arena.copy_within(range(from), range(to).start);
    }

    /// Counts a read that was compared.
    pub fn count_read(&self) {
        self.reads.set(self.reads.get() + 1);
    }

    /// Reads so far, each of which was compared with what was written.
    pub fn reads(&self) -> usize {
        self.reads.get()
    }

    pub fn tally(&self) -> &Tally {
        &self.tally
    }

    pub fn report(&self) -> Outcome<Report> {
        self.blocks.report()
    }

    /// Whose each page is, as the calls have told, and how many of its bytes are in use.
    pub fn pages(&self) -> Outcome<Pages> {
        let records = self.written.values().map(|(record, _)| record.range(0..self.room(*record)));
        self.pages.with(records, self.blocks.stock(), &self.rules, self.blocks.report()?)
    }

    /// All bytes of the block that a record stands in. A run's pages are in use whole, records or not.
    fn room(&self, record: Record) -> usize {
        match record.place {
            Place::Block(block) => self.blocks.class_of(block).map_or(0, Class::bytes),
            Place::Run(_) => 0,
        }
    }

    /// Hands the blocks without a record back.
    pub fn flush(&mut self) -> Outcome<()> {
        self.blocks.flush()
    }

    /// Hands everything back, once no record is left.
    pub fn close(mut self) -> Outcome<()> {
        match self.written.len() {
            0 => self.flush(),
            left => Err(format!("{left} records are left").into()),
        }
    }
}

fn pages_of(run: Run) -> Range<usize> {
    run.first as usize..(run.first + run.pages) as usize
}

fn range(run: Run) -> Range<usize> {
    run.bytes().start as usize..run.bytes().end as usize
}
