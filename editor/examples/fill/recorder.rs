//! The trace of a search: a word for each take of blocks, for each block that is freed, and for a report now and then. A heap
//! beside the search's own tells how many blocks each take hands out, and so which place each has.

use std::collections::HashMap;

use vigbuso::{Block, Class, Heap, Host, Trace};

use super::Outcome;

pub struct Recorder {
    heap: Heap,
    trace: Trace,
    /// Blocks handed out so far: the next one's place.
    handed: u32,
    /// Of each class, those that no record stands in, with their places.
    stocks: HashMap<Class, Vec<(u32, Block)>>,
    /// By the search's block, what stands for it here.
    out: HashMap<Block, (Class, u32, Block)>,
}

impl Recorder {
    pub fn open(pages: usize) -> Outcome<Recorder> {
        let mut heap = Heap::open(pages as u64)?;
        heap.set_host(Host::ALL); // as in a trace
        Ok(Recorder { heap, trace: Trace::new(), handed: 0, stocks: HashMap::new(), out: HashMap::new() })
    }

    /// A block of the search is in use. With none in stock there is a take first; one of none leaves the block out of the trace.
    pub fn alloc(&mut self, class: Class, block: Block) -> Outcome<()> {
        let stock = self.stocks.entry(class).or_default();
        if stock.is_empty() {
            let taken = self.heap.take(class)?;
            self.trace.take(class);
            stock.extend((self.handed..).zip(taken.iter().copied()));
            stock.reverse();
            self.handed += taken.len() as u32;
        }
        if let Some((place, own)) = stock.pop() {
            self.out.insert(block, (class, place, own));
        }
        Ok(())
    }

    pub fn free(&mut self, block: Block) -> Outcome<()> {
        if let Some((class, place, own)) = self.out.remove(&block) {
            self.heap.release(class, &[own])?;
            self.trace.release(place);
        }
        Ok(())
    }

    pub fn report(&mut self) {
        self.trace.report();
    }

    pub fn trace(&self) -> &Trace {
        &self.trace
    }
}
