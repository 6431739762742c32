//! The heap's blocks one by one, and runs of pages: all that the example uses of the crate.

use vigbuso::{AllocError, Kind, Pool, Rules, Trace};

pub use vigbuso::{Block, Class, Report, Run, PAGE_BYTES};

use super::recorder::Recorder;
use super::Outcome;

/// What a legend says of a class.
pub fn name(class: Class) -> String {
    let family = if class.kind() == Kind::Medium { "medium class" } else { "class" };
    format!("{family} {}: {} bytes", class.number(), class.bytes())
}

pub struct Blocks {
    pool: Pool,
    recorder: Option<Recorder>,
}

impl Blocks {
    pub fn open(pages: usize, rules: &Rules) -> Outcome<Blocks> {
        Ok(Blocks { pool: Pool::open_with(pages as u64, rules)?, recorder: None })
    }

    /// From now on a trace is written.
    pub fn record(&mut self, pages: usize) -> Outcome<()> {
        self.recorder = Some(Recorder::open(pages)?);
        Ok(())
    }

    pub fn trace(&self) -> Option<&Trace> {
        self.recorder.as_ref().map(Recorder::trace)
    }

    /// A report in the trace.
    pub fn note(&mut self) {
        if let Some(recorder) = &mut self.recorder {
            recorder.report();
        }
    }

    /// A block for a record of so many bytes; none if the arena has no page left for its class.
    pub fn alloc(&mut self, bytes: usize) -> Outcome<Option<Block>> {
        let block = match self.pool.alloc(bytes) {
            Err(AllocError::Full) => return Ok(None),
            other => other?,
        };
        if let (Some(recorder), Some(class)) = (&mut self.recorder, Class::for_size(bytes)) {
            recorder.alloc(class, block)?;
        }
        Ok(Some(block))
    }

    /// Takes a block back.
    pub fn free(&mut self, block: Block) -> Outcome<()> {
        if let Some(recorder) = &mut self.recorder {
            recorder.free(block)?;
        }
        Ok(self.pool.free(block)?)
    }

    pub fn class_of(&self, block: Block) -> Option<Class> {
        self.pool.class_of(block)
    }

    /// Hands all stocks back to the heap. That no release is refused shows that just these blocks are out.
    pub fn flush(&mut self) -> Outcome<()> {
        Ok(self.pool.flush()?)
    }

    /// A run of pages; none if the arena has no such run left.
    pub fn commit(&mut self, pages: usize) -> Outcome<Option<Run>> {
        Ok(self.pool.commit(pages as u64)?.map(|answer| answer.run))
    }

    /// The run with one page more, if it can grow where it is.
    pub fn grow(&mut self, run: Run) -> Outcome<Option<Run>> {
        Ok(self.pool.grow_frontier(run, run.pages + 1)?)
    }

    pub fn release_run(&mut self, run: Run) -> Outcome<()> {
        Ok(self.pool.release_run(run)?)
    }

    /// Blocks that no record stands in and that are out nevertheless.
    pub fn stock(&self) -> impl Iterator<Item = Block> + '_ {
        self.pool.stock()
    }

    pub fn report(&self) -> Outcome<Report> {
        Ok(self.pool.report()?.arena)
    }
}
