//! Values of two types in one region: the slots of a grid, in a list, and the words that were tried for each. A handle says its
//! type, so that no word is read as a slot, and one that was removed is refused.
//!
//!     cargo run --release --example typed

use std::cell::RefCell;
use std::rc::Rc;

use vigbuso::{Error, Handle, Record, Region, Store};

/// Where a word stands, the word if there is one, and the next slot.
#[derive(Clone, Copy, PartialEq, Debug)]
pub(crate) struct Slot {
    pub row: u8,
    pub column: u8,
    pub across: bool,
    pub word: Option<Handle<Try>>,
    pub next: Option<Handle<Slot>>,
}

impl Record for Slot {
    const BYTES: usize = <(u8, u8, bool, Option<Handle<Try>>, Option<Handle<Slot>>)>::BYTES;

    fn write(&self, bytes: &mut [u8]) {
        (self.row, self.column, self.across, self.word, self.next).write(bytes);
    }

    fn read(bytes: &[u8]) -> Slot {
        let (row, column, across, word, next) = Record::read(bytes);
        Slot { row, column, across, word, next }
    }
}

/// A word and its score.
pub(crate) type Try = ([u8; 5], f32);

pub(crate) struct Grid {
    pub slots: Store<Slot, Rc<RefCell<Region>>>,
    pub tries: Store<Try, Rc<RefCell<Region>>>,
    first: Option<Handle<Slot>>,
}

impl Grid {
    pub fn open(pages: u64) -> Result<Grid, Error> {
        let region = Rc::new(RefCell::new(Region::open(pages)?));
        Ok(Grid { slots: Store::on(Rc::clone(&region), 0), tries: Store::on(region, 1), first: None })
    }

    /// Adds a slot before the others.
    pub fn add(&mut self, row: u8, column: u8, across: bool) -> Result<Handle<Slot>, Error> {
        let slot = self.slots.put(&Slot { row, column, across, word: None, next: self.first })?;
        self.first = Some(slot);
        Ok(slot)
    }

    /// Puts a word into a slot. The one that was there is removed, and its handle is stale from now on.
    pub fn set(&mut self, slot: Handle<Slot>, word: [u8; 5], score: f32) -> Result<Handle<Try>, Error> {
        let new = self.tries.put(&(word, score))?;
        let old = self.slots.get(slot).ok_or(Error::Stale(slot.erase()))?;
        if let Some(before) = old.word {
            self.tries.remove(before)?;
        }
        self.slots.replace(slot, &Slot { word: Some(new), ..old });
        Ok(new)
    }

    /// The slots, the last one first.
    pub fn list(&self) -> impl Iterator<Item = Slot> + '_ {
        std::iter::successors(self.first.and_then(|slot| self.slots.get(slot)), |slot| self.slots.get(slot.next?))
    }

    pub fn score(&self) -> f32 {
        self.list().filter_map(|slot| self.tries.get(slot.word?)).map(|(_, score)| score).sum()
    }
}

fn main() -> Result<(), Error> {
    let mut grid = Grid::open(4)?;
    let [across, down] = [grid.add(0, 0, true)?, grid.add(0, 2, false)?];
    let heron = grid.set(across, *b"HERON", 1.5)?;
    grid.set(down, *b"RAVEN", 2.0)?;
    grid.set(across, *b"CARGO", -0.25)?;
    assert_eq!(grid.tries.get(heron), None, "it was replaced");
    for slot in grid.list() {
        let (word, score) = slot.word.and_then(|word| grid.tries.get(word)).expect("each has a word");
        let way = if slot.across { "across" } else { "down" };
        println!("{} from {}, {} {way}: {score}", String::from_utf8_lossy(&word), slot.row, slot.column);
    }
    println!("score {}; {} slots, {} words", grid.score(), grid.slots.iter().count(), grid.tries.iter().count());
    Ok(())
}
