//! The index of the word list, one record: for each length that the grid needs, each place and each letter the words that
//! have it there, a bit each.

use std::collections::BTreeMap;
use std::ops::Range;

use super::bits::Bits;
use super::grid::Grid;
use super::store::{Record, Store};
use super::words::Words;
use super::Outcome;

pub const LETTERS: usize = 26;

/// Where the rows of a length stand in the index, and how many bytes each has.
#[derive(Clone, Copy)]
struct Table {
    start: usize,
    row: usize,
}

impl Table {
    /// The row of each letter, for a place in the word.
    fn rows(self, place: usize) -> Range<usize> {
        let start = self.start + place * LETTERS * self.row;
        start..start + LETTERS * self.row
    }
}

pub struct Index {
    record: Record,
    tables: BTreeMap<usize, Table>,
}

impl Index {
    /// None if the arena has no room for it.
    pub fn new(grid: &Grid, words: &Words, store: &mut Store) -> Outcome<Option<Index>> {
        let (mut tables, mut bytes) = (BTreeMap::new(), Vec::new());
        for length in grid.slots().iter().map(Vec::len) {
            tables.entry(length).or_insert_with(|| add_table(words, length, &mut bytes));
        }
        Ok(store.put(&bytes)?.map(|record| Index { record, tables }))
    }

    /// The rows of all letters at a place in words of a length, one after the other.
    pub fn rows<'a>(&self, store: &'a Store, length: usize, place: usize) -> Outcome<std::slice::ChunksExact<'a, u8>> {
        let table = self.tables[&length];
        Ok(store.get(self.record, table.rows(place))?.chunks_exact(table.row.max(1)))
    }

    /// The row of one letter there.
    pub fn row<'a>(&self, store: &'a Store, length: usize, place: usize, letter: u8) -> Outcome<&'a [u8]> {
        let row = self.rows(store, length, place)?.nth(usize::from(letter - b'a'));
        Ok(row.unwrap_or_default()) // no words, no row
    }

    pub fn release(self, store: &mut Store) -> Outcome<()> {
        store.free(self.record)
    }
}

fn add_table(words: &Words, length: usize, bytes: &mut Vec<u8>) -> Table {
    let list = words.of_length(length);
    let table = Table { start: bytes.len(), row: Bits::bytes_for(list.len()) };
    bytes.resize(table.start + length * LETTERS * table.row, 0);
    for (number, word) in list.iter().enumerate() {
        for (place, letter) in word.letters.iter().enumerate() {
            let row = table.rows(place).start + usize::from(letter - b'a') * table.row;
            bytes[row + number / 8] |= 1 << (number % 8);
        }
    }
    table
}
