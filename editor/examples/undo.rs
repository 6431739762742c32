//! A search with undo: queens on a board, none on another's line. What a queen takes from the rows below her is one record in a
//! region, as long as it has to be; to take her back, the record is read and freed.
//!
//!     cargo run --release --example undo -- 8

use vigbuso::{Error, Handle, Region};

pub(crate) struct Search {
    region: Region,
    /// By row: the columns that are free still, a bit each.
    free: Vec<u32>,
    /// By queen: the rows that she changed, each with what it was before. Five bytes for each row.
    trail: Vec<Handle>,
    pub solutions: usize,
    pub records: usize,
    pub longest: usize,
}

impl Search {
    pub fn new(queens: usize) -> Result<Search, Error> {
        let free = vec![(1 << queens) - 1; queens];
        Ok(Search { region: Region::open(8)?, free, trail: Vec::new(), solutions: 0, records: 0, longest: 0 })
    }

    /// Tries every free column of the next row.
    pub fn run(&mut self) -> Result<(), Error> {
        let row = self.trail.len();
        if row == self.free.len() {
            self.solutions += 1;
            return Ok(());
        }
        for column in (0..self.free.len()).filter(|column| self.free[row] >> column & 1 == 1).collect::<Vec<_>>() {
            self.place(row, column)?;
            self.run()?;
            self.take_back()?;
        }
        Ok(())
    }

    fn place(&mut self, row: usize, column: usize) -> Result<(), Error> {
        let mut record = Vec::new();
        for below in row + 1..self.free.len() {
            let (before, lines) =
                (self.free[below], 1 << column | 1 << (column + below - row) | 1 << column >> (below - row));
            self.free[below] &= !lines;
            if self.free[below] != before {
                record.push(u8::try_from(below).expect("at most 15"));
                record.extend(before.to_le_bytes());
            }
        }
        (self.records, self.longest) = (self.records + 1, self.longest.max(record.len()));
        self.trail.push(self.region.alloc(&record)?);
        Ok(())
    }

    fn take_back(&mut self) -> Result<(), Error> {
        let handle = self.trail.pop().expect("as many as were placed");
        for row in self.region[handle].chunks(5) {
            self.free[usize::from(row[0])] = u32::from_le_bytes(row[1..].try_into().expect("four bytes"));
        }
        self.region.free(handle)
    }

    pub fn left(&self) -> usize {
        self.region.len()
    }
}

fn main() -> Result<(), Error> {
    let queens =
        std::env::args().nth(1).and_then(|number| number.parse().ok()).filter(|queens| (1..=15).contains(queens));
    let mut search = Search::new(queens.unwrap_or(8))?;
    search.run()?;
    let Search { solutions, records, longest, .. } = search;
    println!("{solutions} solutions; {records} records of up to {longest} bytes, {} left", search.left());
    Ok(())
}
