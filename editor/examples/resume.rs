//! A word square (each word stands across and down) that is half filled in one run and gone on with in the next. The region with
//! its words is kept in a file between them.
//!
//!     cargo run --release --example resume -- square.vigbuso     twice

use std::error::Error;
use std::{env, fs};

use vigbuso::{Handle, Region, Store};

const SIZE: usize = 5;

/// A row of the square: which, its word's place in the list, and its letters.
type Row = (u8, u32, [u8; SIZE]);

pub(crate) struct Square {
    words: Vec<[u8; SIZE]>,
    store: Store<Row>,
    rows: Vec<Handle<Row>>,
}

impl Square {
    /// An empty square, or the one that was saved.
    pub fn new(list: &str, saved: Option<&[u8]>) -> Result<Square, vigbuso::Error> {
        let words =
            list.lines().filter(|line| !line.starts_with('#')).filter_map(|line| line.split_whitespace().next());
        let words = words.filter_map(|word| word.to_uppercase().as_bytes().try_into().ok()).collect();
        let store = Store::on(saved.map_or(Ok(Region::open(1)?), Region::load)?, 0);
        let mut rows: Vec<(Handle<Row>, Row)> = store.iter().collect();
        rows.sort_by_key(|(_, (row, ..))| *row);
        Ok(Square { words, rows: rows.into_iter().map(|(handle, _)| handle).collect(), store })
    }

    pub fn save(&self) -> Vec<u8> {
        self.store.region().save()
    }

    fn row(&self, row: usize) -> Row {
        self.store.get(self.rows[row]).expect("its handle is kept")
    }

    /// Goes on until so many rows stand; false if there is no such square.
    pub fn fill(&mut self, most: usize) -> Result<bool, Box<dyn Error>> {
        let mut from = 0;
        while self.rows.len() < most {
            let row = self.rows.len();
            let begins: Vec<u8> = (0..row).map(|above| self.row(above).2[row]).collect();
            let fits = |&place: &usize| self.words[place].starts_with(&begins);
            if let Some(place) = (from..self.words.len()).find(fits) {
                let record = (u8::try_from(row)?, u32::try_from(place)?, self.words[place]);
                self.rows.push(self.store.put(&record)?);
                from = 0;
            } else if let Some(last) = self.rows.pop() {
                from = self.store.remove(last)?.1 as usize + 1;
            } else {
                return Ok(false);
            }
        }
        Ok(true)
    }

    pub fn lines(&self) -> Vec<String> {
        (0..self.rows.len()).map(|row| String::from_utf8_lossy(&self.row(row).2).into_owned()).collect()
    }
}

fn main() -> Result<(), Box<dyn Error>> {
    let path = env::args().nth(1).ok_or("name a file to save to")?;
    let saved = fs::read(&path).ok();
    let mut square = Square::new(include_str!("words.txt"), saved.as_deref())?;
    let before = square.lines().len();
    let half = SIZE.div_ceil(2);
    let found = square.fill(if before < half { half } else { SIZE })?;
    println!("{}", square.lines().join("\n"));
    match (found, square.lines().len()) {
        (false, _) => println!("there is no square of these words"),
        (true, SIZE) => println!("done; {before} rows were there"),
        _ => println!("half of it; run again to go on"),
    }
    Ok(fs::write(&path, square.save())?)
}
