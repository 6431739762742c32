//! Openings, on the port alone: the original has its heaps as statics, and opens none.

use super::meter::Meter;
use super::rounds::Quartiles;
use crate::planned::CLASSES;
use crate::port;
use crate::words::book_words;

const PAGES: u32 = 64;
const BATCH: usize = 8;

/// One line, of so many rounds; the first is not counted. Their lower quartile counts.
pub fn line(meter: &Meter, what: &str, rounds: usize) -> String {
    let each: Vec<u32> = (0..CLASSES).flat_map(|class| [class, class, 4, 256]).collect();
    let [none, one, all] = [&[][..], &[0, CLASSES - 1, 4, 256], &each]
        .map(|rows| cost(meter, rows, rounds))
        .map(|cost| format!("{cost:.0}"));
    format!("\nAn opening of the port: {none} {what}; with one row {one}, with a row for each class {all}.\n")
}

fn cost(meter: &Meter, rows: &[u32], rounds: usize) -> f64 {
    let mut book = vec![0; book_words(PAGES)];
    let mut round = || {
        let (number, cost) =
            meter.measure(BATCH, || (0..BATCH).map(|_| port::open_with(&mut book, u64::from(PAGES), rows)).max());
        assert_eq!(number, Some(0), "an opening is refused");
        cost
    };
    round();
    Quartiles::of((0..rounds).map(|_| round()).collect()).lower
}
