//! Openings with rows (document 02, A.9), against a reading of the paper (`parking.rs`): random rows, many of them refused. The book
//! holds an earlier heap, which a refused opening leaves to the word; one that is carried out leaves the book that the same limits leave
//! class by class.

use std::collections::BTreeMap;

use crate::arguments::Arguments;
use crate::memory::{Fence, Fenced};
use crate::parking::{self, ROW};
use crate::port;
use crate::progress::Progress;
use crate::random::Random;
use crate::words::{book_words, MAX_PAGES};

const PAGES: u32 = 1;

pub fn run(words: &[String]) -> Result<bool, String> {
    let arguments = Arguments::read(words, &["openings", "seed"])?;
    let openings: u64 = arguments.number("openings")?.unwrap_or(100_000);
    let mut random = Random::new(arguments.number("seed")?.unwrap_or(1));
    let (mut numbers, mut progress) = (BTreeMap::<u32, u64>::new(), Progress::begin());
    let mut book = Fenced::new(book_words(PAGES), Fence::Back);
    let mut lent = Fenced::new(1 << 16, Fence::Back);
    let mut other = vec![0; book_words(PAGES)];
    for done in 0..openings {
        let rows = match random.below(4) {
            0 => parking::any_rows(&mut random),
            _ => parking::wrong_rows(&mut random),
        };
        let pages = random.weighted(&[(40, u64::from(PAGES)), (1, 0), (1, u64::from(MAX_PAGES) + 1), (1, 2)]);
        let due = due(pages, &rows);
        let before = book.words().to_vec();
        let placed = lent.lend(rows.len());
        placed.copy_from_slice(&rows);
        let number = port::open_with(book.words_mut(), pages, placed);
        let wrong = |what: &str| format!("open {pages} with {rows:?}: {what}");
        if number != due || *placed != rows {
            println!("{}", wrong(&format!("answers {number}, not {due}, or changes the rows")));
            return Ok(false);
        }
        if due == 0 {
            let each: Vec<u32> = (0..76).flat_map(|class| row(class, &rows)).collect();
            other.copy_from_slice(&before);
            assert_eq!(port::open_with(&mut other, pages, &each), 0, "{}", wrong("class by class it is refused"));
        } else {
            other.copy_from_slice(&before);
        }
        if book.words() != other {
            println!("{}", wrong("another book than is due"));
            return Ok(false);
        }
        *numbers.entry(number).or_default() += 1;
        progress.show(done, openings, "openings");
    }
    for (number, times) in &numbers {
        println!("  {times:>12} answered {number}");
    }
    println!("{openings} openings compared in {:.1} s; 0 differences", progress.seconds());
    Ok(true)
}

fn due(pages: u64, rows: &[u32]) -> u32 {
    match pages {
        0 => 1,
        pages if pages > u64::from(MAX_PAGES) => 1,
        pages if pages > u64::from(PAGES) => 2,
        _ => parking::refusal(rows).unwrap_or(0),
    }
}

/// A class's own row, with document 01's limits where no rows are given.
fn row(class: u32, rows: &[u32]) -> [u32; ROW] {
    let [empty, cold] = parking::limits(rows, class).unwrap_or(if class < 64 { [4, 256] } else { [32, 256] });
    [class, class, empty, cold]
}
