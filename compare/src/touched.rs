//! The memory that one direct commit touches on the port. Who holds 256 pages stands side by side in the book, so a long run touches a
//! page of the system's for each 256 of its own (document 02, A.11).

use std::fs;
use std::time::Instant;

use crate::memory::Reserved;
use crate::port;
use crate::words::{book_words, HOST_ALL, MAX_PAGES};

/// Pages of the commits.
const RUNS: [u64; 4] = [1, 4_096, 262_144, 1_000_000];
/// Bytes of a page of the system's.
const SYSTEM_PAGE: u64 = 4_096;

/// Prints a line for each commit; true if each was carried out.
pub fn run() -> Result<bool, String> {
    println!("{} bytes of address space for a book of {MAX_PAGES} pages", 4 * book_words(MAX_PAGES));
    let mut sound = true;
    for pages in RUNS {
        let mut book = Reserved::new(book_words(MAX_PAGES));
        let opened = port::open(book.words_mut(), u64::from(MAX_PAGES));
        let (before, start) = (resident()?, Instant::now());
        let answer = port::plain_commit(book.words_mut(), HOST_ALL, pages);
        let (seconds, touched) = (start.elapsed().as_secs_f64(), resident()?.saturating_sub(before));
        println!("a commit of {pages:>9} pages touches {touched:>13} bytes, {seconds:.3} s");
        sound &= opened == 0 && answer == [0, 0, 1];
        book.forget();
    }
    Ok(sound)
}

/// Bytes of this process that are in memory.
fn resident() -> Result<u64, String> {
    let file = "/proc/self/statm";
    let text = fs::read_to_string(file).map_err(|error| format!("{file}: {error}"))?;
    let pages = text.split_whitespace().nth(1).and_then(|word| word.parse::<u64>().ok());
    pages.map(|pages| SYSTEM_PAGE * pages).ok_or_else(|| format!("{file} reads {text}"))
}
