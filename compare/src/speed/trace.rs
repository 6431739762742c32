//! A long trace in one call, against the same takes, releases and reports one by one through the exported functions. The
//! original has no trace.

use super::meter::Meter;
use super::rounds::Quartiles;
use crate::oracle;
use crate::planned::family;
use crate::port;
use crate::random::Random;
use crate::words::{book_words, Word, HOST_ALL, SMALL_BATCH};

const WORDS: usize = 10_000_000;
const ROUNDS: usize = 5;
const PAGES: u32 = 1_024;
/// Blocks out that a fill comes to before it gives some back.
const OUT: usize = 4_000;
/// Words from one report to the next.
const REPORTED: usize = 1_000;
const CLASSES: [u32; 5] = [0, 3, 10, 45, 64];
const FIGURES: usize = 5;

/// What a trace or its calls came to.
#[derive(PartialEq, Eq)]
struct Came {
    blocks: Vec<Word>,
    figures: Vec<u64>,
}

/// The words, and the class of each place.
fn trace() -> (Vec<u32>, Vec<u32>) {
    let (mut random, mut book, mut list) = (Random::new(1), vec![0; book_words(PAGES)], [0; SMALL_BATCH]);
    let (mut words, mut out, mut blocks, mut classes) = (Vec::with_capacity(WORDS), Vec::new(), Vec::new(), Vec::new());
    assert_eq!(port::open(&mut book, u64::from(PAGES)), 0);
    while words.len() < WORDS {
        if words.len() % REPORTED == REPORTED - 1 {
            words.push(2 << 30);
        } else if out.len() < OUT {
            let class = random.pick(&CLASSES);
            words.push(class);
            let (family, number) = family(class);
            let [_, count, _] = port::plain_take(&mut book, family, [number, HOST_ALL], &mut list);
            out.extend(blocks.len()..blocks.len() + count as usize);
            blocks.extend_from_slice(&list[..count as usize]);
            classes.resize(blocks.len(), class);
        } else {
            let place: usize = out.swap_remove(random.index(out.len()));
            words.push(1 << 30 | place as u32);
            let (family, number) = family(classes[place]);
            port::plain_release_blocks(&mut book, family, [number, HOST_ALL], &[blocks[place]]);
        }
    }
    (words, classes)
}

fn in_one(book: &mut [u32], words: &[u32], came: &mut Came) {
    let mut done = [0; 3];
    let number = port::trace(book, u64::from(PAGES), words, &mut came.blocks, &mut came.figures, &mut done);
    assert_eq!((number, done[0]), (0, words.len() as u64));
}

/// A caller keeps the blocks and their classes, as the lists do; so it keeps the counts of a report.
fn one_by_one(book: &mut [u32], words: &[u32], classes: &[u32], came: &mut Came) {
    assert_eq!(port::open(book, u64::from(PAGES)), 0);
    let mut list = [0; SMALL_BATCH];
    let (mut handed, mut told, mut out, mut bytes, mut highest) = (0, 0, 0, 0, 0);
    let sizes: Vec<u64> =
        (0..76).map(family).map(|(family, class)| oracle::block_bytes(family, class) as u64).collect();
    for &word in words {
        let number = (word & ((1 << 30) - 1)) as usize;
        match word >> 30 {
            0 => {
                let (family, class) = family(word);
                let [refused, count, _] = port::plain_take(book, family, [class, HOST_ALL], &mut list);
                assert_eq!(refused, 0);
                let count = count as usize;
                came.blocks[handed..handed + count].copy_from_slice(&list[..count]);
                handed += count;
                out += count as u64;
                bytes += count as u64 * sizes[number];
                highest = highest.max(bytes);
            }
            1 => {
                let (family, class) = family(classes[number]);
                let block = [came.blocks[number]];
                let [refused, _] = port::plain_release_blocks(book, family, [class, HOST_ALL], &block);
                assert_eq!(refused, 0);
                out -= 1;
                bytes -= sizes[classes[number] as usize];
            }
            _ => {
                let (refused, report) = port::plain_report(book);
                assert_eq!(refused, 0);
                came.figures[told..told + FIGURES].copy_from_slice(&[out, bytes, report[3], report[4], highest]);
                told += FIGURES;
            }
        }
    }
}

/// A line below the table; none where the two differ.
pub fn line(clock: &Meter) -> Option<String> {
    let (words, classes) = trace();
    let empty = || Came { blocks: vec![0; classes.len()], figures: vec![0; WORDS / REPORTED * FIGURES] };
    let (mut book, mut traced, mut called) = (vec![0; book_words(PAGES)], empty(), empty());
    let mut times = [Vec::new(), Vec::new()];
    for _ in 0..ROUNDS {
        times[0].push(clock.measure(WORDS, || in_one(&mut book, &words, &mut traced)).1);
        times[1].push(clock.measure(WORDS, || one_by_one(&mut book, &words, &classes, &mut called)).1);
    }
    let [trace, calls] = times.map(|times| Quartiles::of(times).lower);
    let same = traced == called;
    same.then(|| {
        format!(
            "\nA trace of {WORDS} words: {trace:.1} ns a word; its calls one by one through the exported functions {calls:.1} ns, \
             ratio {:.2}. Lower quartiles of {ROUNDS} rounds.\n",
            trace / calls
        )
    })
}
