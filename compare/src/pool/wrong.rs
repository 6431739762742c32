//! Calls of the pool that are likely to be refused: wrong frees of every kind, host words and classes that there are not.

use super::crossed;
use crate::call::{Call, PoolRequest};
use crate::ledger::Ledger;
use crate::oracle;
use crate::planned::{family, CLASSES};
use crate::random::Random;
use crate::words::{
    block_word, chunk_word, granule_of, page_of, Family, Word, GRANULE_BYTES, MAX_PAGES, PAGE_GRANULES,
};

pub fn call(random: &mut Random, ledger: &Ledger, class: u32, host: u32) -> Call {
    let word = any_block(random, ledger, class);
    let request = random.weighted(&[(8, PoolRequest::Free(word)), (1, PoolRequest::Alloc), (1, PoolRequest::Trim)]);
    let host = match random.below(12) {
        0 => random.between(16, 40) as u32,
        1 => random.word() as u32,
        _ => host,
    };
    let class = match random.below(12) {
        0 => CLASSES + random.below(4) as u32,
        1 => random.word() as u32,
        // Few classes are asked for blocks, so that the arena is not spent on one of each.
        2 if request == PoolRequest::Free(word) => random.below(u64::from(CLASSES)) as u32,
        _ => class,
    };
    Call::Pool { request, class, host }
}

/// A block that is granted in the class, or another word.
pub fn any_block(random: &mut Random, ledger: &Ledger, class: u32) -> Word {
    match random.below(4) {
        0 => granted(random, ledger, class),
        _ => block(random, ledger, class),
    }
}

/// A block that is granted in the class, if there is one.
fn granted(random: &mut Random, ledger: &Ledger, class: u32) -> Word {
    match ledger.stocks.granted(class) {
        [] => block_word(family(class).0, 3),
        words => random.pick(words),
    }
}

/// A word that is likely to be no granted block of the class.
fn block(random: &mut Random, ledger: &Ledger, class: u32) -> Word {
    let stocks = &ledger.stocks;
    let (family, number) = family(class);
    let known = granted(random, ledger, class);
    let stock = stocks.stock(class);
    let end = u64::from(ledger.pages()) * PAGE_GRANULES;
    match random.below(20) {
        // In stock: the one that came last, or any, freed or never granted.
        0 | 1 if !stock.is_empty() => stock[stock.len() - 1].word,
        2..=4 if !stock.is_empty() => random.pick(stock).word,
        // Given back before: to the stock, to the heap, on a page that another class has by now.
        5..=7 if !stocks.gone().is_empty() => {
            let of_class: Vec<Word> =
                stocks.gone().iter().filter(|(of, _)| *of == class).map(|&(_, word)| word).collect();
            match of_class[..] {
                [] => stocks.gone()[random.index(stocks.gone().len())].1,
                ref words => random.pick(words),
            }
        }
        8 => foreign(random, ledger, class).unwrap_or(known),
        9 => block_word(other(family), granule_of(known)),
        // Inside a block.
        10 => {
            let granules = (oracle::block_bytes(family, number) / GRANULE_BYTES) as u64;
            known + if granules > 1 { random.between(1, granules - 1) } else { 1 }
        }
        // Beyond the arena, by a little, by any bit.
        11 => block_word(family, end + random.below(3)),
        12 => block_word(family, granule_of(known) | 1 << random.between(20, 61)),
        13 => random.pick(&[0, known & !(3 << 62), block_word(family, 0), 1]),
        14 => chunk_word(random.below(4_096) as u32, page_of(known).min(u64::from(MAX_PAGES))),
        // A page's first granules, where no block is.
        15 => block_word(family, page_of(known) * PAGE_GRANULES + random.below(5)),
        16 => known ^ 1 << random.below(64),
        17 => random.word(),
        18 | 19 => crossed::entry(random, ledger, class).unwrap_or(known),
        _ => block_word(family, random.below(end)),
    }
}

fn other(family: Family) -> Family {
    match family {
        Family::Small => Family::Medium,
        Family::Medium => Family::Small,
    }
}

/// A block that is granted in another class.
fn foreign(random: &mut Random, ledger: &Ledger, class: u32) -> Option<Word> {
    let others: Vec<u32> =
        (0..CLASSES).filter(|&other| other != class && !ledger.stocks.granted(other).is_empty()).collect();
    (!others.is_empty()).then(|| random.pick(&others)).map(|other| random.pick(ledger.stocks.granted(other)))
}
