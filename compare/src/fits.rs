//! Plans of takes by size (document 02, A.1 and A.6) against the takes themselves: on an arena of just the total all succeed, in an order of
//! chance; on one page less a take answers no block. The total is also worked out here, from the classes of the original.

use crate::arguments::Arguments;
use crate::oracle;
use crate::planned::{class_of, family, planned, Planned, CLASSES, ENTRIES_MAX, TAKES_MAX};
use crate::port;
use crate::progress::Progress;
use crate::random::Random;
use crate::sizes::LARGEST;
use crate::words::{book_words, HOST_COMMIT, HOST_RESERVE};

/// Plans whose total is above this are worked out and not tried.
const PAGES_TRIED: u64 = 400;

#[derive(Default)]
struct Tally {
    plans: u64,
    refused: u64,
    tried: u64,
    takes: u64,
    differences: u64,
}

/// Prints what was compared; true if there is no difference.
pub fn run(words: &[String]) -> Result<bool, String> {
    let arguments = Arguments::read(words, &["plans", "seed"])?;
    let plans = arguments.number("plans")?.unwrap_or(10_000);
    let mut random = Random::new(arguments.number("seed")?.unwrap_or(1));
    let (mut tally, mut progress) = (Tally::default(), Progress::begin());
    while tally.plans < plans {
        let (mut sizes, mut takes): (Vec<u32>, Vec<u32>) = plan(&mut random).into_iter().unzip();
        spoil(&mut random, &mut sizes, &mut takes);
        one(&mut random, &mut tally, &sizes, &takes);
        progress.show(tally.plans, plans, "plans");
    }
    println!("{} plans, {} of them refused", tally.plans, tally.refused);
    println!("{} tried on an arena of their total and of a page less: {} takes", tally.tried, tally.takes);
    println!("{} differences", tally.differences);
    Ok(tally.differences == 0)
}

/// Sizes of few classes, so that they repeat, most of them a little below a block's; few takes or many.
fn plan(random: &mut Random) -> Vec<(u32, u32)> {
    let entries = random.weighted(&[(8, 4), (4, 12), (1, 200)]);
    let most = random.weighted(&[(6, 3), (4, 70), (1, u64::from(TAKES_MAX))]);
    let first = random.below(u64::from(CLASSES));
    let span = random.weighted(&[(2, 1), (3, 6), (2, u64::from(CLASSES))]);
    let size = |random: &mut Random| {
        let (family, number) = family(((first + random.below(span)) % u64::from(CLASSES)) as u32);
        let bytes = oracle::block_bytes(family, number) as u32;
        let off = random.pick(&[1, 16, 17, u64::from(bytes) + 1]);
        bytes - random.below(off) as u32
    };
    (0..=random.index(entries)).map(|_| (size(random), random.below(most + 1) as u32)).collect()
}

/// Some plans get a fault, or stand just at a limit.
fn spoil(random: &mut Random, sizes: &mut Vec<u32>, takes: &mut Vec<u32>) {
    let at = random.index(sizes.len());
    match random.below(40) {
        0 => sizes[at] = LARGEST as u32 + random.below(3) as u32,
        1 => sizes[at] = random.word() as u32,
        2 => takes[at] = random.pick(&[TAKES_MAX, TAKES_MAX + 1, u32::MAX]),
        3 => takes.push(1),
        4 => sizes.push(0),
        5 => {
            sizes.clear();
            takes.clear();
        }
        6 => {
            let entries = random.pick(&[ENTRIES_MAX, ENTRIES_MAX + 1]);
            sizes.resize(entries, 0);
            takes.resize(entries, 1);
        }
        _ => {}
    }
}

fn one(random: &mut Random, tally: &mut Tally, sizes: &[u32], takes: &[u32]) {
    tally.plans += 1;
    let (due, found) = (planned(sizes, takes), port::plan(sizes, takes));
    if found != due {
        tally.differences += 1;
        println!("plan({sizes:?}, {takes:?}): {found:?}, and {due:?} is due");
    }
    let Planned::Pages(pages) = found else {
        tally.refused += 1;
        return;
    };
    if pages > PAGES_TRIED {
        return;
    }
    let classes = sizes.iter().map(|&size| class_of(size).expect("a plan that is not refused"));
    let mut order: Vec<u32> =
        classes.zip(takes).flat_map(|(class, &takes)| std::iter::repeat_n(class, takes as usize)).collect();
    tally.tried += 1;
    for (arena, all) in [(pages, true), (pages.saturating_sub(1), false)] {
        // An arena has a page at least.
        if arena == 0 {
            continue;
        }
        random.shuffle(&mut order);
        tally.takes += order.len() as u64;
        if all_succeed(random, arena, &order) != all {
            tally.differences += 1;
            println!("plan({sizes:?}, {takes:?}) is {pages}; on {arena} pages not so, in the order {order:?}");
        }
    }
}

/// Takes in this order on a newly opened heap: whether each answers a block. Bits 2 and 3 of the host word are by chance.
fn all_succeed(random: &mut Random, pages: u64, order: &[u32]) -> bool {
    let mut book = vec![0; book_words(pages as u32)];
    assert_eq!(port::open(&mut book, pages), 0, "an arena of {pages} pages opens");
    let mut list = [0; 64];
    order.iter().all(|&class| {
        let (family, number) = family(class);
        let host = HOST_RESERVE | HOST_COMMIT | (random.below(4) as u32) << 2;
        let [refusal, count, _] = port::plain_take(&mut book, family, [number, host], &mut list);
        refusal == 0 && count > 0
    })
}
