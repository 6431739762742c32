//! Calls that name what the other side has: a release of the pool's blocks, by list or by groups, a free of an entry of a take, a direct
//! call on a page of a class. Few of them are carried out.

use crate::call::{Call, Lent, Look, PoolRequest};
use crate::ledger::{Ledger, Out};
use crate::planned::{family, CLASSES};
use crate::random::Random;
use crate::words::{chunk_word, page_of, Family, Word, CHUNK_PAGE_BITS};

/// A call on a class by its number, or none where the other side has nothing.
pub fn call(random: &mut Random, ledger: &Ledger, class: u32, host: u32) -> Option<Call> {
    match random.below(12) {
        0..=3 => release(random, ledger, class, host),
        4..=6 => groups(random, ledger, class, host),
        7..=9 => {
            let word = entry(random, ledger, class)?;
            Some(Call::Pool { request: PoolRequest::Free(word), class, host })
        }
        10 => run(random, ledger, class, host),
        _ => {
            let block = if random.chance(1, 2) { entry(random, ledger, class) } else { pools(random, ledger, class) }?;
            Some(Call::Look(if random.chance(1, 2) { Look::ClassOf(block) } else { Look::Granted { class, block } }))
        }
    }
}

/// A block that the pool has, granted or in stock, or that it had; mostly in this class.
pub fn pools(random: &mut Random, ledger: &Ledger, class: u32) -> Option<Word> {
    let stocks = &ledger.stocks;
    let class = if random.chance(1, 8) { random.below(u64::from(CLASSES)) as u32 } else { class };
    let gone: Vec<Word> = stocks.gone().iter().filter(|(of, _)| *of == class).map(|&(_, word)| word).collect();
    let stock: Vec<Word> = stocks.stock(class).iter().map(|stocked| stocked.word).collect();
    let lists = [stocks.granted(class), &stock, &gone];
    let first = random.weighted(&[(4, 0), (4, 1), (3, 2)]);
    (0..3).map(|at| lists[(first + at) % 3]).find(|list| !list.is_empty()).map(|list| random.pick(list))
}

/// A block that a take of the heap handed out, or one that went back since; mostly in this class.
pub fn entry(random: &mut Random, ledger: &Ledger, class: u32) -> Option<Word> {
    let class = if random.chance(1, 8) { random.below(u64::from(CLASSES)) as u32 } else { class };
    let (family, number) = family(class);
    let back: Vec<Word> = ledger.back().iter().filter(|(of, _)| *of == class).map(|&(_, word)| word).collect();
    let out = one_run(random, ledger.out(family, number));
    match out.filter(|_| back.is_empty() || random.chance(3, 4)) {
        Some(run) => Some(random.pick(&run.words)),
        None => (!back.is_empty()).then(|| random.pick(&back)),
    }
}

fn one_run<'a>(random: &mut Random, runs: &'a [Out]) -> Option<&'a Out> {
    (!runs.is_empty()).then(|| &runs[random.index(runs.len())])
}

/// Some blocks of a run, in their order.
fn some(random: &mut Random, run: &Out) -> Vec<Word> {
    let number = random.between(1, run.words.len() as u64) as usize;
    run.words[..number].to_vec()
}

/// A block of the pool, or several of one page, alone or among entries of a take.
fn release(random: &mut Random, ledger: &Ledger, class: u32, host: u32) -> Option<Call> {
    let (family, number) = family(class);
    let mut list = match one_run(random, ledger.pool_out(class)).filter(|_| random.chance(1, 4)) {
        Some(run) => some(random, run),
        None => vec![pools(random, ledger, class)?],
    };
    if let Some(run) = one_run(random, ledger.out(family, number)).filter(|_| random.chance(1, 2)) {
        list.extend(some(random, run));
        let turn = random.index(list.len());
        list.rotate_left(turn);
        if random.chance(1, 5) {
            list.push(random.pick(&list));
        }
    }
    Some(Call::ReleaseBlocks { family, class: number, host, list })
}

/// Groups of entries of takes, with a block or a page of the pool among them.
fn groups(random: &mut Random, ledger: &Ledger, class: u32, host: u32) -> Option<Call> {
    if family(class).0 != Family::Small {
        return release(random, ledger, class, host);
    }
    let (mut list, mut chunks) = (Vec::new(), Vec::new());
    for _ in 0..random.below(4) {
        let runs = ledger.out(Family::Small, class);
        let Some(run) =
            one_run(random, runs).filter(|run| list.iter().all(|&word| page_of(word) != u64::from(run.first)))
        else {
            continue;
        };
        let words = some(random, run);
        chunks.push(chunk_word(words.len() as u32, u64::from(run.first)));
        list.extend(words);
    }
    let word = pools(random, ledger, class)?;
    let chunk = chunk_word(1, page_of(word) % (1 << CHUNK_PAGE_BITS));
    match random.below(6) {
        // The group without its block, and the block without its group.
        0 => chunks.push(chunk),
        1 => list.push(word),
        // The block on a group of the heap's.
        2 if !chunks.is_empty() => {
            list.push(word);
            let at = random.index(chunks.len());
            chunks[at] = chunks[at].wrapping_add(1 << CHUNK_PAGE_BITS);
        }
        _ => {
            list.push(word);
            chunks.push(chunk);
        }
    }
    if random.chance(1, 2) {
        random.shuffle(&mut list);
        random.shuffle(&mut chunks);
    }
    let lent = Lent { len: chunks.len() + random.index(2), fill: random.word() as u32 };
    Some(Call::ReleaseChunks { class, host, list, chunks, lent })
}

/// A release or a growth of pages that a class has, perhaps beside pages that are held by hand.
fn run(random: &mut Random, ledger: &Ledger, class: u32, host: u32) -> Option<Call> {
    let word = if random.chance(1, 2) { entry(random, ledger, class) } else { pools(random, ledger, class) }?;
    let (first, pages) = match ledger.direct().iter().next().filter(|_| random.chance(1, 3)) {
        Some((&first, &pages)) => (u64::from(first), u64::from(pages) + random.between(1, 2)),
        None => (page_of(word), random.between(1, 2)),
    };
    Some(match random.chance(2, 3) {
        true => Call::Release { host, first, pages },
        false => Call::Grow { host, first, old: pages, new: pages + random.between(1, 3) },
    })
}
