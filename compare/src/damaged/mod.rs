//! Damaged books: words of reached books are overwritten, and calls with any arguments follow. Nothing may trap, a
//! refusal changes nothing, and equal calls on equal books answer equally.
//!
//! Only the C boundary is used. Every call is made twice, on two equal books and with equal lists: once all of them end
//! at an unmapped page, once all begin behind one. The calls are made in a process of their own, so that one that traps
//! or does not end is told by its history and call.

mod arguments;
mod book;
mod damage;
mod watch;

use std::io::Write;

use self::arguments::Known;
use self::book::Twins;
use self::damage::Damage;
use crate::arguments::Arguments;
use crate::call::{Answer, Call, Kind, Look};
use crate::history;
use crate::parking;
use crate::planned::CLASSES;
use crate::random::Random;
use crate::tally::Tally;
use crate::words::{book_words, FORMAT, FORMAT_WORD, HOST_ALL, MAX_PAGES};

/// Calls of one history.
const CALLS: u64 = 400;
/// What `--kinds` asks for: every call, or those of blocks, most of them releases.
const ALL: &str = "all";
const BLOCKS: &str = "blocks";
/// Or the pool's, with the direct ones between them.
const POOL: &str = "pool";
const POOL_KINDS: [Kind; 15] = [
    Kind::Alloc,
    Kind::Alloc,
    Kind::Alloc,
    Kind::Alloc,
    Kind::Free,
    Kind::Free,
    Kind::Free,
    Kind::Trim,
    Kind::ClassOf,
    Kind::Granted,
    Kind::Stocked,
    Kind::Commit,
    Kind::GrowFrontier,
    Kind::Release,
    Kind::Report,
];
const BLOCK_KINDS: [Kind; 4] = [Kind::TakeBlocks, Kind::ReleaseBlocks, Kind::ReleaseBinChunks, Kind::ReleaseBinChunks];
/// The line that begins a history, for the process that watches.
const MARK: char = '@';

pub fn run(words: &[String]) -> Result<bool, String> {
    let arguments = Arguments::read(words, &["calls", "seed", "kinds", "only", "worker"])?;
    let calls: u64 = arguments.number("calls")?.unwrap_or(200_000);
    let seed: u64 = arguments.number("seed")?.unwrap_or(1);
    let only: Option<u64> = arguments.number("only")?;
    let kinds: &'static [Kind] = match arguments.text("kinds").unwrap_or(ALL) {
        ALL => &Kind::ALL,
        BLOCKS => &BLOCK_KINDS,
        POOL => &POOL_KINDS,
        other => return Err(format!("--kinds is {ALL}, {BLOCKS} or {POOL}, not {other}")),
    };
    match arguments.text("worker") {
        Some(_) => Ok(work(calls, seed, kinds, only)),
        None => watch::run(calls, seed, arguments.text("kinds").unwrap_or(ALL), only),
    }
}

/// The histories of a seed, or one of them with every call told before it is made.
fn work(calls: u64, seed: u64, kinds: &'static [Kind], only: Option<u64>) -> bool {
    let mut tally = Tally::default();
    let mut counts = Counts::default();
    let (first, last) = only.map_or((0, calls.div_ceil(CALLS)), |one| (one, one + 1));
    for number in first..last {
        println!("{MARK}{number}");
        let _ = std::io::stdout().flush();
        let mut random = Random::new(seed ^ number.wrapping_mul(0xD1B5_4A32_D192_ED03));
        if let Err(fault) = History::new(&mut random, kinds).run(&mut tally, &mut counts, only.is_some()) {
            println!("history {number}: {fault}");
            println!("seen again by: damaged --seed {seed} --only {number}, with the same --kinds");
            return false;
        }
    }
    println!("{tally}");
    println!(
        "{} words overwritten; {} calls on damaged books, {} of them carried out; {} on books of another FORMAT, none of them",
        counts.words, counts.calls, counts.done, counts.other_format
    );
    println!("0 faults");
    true
}

#[derive(Default)]
struct Counts {
    words: u64,
    calls: u64,
    done: u64,
    other_format: u64,
}

struct History<'a> {
    random: &'a mut Random,
    twins: Twins,
    known: Known,
    damage: Damage,
}

impl History<'_> {
    fn new<'a>(random: &'a mut Random, kinds: &'static [Kind]) -> History<'a> {
        let pages = random.weighted(&[(1, 3), (6, 12), (6, 24), (2, 60)]).min(1 + random.below(80)) as u32;
        let spare = random.weighted(&[(4, 0), (1, 1), (1, 1000)]);
        let content = random.pick(&[0, u32::MAX, 1, random.clone().word() as u32]);
        let twins = Twins::new(book_words(pages) + spare, content);
        let known = Known::new(random, pages, kinds);
        History { random, twins, known, damage: Damage::default() }
    }

    fn run(&mut self, tally: &mut Tally, counts: &mut Counts, trace: bool) -> Result<(), String> {
        tally.begin("damaged");
        self.open(trace)?;
        for _ in 0..CALLS {
            self.spoil_or_mend(counts);
            let call = self.known.call(self.random);
            if trace {
                println!("{}", history::line(&call, &Answer::Broken("?".into())));
                let _ = std::io::stdout().flush();
            }
            let formatted = self.twins.words()[FORMAT_WORD] == FORMAT;
            let answer = self.twins.ask(&call, &mut self.damage)?;
            if !formatted && is_served(&call, &answer) {
                return Err(format!(
                    "a call on a book of another FORMAT is carried out: {}",
                    history::line(&call, &answer)
                ));
            }
            counts.other_format += u64::from(!formatted);
            if self.damage.is_done() {
                counts.calls += 1;
                counts.done += u64::from(!matches!(answer, Answer::Refused(_)));
            } else if answer == Answer::Refused(13) {
                return Err(format!("13 on a book without damage: {}", history::line(&call, &answer)));
            }
            self.known.note(&call, &answer);
            tally.count(&call, &answer);
        }
        Ok(())
    }

    /// Openings that are refused, then one that is not.
    fn open(&mut self, trace: bool) -> Result<(), String> {
        let pages = u64::from(self.known.pages());
        let beyond = u64::from(MAX_PAGES);
        let wrong = self.random.pick(&[0, pages + 100, beyond, beyond + 1, u64::MAX, 1 << 32, (1 << 32) + pages]);
        let rows = if self.random.chance(1, 2) { Vec::new() } else { parking::any_rows(self.random) };
        for (pages, rows) in
            [(wrong, parking::wrong_rows(self.random)), (pages, parking::wrong_rows(self.random)), (pages, rows)]
        {
            if trace {
                println!("open {pages} {rows:?}");
            }
            let due = match pages {
                0 => 1,
                pages if pages > beyond => 1,
                pages if book_words(pages as u32) > self.twins.len() => 2,
                _ => parking::refusal(&rows).unwrap_or(0),
            };
            self.twins.open(pages, &rows, due)?;
        }
        self.damage.begin(self.twins.words());
        if self.random.chance(19, 20) {
            // The reservation, so that what follows has an arena.
            self.twins.ask(&Call::Commit { host: HOST_ALL, pages: 1 }, &mut self.damage)?;
        }
        Ok(())
    }

    fn spoil_or_mend(&mut self, counts: &mut Counts) {
        if !self.damage.is_done() {
            if self.random.chance(1, 6) {
                counts.words += self.damage.spoil(self.random, &mut self.twins);
            }
        } else if self.random.chance(1, 5) {
            if self.random.chance(3, 4) {
                self.damage.mend(&mut self.twins);
            } else {
                counts.words += self.damage.spoil(self.random, &mut self.twins);
            }
        }
    }
}

/// Not refused; of a call that refuses nothing, another answer than no, none or no class.
fn is_served(call: &Call, answer: &Answer) -> bool {
    match (call, answer) {
        (_, Answer::Refused(_) | Answer::Contains(false)) => false,
        (Call::Look(Look::ClassOf(_)), Answer::Told(told)) => *told != CLASSES,
        (Call::Look(_), Answer::Told(told)) => *told != 0,
        _ => true,
    }
}
