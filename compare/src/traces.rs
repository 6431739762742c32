//! Traces (document 02, A.7) against the calls that they stand for, made one by one: on the original, which tells the blocks and
//! the figures, and on the port, which tells the book.

use crate::arguments::Arguments;
use crate::call::{Answer, Call, Lent};
use crate::oracle;
use crate::planned::{family, CLASSES};
use crate::port;
use crate::progress::Progress;
use crate::random::Random;
use crate::reference::Reference;
use crate::words::{book_words, Word, HOST_ALL, SMALL_BATCH};

/// What stands in a lent list before the call.
const UNTOUCHED: u64 = 0xDEAD_BEEF_DEAD_BEEF;
/// Bits below the kind of a trace's own words.
const BITS: u32 = 30;
const FIGURES: usize = 5;
/// A page's fate.
const TO_ARENA: u32 = 2;

/// A trace with its lists.
struct Trace {
    pages: u32,
    words: Vec<u32>,
    blocks: usize,
    figures: usize,
}

/// What a word says.
#[derive(Clone, Copy, PartialEq, Eq, Debug)]
pub enum Say {
    Take(u32),
    Release(usize),
    Report,
}

/// What a word says, or why it stops every trace.
pub fn say(word: u32) -> Result<Say, Reason> {
    let number = word & ((1 << BITS) - 1);
    match word >> BITS {
        0 if number >= CLASSES => Err(Reason::Class),
        0 => Ok(Say::Take(number)),
        1 => Ok(Say::Release(number as usize)),
        2 if number != 0 => Err(Reason::Report),
        2 => Ok(Say::Report),
        _ => Err(Reason::Kind),
    }
}

/// Why a trace stopped.
#[derive(Clone, Copy, PartialEq, Eq, Debug)]
pub enum Reason {
    Kind,
    Report,
    Class,
    NotHandedOut,
    Released,
    Blocks,
    Figures,
}

const REASONS: [Reason; 7] = [
    Reason::Kind,
    Reason::Report,
    Reason::Class,
    Reason::NotHandedOut,
    Reason::Released,
    Reason::Blocks,
    Reason::Figures,
];

/// A block that was handed out.
struct Handed {
    class: u32,
    word: Word,
    out: bool,
}

/// A trace on the way, by document 02's words: both heaps, what was handed out, and what was written.
struct Walk {
    reference: Reference,
    book: Vec<u32>,
    handed: Vec<Handed>,
    figures: Vec<u64>,
    highest: u64,
    none: u64,
    given: u64,
}

impl Walk {
    fn open(pages: u32, soil: u32) -> Walk {
        let mut book = vec![soil; book_words(pages)];
        assert_eq!(port::open(&mut book, u64::from(pages)), 0, "an arena of {pages} pages opens");
        let (handed, figures) = (Vec::new(), Vec::new());
        Walk { reference: Reference::open(pages, &[]), book, handed, figures, highest: 0, none: 0, given: 0 }
    }

    fn bytes(&self) -> u64 {
        self.handed.iter().filter(|block| block.out).map(|block| bytes(block.class)).sum()
    }

    /// Carries a word out, or says why it stops the trace.
    fn word(&mut self, word: u32, trace: &Trace) -> Result<(), Reason> {
        match say(word)? {
            Say::Take(class) => self.take(class, trace.blocks),
            Say::Release(place) => self.release(place),
            Say::Report if self.figures.len() + FIGURES > trace.figures => Err(Reason::Figures),
            Say::Report => {
                self.report();
                Ok(())
            }
        }
    }

    /// The original's take comes first: where there is no room, it is the last call that is asked of it.
    fn take(&mut self, class: u32, room: usize) -> Result<(), Reason> {
        let (family, number) = family(class);
        let lent = Lent { len: SMALL_BATCH, fill: 0 };
        let answer = self.reference.answer(&Call::Take { family, class: number, host: HOST_ALL, lent });
        let Answer::Taken { words, .. } = answer else { panic!("a take is answered by {answer:?}") };
        if self.handed.len() + words.len() > room {
            return Err(Reason::Blocks);
        }
        let mut list = [0; SMALL_BATCH];
        let [refused, count, _] = port::plain_take(&mut self.book, family, [number, HOST_ALL], &mut list);
        assert_eq!((refused, &list[..count as usize]), (0, &words[..]), "the port's own take differs");
        self.none += u64::from(words.is_empty());
        self.handed.extend(words.into_iter().map(|word| Handed { class, word, out: true }));
        self.highest = self.highest.max(self.bytes());
        Ok(())
    }

    fn release(&mut self, place: usize) -> Result<(), Reason> {
        let block = self.handed.get_mut(place).ok_or(Reason::NotHandedOut)?;
        if !block.out {
            return Err(Reason::Released);
        }
        block.out = false;
        let (family, number) = family(block.class);
        let list = vec![block.word];
        let [refused, fate] = port::plain_release_blocks(&mut self.book, family, [number, HOST_ALL], &list);
        let answer = self.reference.answer(&Call::ReleaseBlocks { family, class: number, host: HOST_ALL, list });
        assert_eq!((refused, Answer::Fate(fate)), (0, answer), "the port's own release differs");
        self.given += u64::from(fate == TO_ARENA);
        Ok(())
    }

    fn report(&mut self) {
        let Answer::Report([_, _, _, held, idle, _]) = self.reference.answer(&Call::Report) else {
            panic!("a report is refused");
        };
        let out = self.handed.iter().filter(|block| block.out).count() as u64;
        self.figures.extend([out, self.bytes(), held, idle, self.highest]);
    }
}

fn bytes(class: u32) -> u64 {
    let (family, number) = family(class);
    oracle::block_bytes(family, number) as u64
}

/// What a word may be made of.
struct Maker {
    random: Random,
    classes: Vec<u32>,
    /// How it goes, and for how many words still.
    phase: Phase,
    left: u64,
    /// The words of a trace.
    length: usize,
    /// One word in so many is a fault.
    faults: u64,
}

#[derive(Clone, Copy, PartialEq, Eq)]
enum Phase {
    /// Of ten words that are no report so many are takes, the others release any block that is out.
    Mixed(u64),
    Takes,
    /// Releases of all that is out, the earliest first.
    Empties,
}

/// A class parks up to 260 pages: only a long trace on a long arena gives some back to it.
const DEEP_PAGES: u32 = 264;

impl Maker {
    fn new(seed: u64) -> Maker {
        Maker { random: Random::new(seed), classes: Vec::new(), phase: Phase::Takes, left: 0, length: 0, faults: 1 }
    }

    fn trace(&mut self) -> Trace {
        if self.random.chance(1, 100) {
            return self.deep();
        }
        let random = &mut self.random;
        (self.phase, self.left, self.faults) = (Phase::Mixed(5), 0, 400);
        self.length = random.weighted(&[(1, 4), (6, 40), (3, 120), (1, 400)]);
        let pages = random.pick(&[1, 1, 2, 3, 4, 6, 9, 16, 40]);
        let blocks = if random.chance(3, 4) { 1 << 16 } else { random.index(600) };
        let figures = if random.chance(3, 4) { 1 << 10 } else { random.index(60) };
        // Few blocks to a page: pages come and go often.
        let (low, high) = random.weighted(&[(5, (40, 46)), (3, (64, 76)), (2, (40, 76)), (1, (0, u64::from(CLASSES)))]);
        self.classes = (0..random.between(1, 4)).map(|_| random.between(low, high - 1) as u32).collect();
        Trace { pages, words: Vec::new(), blocks, figures }
    }

    /// Pages are taken for as long as there are any, all go back, and then it goes on as any other.
    fn deep(&mut self) -> Trace {
        let random = &mut self.random;
        (self.phase, self.left, self.faults) = (Phase::Takes, 320 + random.below(60), 4_000);
        (self.classes, self.length) = (vec![random.pick(&[44, 45])], 1_700 + random.index(600));
        let pages = DEEP_PAGES + random.below(40) as u32;
        Trace { pages, words: Vec::new(), blocks: 1 << 16, figures: 1 << 14 }
    }

    fn turn(&mut self) {
        let random = &mut self.random;
        (self.phase, self.left) = match self.phase {
            Phase::Takes => (Phase::Empties, 1_200 + random.below(200)),
            Phase::Empties => {
                self.classes = vec![self.classes[0], random.between(40, 45) as u32, random.between(64, 75) as u32];
                (Phase::Mixed(6), 60)
            }
            Phase::Mixed(_) => (Phase::Mixed(random.between(0, 9)), random.between(1, 60)),
        };
    }

    /// The next word, by what was handed out.
    fn word(&mut self, handed: &[Handed]) -> u32 {
        if self.left == 0 {
            self.turn();
        }
        self.left -= 1;
        if self.random.chance(1, self.faults) {
            return self.fault(handed.len() as u64);
        }
        if self.random.chance(1, 12) {
            return 2 << BITS;
        }
        match self.place(handed) {
            Some(place) => 1 << BITS | place as u32,
            None => self.random.pick(&self.classes),
        }
    }

    /// A place that is released next; none for a take.
    fn place(&mut self, handed: &[Handed]) -> Option<usize> {
        let random = &mut self.random;
        match self.phase {
            Phase::Takes => None,
            Phase::Empties => handed.iter().position(|block| block.out),
            Phase::Mixed(takes) if random.chance(takes, 10) => None,
            Phase::Mixed(_) => {
                // Of the latest, or of all.
                let from = if random.chance(1, 2) { handed.len().saturating_sub(12) } else { 0 };
                let any = |_| from + random.index(handed.len() - from + 1);
                (0..6).map(any).find(|&at| handed.get(at).is_some_and(|block| block.out))
            }
        }
    }

    /// A word that may stop the trace.
    fn fault(&mut self, handed: u64) -> u32 {
        let random = &mut self.random;
        let number = random.word() as u32 & ((1 << BITS) - 1);
        match random.below(6) {
            0 => 3 << BITS | number,
            1 => 2 << BITS | number.max(1),
            2 => (CLASSES + random.below(3) as u32).max(number & 0xFF),
            3 => 1 << BITS | (handed + random.below(3)) as u32,
            4 => random.word() as u32,
            _ => 1 << BITS | random.below(handed + 1) as u32,
        }
    }
}

#[derive(Default)]
struct Tally {
    traces: u64,
    words: u64,
    blocks: u64,
    reports: u64,
    none: u64,
    given: u64,
    stopped: [u64; REASONS.len()],
    differences: u64,
}

/// Prints what was compared; true if there is no difference.
pub fn run(words: &[String]) -> Result<bool, String> {
    let arguments = Arguments::read(words, &["traces", "seed"])?;
    let traces = arguments.number("traces")?.unwrap_or(10_000);
    let mut maker = Maker::new(arguments.number("seed")?.unwrap_or(1));
    let (mut tally, mut progress) = (Tally::default(), Progress::begin());
    while tally.traces < traces && tally.differences < 5 {
        one(&mut maker, &mut tally);
        progress.show(tally.traces, traces, "traces");
    }
    println!(
        "{} traces, {} words carried out, {} blocks, {} reports",
        tally.traces, tally.words, tally.blocks, tally.reports
    );
    println!("takes of none: {}; pages and spans that went back to the arena: {}", tally.none, tally.given);
    for (reason, times) in REASONS.iter().zip(tally.stopped) {
        println!("stopped, {reason:?}: {times}");
    }
    println!("{} differences", tally.differences);
    Ok(tally.differences == 0)
}

fn one(maker: &mut Maker, tally: &mut Tally) {
    let mut trace = maker.trace();
    let soil = maker.random.pick(&[0, 7, u32::MAX]);
    let mut walk = Walk::open(trace.pages, soil);
    let mut stopped = None;
    while trace.words.len() < maker.length && stopped.is_none() {
        let word = maker.word(&walk.handed);
        stopped = walk.word(word, &trace).err();
        trace.words.push(word);
    }
    let carried = trace.words.len() - usize::from(stopped.is_some());
    // Words after the one that stops it are not read.
    if stopped.is_some() {
        trace.words.extend((0..maker.random.below(3)).map(|_| maker.random.word() as u32));
    }
    tally.traces += 1;
    tally.words += carried as u64;
    tally.blocks += walk.handed.len() as u64;
    tally.reports += (walk.figures.len() / FIGURES) as u64;
    tally.none += walk.none;
    tally.given += walk.given;
    if let Some(reason) = stopped {
        tally.stopped[REASONS.iter().position(|&other| other == reason).expect("it is one of them")] += 1;
    }
    if let Err(what) = compare(&trace, soil, &walk, carried, stopped) {
        tally.differences += 1;
        println!(
            "{what}: trace on {} pages, lists of {} and {}: {:?}",
            trace.pages, trace.blocks, trace.figures, trace.words
        );
    }
}

/// The port's trace leaves what the walk came to.
fn compare(trace: &Trace, soil: u32, walk: &Walk, carried: usize, stopped: Option<Reason>) -> Result<(), String> {
    let mut book = vec![soil; book_words(trace.pages)];
    let (mut blocks, mut figures) = (vec![UNTOUCHED; trace.blocks], vec![UNTOUCHED; trace.figures]);
    let mut done = [UNTOUCHED; 3];
    let number = port::trace(&mut book, u64::from(trace.pages), &trace.words, &mut blocks, &mut figures, &mut done);
    let due = if stopped.is_some() { 16 } else { 0 };
    if number != due {
        return Err(format!("returned {number}, and {due} is due"));
    }
    let counts = [carried, walk.handed.len(), walk.figures.len()].map(|count| count as u64);
    if done != counts {
        return Err(format!("done is {done:?}, and {counts:?} is due"));
    }
    let handed = walk.handed.iter().map(|block| block.word).chain(std::iter::repeat(UNTOUCHED)).take(trace.blocks);
    if !blocks.iter().copied().eq(handed) {
        return Err("other blocks".into());
    }
    let told = walk.figures.iter().copied().chain(std::iter::repeat(UNTOUCHED)).take(trace.figures);
    if !figures.iter().copied().eq(told) {
        return Err(format!("other figures: {:?}, and {:?} are due", &figures[..walk.figures.len()], walk.figures));
    }
    match book.iter().zip(&walk.book).position(|(one, other)| one != other) {
        Some(at) => Err(format!("word {at} of the book is {}, and {} is due", book[at], walk.book[at])),
        None => Ok(()),
    }
}
