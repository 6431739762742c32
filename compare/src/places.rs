//! Neighbouring calls that change places (document 02, A.14), on the port: each call of a random history on another class than
//! the one ahead of it is also made before that one, on a copy of the book. Where at most one of the two reaches the arena, both
//! must answer the same and leave the same book, word for word. Where both reach it, it is counted how often they do not.

use crate::arguments::Arguments;
use crate::call::{Answer, Call, Lent};
use crate::ledger::class_id;
use crate::memory::Fence;
use crate::parking;
use crate::plan::{Intent, Piece, Plan, Portion, Step};
use crate::port::{self, Room};
use crate::progress::Progress;
use crate::random::Random;
use crate::reference::Reference;
use crate::speed;
use crate::words::{book_words, Family, HOST_ALL, HOST_COMMIT, SMALL_BATCH};

#[derive(Default)]
struct Tally {
    calls: u64,
    /// Neighbouring calls on two classes, at most one of which reaches the arena.
    pairs: u64,
    /// Of these: one asks for a run, one gives one, one is refused.
    asks: u64,
    gives: u64,
    refused: u64,
    /// Both reach the arena; and of these, answers or books differ.
    both: u64,
    both_differ: u64,
    differences: u64,
}

/// Prints what was compared; true if there is no difference.
pub fn run(words: &[String]) -> Result<bool, String> {
    let arguments = Arguments::read(words, &["pairs", "seed"])?;
    let pairs = arguments.number("pairs")?.unwrap_or(100_000);
    let mut random = Random::new(arguments.number("seed")?.unwrap_or(1));
    let (mut tally, mut progress) = (Tally::default(), Progress::begin());
    while tally.pairs < pairs {
        history(&mut random, &mut tally);
        progress.show(tally.pairs, pairs, "pairs");
    }
    println!("{} calls of random histories", tally.calls);
    tally.print();
    let fill = fill();
    println!("a fill (src/speed/fill.rs), {} calls, so {} neighbouring pairs", fill.calls, fill.calls - 1);
    fill.print();
    let differ = example();
    println!("{} differences", tally.differences + fill.differences);
    Ok(differ && tally.differences + fill.differences == 0)
}

impl Tally {
    fn print(&self) {
        let Tally { pairs, asks, gives, refused, both, both_differ, .. } = self;
        println!(
            "  {pairs} pairs exchanged: one asks for a run in {asks}, gives one in {gives}, is refused in {refused}"
        );
        println!("  {both} pairs of which both reach the arena: {both_differ} differ");
    }

    fn note(&mut self, first: &Told, second: &Told, same: bool) {
        let any = |is: fn(&Told) -> bool| u64::from(is(first) || is(second));
        if first.reaches && second.reaches {
            self.both += 1;
            self.both_differ += u64::from(!same);
            return;
        }
        self.pairs += 1;
        self.asks += any(|told| told.reaches && matches!(told.call, Call::Take { .. }));
        self.gives += any(|told| told.reaches && !matches!(told.call, Call::Take { .. }));
        self.refused += any(|told| matches!(told.answer, Answer::Refused(_)));
        if !same {
            self.differences += 1;
            println!("{:?} and {:?} may not change places", first.call, second.call);
        }
    }
}

/// A call that was made.
struct Told {
    call: Call,
    answer: Answer,
    reaches: bool,
}

/// A heap, with its book before the latest call and before that one.
struct Walk {
    book: Vec<u32>,
    before: Vec<u32>,
    earlier: Vec<u32>,
    room: Room,
    last: Option<Told>,
}

impl Walk {
    fn open(pages: u32, rows: &[u32], content: u32) -> Walk {
        let mut book = vec![content; book_words(pages)];
        assert_eq!(port::open_with(&mut book, u64::from(pages), rows), 0, "an arena of {pages} pages opens");
        let (before, earlier) = (book.clone(), book.clone());
        Walk { book, before, earlier, room: Room::new(Fence::Back), last: None }
    }

    /// Makes the call; and, on the book before the one ahead of it, the two the other way round.
    fn step(&mut self, call: Call, tally: &mut Tally) -> &Answer {
        self.before.copy_from_slice(&self.book);
        let answer = port::ask(&mut self.book, &mut self.room, &call);
        let committed = commits(&self.book) != commits(&self.before);
        let told = Told { reaches: reaches(&answer, committed), call, answer };
        tally.calls += 1;
        if let Some(last) = self.last.take().filter(|last| on_two_classes(&last.call, &told.call)) {
            let second = port::ask(&mut self.earlier, &mut self.room, &told.call);
            let first = port::ask(&mut self.earlier, &mut self.room, &last.call);
            let same = first == last.answer && second == told.answer && self.earlier == self.book;
            tally.note(&last, &told, same);
        }
        std::mem::swap(&mut self.earlier, &mut self.before);
        &self.last.insert(told).answer
    }
}

/// Granted commits since the opening.
fn commits(book: &[u32]) -> u64 {
    let (number, [commits, ..]) = port::plain_report(book);
    assert_eq!(number, 0, "a report is refused");
    commits
}

/// A take reaches the arena if it finds no page at home: then it answers a block of a run that was committed for it, or none.
/// A release does if a run's fate is the arena.
fn reaches(answer: &Answer, committed: bool) -> bool {
    let gives = |fate: &u32| fate % 4 == 2;
    match answer {
        Answer::Taken { words, .. } => words.is_empty() || committed,
        Answer::Fate(fate) => gives(fate),
        Answer::Fates(fates) => fates.iter().any(gives),
        _ => false,
    }
}

/// The id of the class that a call is on, if it is on one.
fn class_of(call: &Call) -> Option<usize> {
    let (family, class) = match call {
        Call::Take { family, class, .. } | Call::ReleaseBlocks { family, class, .. } => (*family, *class),
        Call::ReleaseChunks { class, .. } => (Family::Small, *class),
        _ => return None,
    };
    (class < family.classes()).then(|| class_id(family, class))
}

fn on_two_classes(first: &Call, second: &Call) -> bool {
    matches!((class_of(first), class_of(second)), (Some(one), Some(other)) if one != other)
}

/// A history whose calls fit what was answered so far, by the original.
fn history(random: &mut Random, tally: &mut Tally) {
    let plan = if random.chance(1, 15) { stores(random) } else { mixed(random) };
    let mut walk = Walk::open(plan.pages, &plan.rows, random.pick(&[0, 1, 40, u32::MAX]));
    let mut reference = Reference::open(plan.pages, &plan.rows);
    for wanted in &plan.steps {
        let Some(call) = wanted.call(&reference.ledger, reference.frontier()) else { continue };
        let due = reference.answer(&call);
        if walk.step(call.clone(), tally) != &due {
            tally.differences += 1;
            println!("{call:?}: {due:?} is due");
            return;
        }
    }
}

/// A few classes on a short arena, with direct calls between them.
fn mixed(random: &mut Random) -> Plan {
    let classes: Vec<(Family, u32)> = (0..random.between(2, 6)).map(|_| any_class(random)).collect();
    let steps = (0..random.between(100, 500)).map(|_| {
        let (family, class) = random.pick(&classes);
        any_step(random, family, class)
    });
    let steps = steps.collect();
    let rows = if random.chance(1, 2) { parking::any_rows(random) } else { Vec::new() };
    Plan { scenario: "mixed", pages: random.between(2, 40) as u32, rows, steps }
}

/// Pages of one class beyond what its stores keep, so that releases give, with calls on other classes between them.
fn stores(random: &mut Random) -> Plan {
    const CLASS: u32 = 45;
    let runs = random.between(262, 280);
    let mut steps: Vec<Step> = Vec::new();
    for _ in 0..runs {
        steps.push(step(random, HOST_ALL, Intent::Take { family: Family::Small, class: CLASS }));
    }
    for _ in 0..runs + 40 {
        let most = random.pick(&[1, 1, 3, 12]);
        let portion = Portion::All;
        let intent = match random.below(3) {
            0 => Intent::ReleaseChunks { class: CLASS, most, portion },
            _ => Intent::ReleaseBlocks { family: Family::Small, class: CLASS, portion },
        };
        steps.push(step(random, HOST_ALL, intent));
        let (family, class) = random.pick(&[(Family::Small, 40), (Family::Small, 46), (Family::Medium, 0)]);
        steps.push(any_step(random, family, class));
    }
    Plan { scenario: "stores", pages: runs as u32 + 8, rows: Vec::new(), steps }
}

fn any_class(random: &mut Random) -> (Family, u32) {
    match random.below(4) {
        0 => (Family::Medium, random.below(12) as u32),
        1 => (Family::Small, random.below(64) as u32),
        _ => (Family::Small, random.between(36, 46) as u32),
    }
}

fn any_step(random: &mut Random, family: Family, class: u32) -> Step {
    let host = match random.below(8) {
        0 => random.below(16) as u32,
        1 => HOST_ALL - HOST_COMMIT,
        _ => HOST_ALL,
    };
    let portion = random.pick(&[Portion::One, Portion::Some, Portion::All]);
    let intent = match random.below(24) {
        0..=9 => Intent::Take { family, class },
        10..=13 if family == Family::Small => Intent::ReleaseChunks { class, most: random.pick(&[1, 2, 8]), portion },
        10..=20 => Intent::ReleaseBlocks { family, class, portion },
        21 => Intent::Commit { pages: random.between(1, 3) },
        22 => Intent::Release { piece: Piece::Whole },
        _ => Intent::Wrong { family, class },
    };
    step(random, host, intent)
}

fn step(random: &mut Random, host: u32, intent: Intent) -> Step {
    Step { intent, host, chance: random.word() }
}

/// An arena on which the fill's calls answer as on its own.
const FILL_PAGES: u32 = 64;

/// The neighbouring calls of a workload like a fill.
fn fill() -> Tally {
    let (mut tally, mut walk) = (Tally::default(), Walk::open(FILL_PAGES, &[], 0));
    for call in speed::fill_calls() {
        walk.step(call, &mut tally);
    }
    tally
}

/// Two takes that both commit: the one that comes first has the lower page. Whether they differ in either order.
fn example() -> bool {
    let take =
        |class| Call::Take { family: Family::Small, class, host: HOST_ALL, lent: Lent { len: SMALL_BATCH, fill: 0 } };
    let (mut tally, mut walk) = (Tally::default(), Walk::open(64, &[], 0));
    walk.step(take(0), &mut tally);
    walk.step(take(1), &mut tally);
    println!(
        "a take of class 0 and one of class 1 on a new heap, which both commit: {} of {} differs",
        tally.both_differ, tally.both
    );
    tally.both_differ == 1
}
