//! What is measured. A scenario is one variant with its rows and a round written once for both sides.

use std::cmp::Reverse;

use super::fill::{self, Style};
use super::meter::Meter;
use super::rounds::Round;
use super::sides::{Class, Side, PAGES};
use crate::oracle;
use crate::random::Random;
use crate::words::{chunk_word, page_of, Family, Word, MAX_PAGES, NO_PAGE};

#[derive(Clone, Copy)]
pub enum Scenario {
    /// Lookups of sizes of a family.
    Sizes { family: Family },
    /// Commits of 1 page and gives, with so many holes of 1 page; none: from the frontier.
    Equal { holes: u32 },
    /// Gives of a page between two holes, with so many holes.
    Between { holes: u32 },
    /// Commits of 2 pages, with so many holes of 1 page.
    NoFit { holes: u32 },
    /// Commits of 2 pages, with so many holes, of which only the last is longer than 1 page.
    OneFits { holes: u32 },
    /// Reports, with a page parked in so many classes.
    Report { classes: u32 },
    /// Takes that carve, releases of all that one gave, takes from the free list.
    Batches { class: Class },
    /// Releases of one block.
    Single { class: Class },
    /// Releases of all blocks of a page.
    Whole { class: Class },
    /// Releases of so many blocks of a page.
    Listed { class: Class, blocks: u32, order: Order },
    /// Takes in an arena of so many pages.
    Arena { class: Class, pages: u32 },
    /// Group releases: of so many pages so many blocks each.
    Chunks { class: Class, pages: u32, blocks: u32, order: Order },
    /// A search that takes and gives back blocks of some classes, and now and then a run.
    Fill { style: Style },
}

/// In what order the blocks of a release stand.
#[derive(Clone, Copy)]
pub enum Order {
    /// Page by page, as they were taken.
    Taken,
    /// The highest block first.
    Descending,
    /// Any.
    Mixed,
}

impl Order {
    fn arrange(self, words: &mut [Word], seed: usize) {
        match self {
            Order::Taken => {}
            Order::Descending => words.sort_by_key(|&word| Reverse(word)),
            Order::Mixed => Random::new(seed as u64).shuffle(words),
        }
    }

    fn name(self) -> &'static str {
        match self {
            Order::Taken => "",
            Order::Descending => ", descending",
            Order::Mixed => ", mixed",
        }
    }
}

/// A line of the table.
pub struct Row {
    pub call: String,
    pub holes: Option<u32>,
}

const HOLES: [u32; 5] = [0, 10, 100, 1_000, 4_000];
/// Blocks of a release, to see how its cost grows with them.
const LISTS: [u32; 5] = [8, 32, 128, 512, 2_048];
/// Lengths of the arena, to see that a take's cost does not grow with them.
const ARENAS: [u32; 5] = [64, 1_024, 8_192, 65_536, MAX_PAGES];

pub fn all() -> Vec<Scenario> {
    let small = |class| Class(Family::Small, class);
    let medium = |class| Class(Family::Medium, class);
    let equal = HOLES.map(|holes| Scenario::Equal { holes });
    let between = HOLES[1..].iter().map(|&holes| Scenario::Between { holes });
    let no_fit = HOLES[1..].iter().map(|&holes| Scenario::NoFit { holes });
    let one_fits = [10, 4_000].map(|holes| Scenario::OneFits { holes });
    let batches = [small(0), small(3), small(10), medium(0)].map(|class| Scenario::Batches { class });
    let single = [0, 10].map(|class| Scenario::Single { class: small(class) });
    let whole = [0, 10, 45].map(|class| Scenario::Whole { class: small(class) });
    let listed = LISTS.map(|blocks| Scenario::Listed { class: small(0), blocks, order: Order::Taken });
    let ordered =
        [Order::Mixed, Order::Descending].map(|order| Scenario::Listed { class: small(0), blocks: 64, order });
    let report = [0, 8].map(|classes| Scenario::Report { classes });
    let arena = ARENAS.map(|pages| Scenario::Arena { class: small(10), pages });
    let chunks = |order| move |(pages, blocks)| Scenario::Chunks { class: small(10), pages, blocks, order };
    let in_order = [(1, 8), (8, 8), (8, 64), (32, 64), (128, 8), (512, 8), (8, 314)].map(chunks(Order::Taken));
    let mixed = [(8, 8), (32, 64), (128, 8), (1_000, 4)].map(chunks(Order::Mixed));
    let sizes = [Family::Small, Family::Medium].map(|family| Scenario::Sizes { family });
    let arena_calls = equal.into_iter().chain(between).chain(no_fit).chain(one_fits).chain(report);
    let list_calls = batches.into_iter().chain(single).chain(ordered).chain(whole).chain(listed).chain(arena);
    let fills = [Style::Takes, Style::Mixed].map(|style| Scenario::Fill { style });
    arena_calls.chain(list_calls).chain(in_order).chain(mixed).chain(sizes).chain(fills).collect()
}

/// Calls that are measured together, where no scenario says otherwise.
const BATCH: usize = 8;
/// Lookups that are.
const LOOKUPS: usize = 1_024;
/// Times that calls which undo each other are repeated in a round; the first is not counted.
const REPEATS: usize = 4;

impl Scenario {
    /// In the order of the round's costs.
    pub fn rows(&self) -> Vec<Row> {
        let with = |holes, calls: &[&str]| {
            calls.iter().map(|call| Row { call: call.to_string(), holes: Some(holes) }).collect::<Vec<Row>>()
        };
        let plain = |calls: &[String]| calls.iter().map(|call| Row { call: call.clone(), holes: None }).collect();
        match *self {
            Scenario::Sizes { family } => plain(&[format!("class of a size, {}", family_name(family))]),
            Scenario::Equal { holes: 0 } => with(0, &["commit, 1 page, from the frontier", "give, 1 page"]),
            Scenario::Equal { holes } => with(holes, &["commit, 1 page", "give, 1 page"]),
            Scenario::Between { holes } => with(holes, &["give, 1 page, between two holes"]),
            Scenario::NoFit { holes } => with(holes, &["commit, 2 pages, fits no hole"]),
            Scenario::OneFits { holes } => with(holes, &["commit, 2 pages, one hole fits"]),
            Scenario::Report { classes: 0 } => plain(&["report".into()]),
            Scenario::Report { classes } => plain(&[format!("report, a page parked in each of {classes} classes")]),
            Scenario::Batches { class } => {
                let (blocks, name) = (oracle::batch(class.0, class.1), name(class));
                let [new, again] = sources(class);
                let [release, linking] = releases(blocks, "", &name);
                plain(&[
                    format!("take of {blocks}, {new}, {name}"),
                    format!("take of {blocks}, {again}, {name}"),
                    release,
                    linking,
                ])
            }
            Scenario::Single { class } => plain(&[format!("release of 1, {}", name(class))]),
            Scenario::Whole { class } => plain(&["", " with their linking"].map(|linking| {
                format!("release of a whole page, {} blocks{linking}, {}", capacity(class), name(class))
            })),
            Scenario::Listed { class, blocks, order } => plain(&releases(blocks as usize, order.name(), &name(class))),
            Scenario::Arena { class, pages } => {
                let (blocks, name) = (oracle::batch(class.0, class.1), name(class));
                plain(
                    &sources(class).map(|source| format!("take of {blocks}, {source}, {name}, arena of {pages} pages")),
                )
            }
            Scenario::Chunks { class, pages, blocks, order } => {
                let retired = if blocks == capacity(class) { ", retired" } else { "" };
                plain(&[format!("group release, {pages} × {blocks} blocks{retired}{}, {}", order.name(), name(class))])
            }
            Scenario::Fill { style } => plain(&[fill::row(style)]),
        }
    }

    /// The arena's length.
    pub fn pages(&self) -> u32 {
        if let Scenario::Arena { pages, .. } = *self {
            pages
        } else {
            PAGES
        }
    }

    pub fn round<S: Side>(&self, side: &mut S, meter: &Meter) -> Round {
        side.reopen(self.pages());
        match *self {
            Scenario::Sizes { family } => sizes(side, meter, family),
            Scenario::Equal { holes: 0 } => frontier(side, meter),
            Scenario::Equal { holes } => equal(side, meter, holes),
            Scenario::Between { holes } => between(side, meter, holes),
            Scenario::NoFit { holes } => no_fit(side, meter, holes),
            Scenario::OneFits { holes } => one_fits(side, meter, holes),
            Scenario::Report { classes } => report(side, meter, classes),
            Scenario::Batches { class } => batches(side, meter, class),
            Scenario::Single { class } => single(side, meter, class),
            Scenario::Whole { class } => whole(side, meter, class),
            Scenario::Listed { class, blocks, order } => listed(side, meter, class, blocks, order),
            Scenario::Arena { class, .. } => arena(side, meter, class),
            Scenario::Chunks { class, pages, blocks, order } => chunks(side, meter, class, [pages, blocks], order),
            Scenario::Fill { style } => fill::round(side, meter, style),
        }
    }
}

fn name(Class(family, class): Class) -> String {
    match family {
        Family::Small => format!("class {class}"),
        Family::Medium => format!("medium {class}"),
    }
}

/// Where a take's blocks are from at first, and once they were given back. A span gives all of its blocks at once.
fn sources(class: Class) -> [&'static str; 2] {
    match class.0 {
        Family::Small => ["carving", "free list"],
        Family::Medium => ["a new span", "a parked span"],
    }
}

/// The rows of a release whose chain is at hand, and of one that makes it.
fn releases(blocks: usize, order: &str, name: &str) -> [String; 2] {
    ["", " with their linking"].map(|linking| format!("release of {blocks}{linking}{order}, {name}"))
}

fn family_name(family: Family) -> &'static str {
    match family {
        Family::Small => "small",
        Family::Medium => "medium",
    }
}

fn capacity(Class(family, class): Class) -> u32 {
    oracle::capacity(family, class)
}

/// Sizes all over the family's, in no order.
fn sizes<S: Side>(side: &mut S, meter: &Meter, family: Family) -> Round {
    let (low, many) = match family {
        Family::Small => (0, 16_385),
        Family::Medium => (16_385, 49_088),
    };
    let sizes: Vec<u64> = (0..LOOKUPS as u64).map(|i| low + i * 7_919 % many).collect();
    let mut answers = vec![0; LOOKUPS];
    let ((), cost) = meter.measure(LOOKUPS, || {
        answers.iter_mut().zip(&sizes).for_each(|(answer, &size)| *answer = side.class_of(family, size));
    });
    Round::new(vec![cost], answers)
}

/// Holes of 1 page each; a page before each is kept, so that none touches another.
fn store_holes<S: Side>(side: &mut S, holes: u32) {
    let pages: Vec<[u32; 2]> = (0..holes).map(|_| [side.commit(1), side.commit(1)]).collect();
    pages.into_iter().for_each(|[_, first]| side.give(first, 1));
}

/// Whether each commit answered a run. Which of several equal holes it is is not the same on both sides (document 02, A.8).
fn answered(firsts: [u32; BATCH]) -> impl Iterator<Item = u64> {
    firsts.into_iter().map(|first| u64::from(first != NO_PAGE))
}

fn measure_commits<S: Side>(side: &mut S, meter: &Meter, pages: u64) -> ([u32; BATCH], f64) {
    meter.measure(BATCH, || {
        let mut firsts = [0; BATCH];
        firsts.iter_mut().for_each(|first| *first = side.commit(pages));
        firsts
    })
}

fn measure_gives<S: Side>(side: &mut S, meter: &Meter, firsts: &[u32; BATCH]) -> f64 {
    meter.measure(BATCH, || firsts.iter().for_each(|&first| side.give(first, 1))).1
}

/// No hole is stored when the commits begin; the gives, of every other page, store up to a batch of them.
fn frontier<S: Side>(side: &mut S, meter: &Meter) -> Round {
    store_holes(side, 1);
    let mut answers = vec![side.commit(1)];
    answers.extend((0..BATCH).map(|_| side.commit(1)));
    let (firsts, commit) = measure_commits(side, meter, 1);
    answers.extend(firsts);
    let apart = [(); BATCH].map(|()| side.commit(2));
    let give = measure_gives(side, meter, &apart);
    answers.extend(apart);
    Round::new(vec![commit, give], answers)
}

/// The named number of holes is there when the gives begin; each makes one of two.
fn between<S: Side>(side: &mut S, meter: &Meter, holes: u32) -> Round {
    const GIVES: usize = BATCH / 2;
    let runs = [(); GIVES].map(|()| [side.commit(1), side.commit(3)][1]);
    store_holes(side, holes - 2 * GIVES as u32);
    runs.iter().for_each(|&first| [first, first + 2].into_iter().for_each(|page| side.give(page, 1)));
    let ((), cost) = meter.measure(GIVES, || runs.iter().for_each(|&first| side.give(first + 1, 1)));
    Round::new(vec![cost], runs.to_vec())
}

/// A batch begins with half of it more holes than are named, and ends with as many less.
fn equal<S: Side>(side: &mut S, meter: &Meter, holes: u32) -> Round {
    store_holes(side, holes + BATCH as u32 / 2);
    let mut round = Round { costs: vec![0.0; 2], answers: Vec::new() };
    for repeat in 0..REPEATS {
        let (firsts, commit) = measure_commits(side, meter, 1);
        let give = measure_gives(side, meter, &firsts);
        round.answers.extend(answered(firsts));
        if repeat > 0 {
            round.costs[0] += commit / (REPEATS - 1) as f64;
            round.costs[1] += give / (REPEATS - 1) as f64;
        }
    }
    round
}

fn no_fit<S: Side>(side: &mut S, meter: &Meter, holes: u32) -> Round {
    store_holes(side, holes);
    commits_of_two(side, meter)
}

/// The hole that fits is as long as a batch needs, and one page longer, so that none of the commits ends it.
fn one_fits<S: Side>(side: &mut S, meter: &Meter, holes: u32) -> Round {
    let pages = 2 * (BATCH as u64 + 1) + 1;
    let first = side.commit(pages);
    store_holes(side, holes - 1);
    side.give(first, pages);
    commits_of_two(side, meter)
}

fn commits_of_two<S: Side>(side: &mut S, meter: &Meter) -> Round {
    let mut answers = vec![side.commit(2)];
    let (firsts, cost) = measure_commits(side, meter, 2);
    answers.extend(firsts);
    Round::new(vec![cost], answers)
}

fn report<S: Side>(side: &mut S, meter: &Meter, classes: u32) -> Round {
    for class in 0..classes {
        let class = Class(Family::Small, class);
        let taken = measure_takes(side, meter, class, 1).0;
        measure_release(side, meter, class, &taken, false);
    }
    let (figures, cost) = meter.measure(BATCH, || [(); BATCH].map(|()| side.report()));
    Round::new(vec![cost], figures.concat())
}

/// Takes that a page carves after its first one; a span's are all carved at the first.
fn carvings(class: Class) -> usize {
    match class.0 {
        Family::Small => (capacity(class) as usize / oracle::batch(class.0, class.1) - 1).min(BATCH),
        Family::Medium => BATCH,
    }
}

pub fn measure_takes<S: Side>(side: &mut S, meter: &Meter, class: Class, number: usize) -> (Vec<Vec<Word>>, f64) {
    let mut taken = vec![S::Taken::default(); number];
    let ((), cost) = meter.measure(number, || taken.iter_mut().for_each(|taken| side.take(class, taken)));
    (taken.iter().map(|taken| S::words(class, taken)).collect(), cost)
}

/// A first take stays out, so that no page becomes empty but a span.
fn batches<S: Side>(side: &mut S, meter: &Meter, class: Class) -> Round {
    let number = carvings(class);
    let mut answers = measure_takes(side, meter, class, 1).0.concat();
    let (mut lists, carving) = measure_takes(side, meter, class, number);
    answers.extend(lists.concat());
    let mut costs = vec![carving, 0.0, 0.0, 0.0];
    for linking in [false, true] {
        for repeat in 0..REPEATS {
            let released = measure_release(side, meter, class, &lists, linking);
            let (taken, from_list) = measure_takes(side, meter, class, number);
            answers.extend(taken.concat());
            lists = taken;
            if repeat > 0 {
                costs[1] += from_list / (2 * (REPEATS - 1)) as f64;
                costs[2 + usize::from(linking)] += released / (REPEATS - 1) as f64;
            }
        }
    }
    Round::new(costs, answers)
}

fn measure_release<S: Side>(side: &mut S, meter: &Meter, class: Class, lists: &[Vec<Word>], linking: bool) -> f64 {
    if linking {
        return meter.measure(lists.len(), || lists.iter().for_each(|words| side.release_list(class, words))).1;
    }
    let at_hand: Vec<S::List> = lists.iter().map(|words| S::list(class, words)).collect();
    meter.measure(lists.len(), || at_hand.iter().for_each(|list| side.release(class, list))).1
}

fn single<S: Side>(side: &mut S, meter: &Meter, class: Class) -> Round {
    let words = measure_takes(side, meter, class, 2).0.concat();
    let lists: Vec<Vec<Word>> = words.chunks(1).map(<[Word]>::to_vec).collect();
    let mut answers = words;
    let (first, counted) = lists[..3 * BATCH].split_at(BATCH);
    measure_release(side, meter, class, first, false);
    let cost = measure_release(side, meter, class, counted, false);
    answers.extend(measure_takes(side, meter, class, 1).0.concat());
    Round::new(vec![cost], answers)
}

/// All blocks of so many pages, page by page.
fn fill<S: Side>(side: &mut S, meter: &Meter, class: Class, pages: u32) -> Vec<Vec<Word>> {
    let takes = capacity(class).div_ceil(oracle::batch(class.0, class.1) as u32) * pages;
    let mut words = measure_takes(side, meter, class, takes as usize).0.concat();
    words.sort_by_key(|&word| page_of(word));
    let filled: Vec<Vec<Word>> = words.chunk_by(|&one, &other| page_of(one) == page_of(other)).map(Vec::from).collect();
    assert!(filled.len() == pages as usize, "{pages} pages are filled, not {}", filled.len());
    filled
}

/// As many pages as are parked empty.
const PARKED: u32 = 4;

fn whole<S: Side>(side: &mut S, meter: &Meter, class: Class) -> Round {
    let mut answers = Vec::new();
    let costs = [false, true].map(|linking| {
        let lists = fill(side, meter, class, PARKED);
        answers.extend(lists.concat());
        measure_release(side, meter, class, &lists, linking)
    });
    answers.extend(measure_takes(side, meter, class, 2).0.concat());
    Round::new(costs.to_vec(), answers)
}

/// The page keeps the rest of its blocks out, so that it stays where it is.
fn listed<S: Side>(side: &mut S, meter: &Meter, class: Class, blocks: u32, order: Order) -> Round {
    let mut lists = fill(side, meter, class, 2 * PARKED);
    let mut answers = lists.concat();
    for (at, list) in lists.iter_mut().enumerate() {
        list.truncate(blocks as usize);
        order.arrange(list, at);
    }
    let (at_hand, to_link) = lists.split_at(PARKED as usize);
    let release = measure_release(side, meter, class, at_hand, false);
    let linking = measure_release(side, meter, class, to_link, true);
    answers.extend(measure_takes(side, meter, class, 2).0.concat());
    Round::new(vec![release, linking], answers)
}

/// As `batches`, in an arena that is opened anew at its own length.
fn arena<S: Side>(side: &mut S, meter: &Meter, class: Class) -> Round {
    let Round { costs, answers } = batches(side, meter, class);
    Round { costs: costs[..2].to_vec(), answers }
}

/// Of each page the same share for each call, as often as it goes.
fn chunks<S: Side>(side: &mut S, meter: &Meter, class: Class, [pages, blocks]: [u32; 2], order: Order) -> Round {
    let filled = fill(side, meter, class, pages);
    let number = (capacity(class) / blocks).min(PARKED) as usize;
    let words = |call: usize| {
        let from = call * blocks as usize;
        let mut words: Vec<Word> = filled.iter().flat_map(|page| page[from..from + blocks as usize].to_vec()).collect();
        order.arrange(&mut words, call);
        words
    };
    let chunks: Vec<Word> = filled.iter().map(|page| chunk_word(blocks, page_of(page[0]))).collect();
    let mut at_hand: Vec<S::Chunks> = (0..number).map(|call| S::make_chunks(&words(call), &chunks)).collect();
    let ((), cost) = meter.measure(number, || at_hand.iter_mut().for_each(|made| side.release_chunks(class, made)));
    let mut answers = filled.concat();
    answers.extend(measure_takes(side, meter, class, 2).0.concat());
    Round::new(vec![cost], answers)
}
