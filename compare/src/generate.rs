//! Random plans, by scenario: each reaches some corner of document 01's rules that a plain mix would seldom reach.

use std::ops::Range;

use crate::call::Kind;
use crate::oracle;
use crate::parking;
use crate::plan::{Intent, Piece, Place, Plan, Portion, Step};
use crate::random::Random;
use crate::words::{Family, HOST_ALL, HOST_COMMIT, HOST_RESERVE};

/// A maker of plans, and the calls without which it would be pointless.
pub struct Scenario {
    pub name: &'static str,
    weight: u64,
    needs: &'static [Kind],
    make: fn(&mut Maker),
}

pub const SCENARIOS: [Scenario; 15] = [
    Scenario { name: "direct", weight: 300, needs: &[Kind::Commit], make: direct },
    Scenario { name: "lengths", weight: 120, needs: &[Kind::Commit], make: lengths },
    Scenario { name: "growth", weight: 120, needs: &[Kind::GrowFrontier], make: growth },
    Scenario { name: "refused reservation", weight: 20, needs: &[Kind::Commit], make: refused_reservation },
    Scenario { name: "long holes", weight: 40, needs: &[Kind::Commit], make: long_holes },
    Scenario { name: "page limit", weight: 20, needs: &[Kind::Commit], make: page_limit },
    Scenario { name: "many holes", weight: 6, needs: &[Kind::Commit], make: many_holes },
    Scenario { name: "mixed", weight: 300, needs: &[Kind::TakeBlocks], make: mixed },
    Scenario { name: "exhaustion", weight: 100, needs: &[Kind::TakeBlocks], make: exhaustion },
    Scenario { name: "small stores", weight: 12, needs: &[Kind::TakeBlocks], make: small_stores },
    Scenario { name: "medium stores", weight: 8, needs: &[Kind::MediumTakeBlocks], make: medium_stores },
    Scenario { name: "chunks", weight: 60, needs: &[Kind::ReleaseBinChunks], make: chunks },
    Scenario { name: "every fate", weight: 8, needs: &[Kind::ReleaseBinChunks], make: every_fate },
    Scenario { name: "chunk limit", weight: 2, needs: &[Kind::ReleaseBinChunks], make: chunk_limit },
    Scenario { name: "far pages", weight: 10, needs: &[Kind::TakeBlocks], make: far_pages },
];

/// A plan of the named scenario, or of one of those whose calls are asked. `pages` sets the arena's length.
pub fn plan(random: &mut Random, asked: fn(Kind) -> bool, name: Option<&str>, pages: Option<u32>) -> Plan {
    let fitting: Vec<(u64, &Scenario)> = SCENARIOS
        .iter()
        .filter(|scenario| name.map_or(scenario.needs.iter().all(|&kind| asked(kind)), |name| name == scenario.name))
        .map(|scenario| (scenario.weight, scenario))
        .collect();
    let scenario = random.weighted(&fitting);
    let mut maker = Maker { asked, ..Maker::new(random, pages) };
    (scenario.make)(&mut maker);
    maker.push(HOST_ALL, Intent::Report);
    let rows = if random.chance(1, 3) { parking::any_rows(random) } else { Vec::new() };
    maker.plan(scenario.name, rows)
}

/// The steps of a plan, as they are made.
pub struct Maker {
    pub random: Random,
    /// The arena's length, if it was asked for.
    pages: Option<u32>,
    length: u32,
    steps: Vec<Step>,
    asked: fn(Kind) -> bool,
}

impl Maker {
    pub fn new(random: &mut Random, pages: Option<u32>) -> Maker {
        Maker { random: Random::new(random.word()), pages, length: 1, steps: Vec::new(), asked: |_| true }
    }

    pub fn plan(self, scenario: &'static str, rows: Vec<u32>) -> Plan {
        Plan { scenario, pages: self.length, rows, steps: self.steps }
    }

    /// The arena's length.
    pub fn pages(&self) -> u64 {
        u64::from(self.length)
    }

    pub fn arena(&mut self, low: u32, high: u32) {
        let length = self.random.between(u64::from(low), u64::from(high)) as u32;
        self.length = self.pages.unwrap_or(length);
    }

    pub fn push(&mut self, host: u32, intent: Intent) {
        let chance = self.random.word();
        self.steps.push(Step { intent, host, chance });
    }

    /// With the host word that grants all, or now and then with any other.
    pub fn add(&mut self, intent: Intent) {
        let host = match self.random.below(10) {
            0 => self.random.below(16) as u32,
            1 => HOST_ALL - HOST_COMMIT,
            2 => HOST_ALL & !(1 << self.random.below(4)),
            _ => HOST_ALL,
        };
        self.push(host, intent);
    }

    /// The reservation is granted, so that what follows has an arena.
    pub fn reserve(&mut self) {
        let host = HOST_RESERVE | self.random.below(16) as u32;
        self.push(host, Intent::Commit { pages: 1 });
    }

    pub fn look(&mut self) {
        match self.random.below(3) {
            0 => self.add(Intent::Contains),
            _ => self.add(Intent::Report),
        }
    }

    /// A run's length: mostly short, now and then near the arena's.
    fn run_length(&mut self) -> u64 {
        let all = u64::from(self.length);
        match self.random.below(12) {
            0 => self.random.between(1, all + 1),
            1 => all - self.random.below(3).min(all - 1),
            2 | 3 => self.random.between(1, 40),
            _ => self.random.between(1, 6),
        }
    }

    pub fn direct_step(&mut self) {
        match self.random.below(20) {
            0..=7 => {
                let pages = self.run_length();
                self.add(Intent::Commit { pages });
            }
            8..=13 => {
                let piece = self.random.weighted(&[(3, Piece::Whole), (3, Piece::Part), (2, Piece::Front(1))]);
                self.add(Intent::Release { piece });
            }
            14 | 15 => {
                let by = self.random.between(1, 5);
                self.add(Intent::Grow { place: Place::Frontier, by });
            }
            16 => {
                let by = self.run_length();
                self.add(Intent::Grow { place: Place::Anywhere, by });
            }
            17 => {
                let (family, class) = self.any_class();
                self.add(Intent::Wrong { family, class });
            }
            _ => self.look(),
        }
    }

    fn any_class(&mut self) -> (Family, u32) {
        if self.random.chance(1, 3) {
            (Family::Medium, self.random.below(12) as u32)
        } else {
            (Family::Small, self.small_class())
        }
    }

    fn small_class(&mut self) -> u32 {
        match self.random.below(4) {
            0 => self.random.below(64) as u32,
            1 => self.random.between(40, 45) as u32,
            2 => self.random.between(20, 40) as u32,
            _ => self.random.pick(&[0, 1, 7, 30, 45, 46, 63]),
        }
    }

    fn portion(&mut self) -> Portion {
        self.random.weighted(&[(2, Portion::One), (3, Portion::Some), (3, Portion::All)])
    }

    pub fn class_step(&mut self, family: Family, class: u32) {
        let portion = self.portion();
        match self.random.below(12) {
            0..=4 => self.add(Intent::Take { family, class }),
            5..=7 => self.add(Intent::ReleaseBlocks { family, class, portion }),
            8..=9 if family == Family::Small && (self.asked)(Kind::ReleaseBinChunks) => {
                let most = self.random.pick(&[1, 2, 3, 8, 40]);
                self.add(Intent::ReleaseChunks { class, most, portion });
            }
            8..=10 => self.add(Intent::ReleaseBlocks { family, class, portion: Portion::All }),
            _ => self.add(Intent::Wrong { family, class }),
        }
    }

    /// Steps on a few classes, with direct calls between them.
    fn class_steps(&mut self, number: u64) {
        let classes: Vec<(Family, u32)> = (0..self.random.between(1, 4)).map(|_| self.any_class()).collect();
        for _ in 0..number {
            match self.random.below(8) {
                0 | 1 => self.direct_step(),
                2 if self.random.chance(1, 2) => self.look(),
                _ => {
                    let (family, class) = self.random.pick(&classes);
                    self.class_step(family, class);
                }
            }
        }
    }
}

fn direct(maker: &mut Maker) {
    maker.arena(1, 200);
    if maker.random.chance(9, 10) {
        maker.reserve();
    }
    for _ in 0..maker.random.between(50, 500) {
        maker.direct_step();
    }
}

/// Holes and runs of many equal lengths, around the last one that the original remembers, 128.
fn lengths(maker: &mut Maker) {
    maker.arena(3_000, 30_000);
    maker.reserve();
    for _ in 0..maker.random.between(100, 400) {
        let pages = match maker.random.below(6) {
            0 => maker.random.between(256, 260),
            1 => maker.random.between(1, 5),
            _ => maker.random.between(125, 132),
        };
        match maker.random.below(10) {
            0..=4 => maker.add(Intent::Commit { pages }),
            5..=6 => maker.add(Intent::Release { piece: Piece::Front(pages) }),
            7 => maker.add(Intent::Release { piece: Piece::Whole }),
            8 => maker.add(Intent::Release { piece: Piece::Part }),
            _ => maker.look(),
        }
    }
}

/// Growth at the frontier, elsewhere and beyond the arena's end, granted or not.
fn growth(maker: &mut Maker) {
    maker.arena(4, 120);
    maker.reserve();
    for _ in 0..maker.random.between(30, 200) {
        let by = maker.random.between(1, 9);
        match maker.random.below(10) {
            0..=4 => maker.add(Intent::Grow { place: Place::Frontier, by }),
            5 => maker.add(Intent::Grow { place: Place::Anywhere, by }),
            6 | 7 => maker.add(Intent::Commit { pages: by }),
            8 => maker.add(Intent::Release { piece: Piece::Part }),
            _ => maker.look(),
        }
    }
}

/// The first commit is told that there is no reservation: the arena is disabled for good.
fn refused_reservation(maker: &mut Maker) {
    maker.arena(1, 60);
    maker.look();
    let host = maker.random.below(16) as u32 & !HOST_RESERVE;
    let pages = maker.run_length();
    maker.push(host, Intent::Commit { pages });
    for _ in 0..maker.random.between(5, 20) {
        maker.direct_step();
        let (family, class) = maker.any_class();
        maker.class_step(family, class);
    }
}

/// Holes that together come near 65,536 pages, and pass it.
fn long_holes(maker: &mut Maker) {
    maker.arena(140_000, OLD_PAGES);
    maker.reserve();
    let limit = HOLE_PAGES_LIMIT;
    for _ in 0..maker.random.between(20, 80) {
        let pages = match maker.random.below(8) {
            0 => limit + maker.random.below(3),
            1 => limit - maker.random.below(4),
            2 => limit / 2 + maker.random.below(3),
            3 => limit / 2 - maker.random.below(3),
            4 => limit / 4,
            5 => maker.random.between(1, limit / 2),
            _ => maker.random.between(1, 3),
        };
        match maker.random.below(10) {
            0..=3 => maker.add(Intent::Commit { pages }),
            4..=6 => maker.add(Intent::Release { piece: Piece::Front(pages) }),
            7 => maker.add(Intent::Release { piece: Piece::Whole }),
            8 => maker.add(Intent::Grow { place: Place::Frontier, by: pages }),
            _ => maker.look(),
        }
    }
}

/// Just 65,536 pages in holes, one page less and one more, in a few calls.
fn page_limit(maker: &mut Maker) {
    maker.arena(65_560, 66_000);
    let long = HOLE_PAGES_LIMIT - maker.random.below(3);
    maker.push(HOST_ALL, Intent::Commit { pages: long });
    maker.push(HOST_ALL, Intent::Commit { pages: 6 });
    maker.push(HOST_ALL, Intent::ReleaseAt { first: 0, pages: long });
    for page in 0..4 {
        maker.add(Intent::ReleaseAt { first: long + page, pages: 1 });
    }
    let pages = maker.random.between(1, 3);
    maker.add(Intent::Commit { pages });
    maker.add(Intent::ReleaseAt { first: long + 4, pages: 2 });
}

/// The most pages in holes together.
const HOLE_PAGES_LIMIT: u64 = 65_536;

/// The most holes that are stored.
pub const HOLE_LIMIT: u64 = 4_096;

/// Up to 4,096 holes and on: single pages of one long run are given back, every other one, then all goes on there.
fn many_holes(maker: &mut Maker) {
    maker.arena(9_000, 12_000);
    maker.push(HOST_ALL, Intent::Commit { pages: u64::from(maker.length.saturating_sub(200).max(1)) });
    let last = maker.random.between(HOLE_LIMIT - 6, HOLE_LIMIT + 14);
    let mut first = 1;
    for _ in 0..last {
        let pages = if maker.random.chance(1, 40) { 2 } else { 1 };
        maker.push(HOST_ALL, Intent::ReleaseAt { first, pages });
        first += pages + 1;
    }
    let held = u64::from(maker.length.saturating_sub(200));
    for _ in 0..maker.random.between(300, 900) {
        hole_limit_step(maker, first..held.max(first + 1));
    }
}

/// `far` are pages beyond the holes.
fn hole_limit_step(maker: &mut Maker, far: Range<u64>) {
    match maker.random.below(12) {
        0..=2 => maker.add(Intent::Commit { pages: 1 }),
        3 => maker.add(Intent::Commit { pages: 2 }),
        4 => maker.push(HOST_ALL - HOST_COMMIT, Intent::Commit { pages: 1 }),
        // Mostly a page between two holes, which joins them.
        5 => maker.add(Intent::Release { piece: Piece::Front(1) }),
        6..=8 => {
            let first = maker.random.between(far.start, far.end - 1);
            maker.add(Intent::ReleaseAt { first, pages: 1 });
        }
        9 => maker.add(Intent::Release { piece: Piece::Front(3) }),
        10 => maker.direct_step(),
        _ => maker.look(),
    }
}

/// Steps where nearly 4,096 holes of one page are stored and the direct calls hold the pages from `first` on: longer
/// holes up to the limit, one that is cut and given back there, then others.
pub fn at_hole_limit(random: &mut Random, first: u64, steps: usize) -> Vec<Step> {
    let mut maker = Maker { length: 40, ..Maker::new(random, None) };
    for hole in 0..6 {
        maker.push(HOST_ALL, Intent::ReleaseAt { first: first + 5 * hole, pages: if hole < 2 { 3 } else { 1 } });
    }
    maker.push(HOST_ALL - HOST_COMMIT, Intent::Commit { pages: 2 });
    maker.push(HOST_ALL - HOST_COMMIT, Intent::Commit { pages: 1 });
    maker.push(HOST_ALL, Intent::Report);
    while maker.steps.len() < steps {
        hole_limit_step(&mut maker, first + 28..first + 58);
    }
    maker.steps
}

fn mixed(maker: &mut Maker) {
    maker.arena(1, 90);
    let number = maker.random.between(100, 600);
    if maker.random.chance(9, 10) {
        maker.reserve();
    }
    maker.class_steps(number);
}

/// Arenas so short that takes and commits soon find nothing.
fn exhaustion(maker: &mut Maker) {
    maker.arena(1, 12);
    maker.reserve();
    let number = maker.random.between(50, 200);
    maker.class_steps(number);
}

/// Takes `runs` pages or spans of a class, gives all back, and goes on with a few.
fn stores(maker: &mut Maker, family: Family, class: u32, runs: u64) {
    maker.reserve();
    for _ in 0..runs {
        maker.push(HOST_ALL, Intent::Take { family, class });
    }
    let chunks = family == Family::Small && (maker.asked)(Kind::ReleaseBinChunks) && maker.random.chance(1, 2);
    for _ in 0..runs {
        if chunks {
            let most = maker.random.between(1, 12) as usize;
            maker.add(Intent::ReleaseChunks { class, most, portion: Portion::All });
        } else {
            maker.add(Intent::ReleaseBlocks { family, class, portion: Portion::All });
        }
    }
    for _ in 0..maker.random.between(50, 400) {
        match maker.random.below(10) {
            0 => maker.direct_step(),
            1 => maker.look(),
            _ => maker.class_step(family, class),
        }
    }
}

/// 4 empty pages, 256 cold ones, and more that go to the arena.
fn small_stores(maker: &mut Maker) {
    let class = maker.random.pick(&[36, 40, 42, 44, 45, 50, 63]);
    let runs = maker.random.between(258, 268);
    maker.arena(310, 700);
    stores(maker, Family::Small, class, runs);
}

/// 32 empty spans or 8 MiB of them, 256 cold ones, and more that go to the arena.
fn medium_stores(maker: &mut Maker) {
    let class = maker.random.below(12) as u32;
    let empty = (128 / u64::from(oracle::run_pages(Family::Medium, class))).min(32);
    let runs = empty + 256 + maker.random.between(1, 6);
    maker.arena(900, 2_600);
    stores(maker, Family::Medium, class, runs);
}

/// Groups of many pages: kept, retired, parked cold and given to the arena in one call.
fn chunks(maker: &mut Maker) {
    maker.arena(20, 400);
    maker.reserve();
    let class = maker.random.between(25, 46) as u32;
    for _ in 0..maker.random.between(2, 6) {
        for _ in 0..maker.random.between(5, 90) {
            maker.add(Intent::Take { family: Family::Small, class });
        }
        for _ in 0..maker.random.between(1, 6) {
            let most = maker.random.pick(&[2, 10, 100, 400]);
            let portion = maker.portion();
            maker.add(Intent::ReleaseChunks { class, most, portion });
            maker.class_step(Family::Small, class);
        }
        maker.look();
    }
}

/// Every fate of small pages in few calls and few words: pages of 3 blocks, kept by both kinds of release, then 4 empty, 256
/// cold, and more that go to the arena, by either.
fn every_fate(maker: &mut Maker) {
    const CLASS: u32 = 45;
    const RUNS: u32 = 270;
    maker.arena(RUNS + 2, RUNS + 2);
    maker.reserve();
    for _ in 0..RUNS {
        maker.push(HOST_ALL, Intent::Take { family: Family::Small, class: CLASS });
    }
    maker.push(HOST_ALL, Intent::ReleaseBlocks { family: Family::Small, class: CLASS, portion: Portion::One });
    maker.push(HOST_ALL, Intent::ReleaseChunks { class: CLASS, most: 4, portion: Portion::One });
    for _ in 0..8 {
        maker.add(Intent::ReleaseChunks { class: CLASS, most: 40, portion: Portion::All });
    }
    for _ in 0..30 {
        maker.add(Intent::ReleaseBlocks { family: Family::Small, class: CLASS, portion: Portion::All });
        maker.add(Intent::ReleaseChunks { class: CLASS, most: 3, portion: Portion::All });
    }
}

/// As many groups as one call may have, and one more.
fn chunk_limit(maker: &mut Maker) {
    maker.arena(2_070, 2_300);
    maker.reserve();
    for _ in 0..2_065 {
        maker.push(HOST_ALL, Intent::Take { family: Family::Small, class: 45 });
    }
    for _ in 0..8 {
        maker.add(Intent::ReleaseChunks { class: 45, most: 2_065, portion: Portion::Some });
        maker.class_step(Family::Small, 45);
    }
}

/// The most pages before A.11: words of 32 bits name none beyond.
pub const OLD_PAGES: u32 = 262_144;

/// Blocks, groups and runs beyond the pages that words of 32 bits could name. All before them went to one commit: mostly one that
/// is not granted, so that they are abandoned, now and then one that holds them. Either way the port writes a word of each, 16 KB
/// from the next, so the arena is little longer than it must be; `--pages` sets a longer one.
fn far_pages(maker: &mut Maker) {
    maker.arena(OLD_PAGES + 800, OLD_PAGES + 20_000);
    let room = maker.random.between(10, 700);
    let ahead = u64::from(maker.length).saturating_sub(room).max(1);
    let host = maker.random.weighted(&[(29, HOST_ALL - HOST_COMMIT), (1, HOST_ALL)]);
    maker.push(host, Intent::Commit { pages: ahead });
    match maker.random.below(6) {
        0 => stores(maker, Family::Small, 45, 262),
        1 => stores(maker, Family::Medium, 0, 40),
        _ => {
            let number = maker.random.between(100, 500);
            maker.class_steps(number);
        }
    }
}
