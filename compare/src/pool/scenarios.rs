//! Random plans of the pool's calls, with direct ones and the heap's own between them.

use crate::generate::{Maker, OLD_PAGES};
use crate::parking;
use crate::plan::{Intent, Plan, Which};
use crate::planned::{family, CLASSES};
use crate::random::Random;
use crate::stocks::stock_most;
use crate::words::{HOST_ALL, HOST_COMMIT};

pub struct Scenario {
    pub name: &'static str,
    pub weight: u64,
    pub make: fn(&mut Maker),
}

/// Most of these have nothing parked.
pub const PASSING_PAGES: &str = "passing pages";

pub const SCENARIOS: [Scenario; 6] = [
    Scenario { name: "mixed", weight: 300, make: mixed },
    Scenario { name: "one class", weight: 150, make: one_class },
    Scenario { name: "exhaustion", weight: 150, make: exhaustion },
    Scenario { name: PASSING_PAGES, weight: 200, make: passing_pages },
    Scenario { name: "stores", weight: 8, make: stores },
    Scenario { name: "far pages", weight: 4, make: far_pages },
];

/// One row for all classes: nothing is parked, so that a page whose blocks are back is another class's soon.
const NOTHING_PARKED: [u32; 4] = [0, CLASSES - 1, 0, 0];

pub fn plan(random: &mut Random, scenarios: &[Scenario], name: Option<&str>) -> Plan {
    let fitting: Vec<(u64, &Scenario)> = scenarios
        .iter()
        .filter(|scenario| name.is_none_or(|name| name == scenario.name))
        .map(|scenario| (scenario.weight, scenario))
        .collect();
    let scenario = random.weighted(&fitting);
    let mut maker = Maker::new(random, None);
    (scenario.make)(&mut maker);
    maker.push(HOST_ALL, Intent::Report);
    let rows = match random.below(10) {
        0 => parking::any_rows(random),
        1 => NOTHING_PARKED.to_vec(),
        2..=7 if scenario.name == PASSING_PAGES => NOTHING_PARKED.to_vec(),
        _ => Vec::new(),
    };
    maker.plan(scenario.name, rows)
}

pub fn which(maker: &mut Maker) -> Which {
    maker.random.weighted(&[(2, Which::Latest), (2, Which::Oldest), (3, Which::Any)])
}

pub fn any_class(maker: &mut Maker) -> u32 {
    match maker.random.below(6) {
        0 => maker.random.between(64, 75) as u32,
        1 => maker.random.between(40, 45) as u32,
        2 => maker.random.between(20, 40) as u32,
        3 => maker.random.below(64) as u32,
        4 => maker.random.pick(&[0, 1, 7, 30, 45, 46, 63, 64, 75]),
        _ => maker.random.between(0, 12) as u32,
    }
}

/// So many allocs, frees, trims, or wrong calls of a class; long enough a row now and then that a stock is emptied or full.
pub fn pool_steps(maker: &mut Maker, class: u32) {
    let most = stock_most(class) as u64;
    let number = match maker.random.below(12) {
        0 => most + maker.random.between(0, 12),
        1 => maker.random.between(1, 70),
        _ => maker.random.between(1, 6),
    };
    let which = which(maker);
    let kind = maker.random.below(20);
    for _ in 0..number {
        match maker.random.below(16) {
            0 => maker.add(Intent::WrongPool { class }),
            1 => maker.add(Intent::Look { class }),
            _ => {}
        }
        match kind {
            0..=7 => maker.add(Intent::Alloc { class }),
            8..=14 => maker.add(Intent::Free { class, which }),
            15 | 16 => maker.add(Intent::Trim { class }),
            17 => {
                maker.add(Intent::Alloc { class });
                maker.add(Intent::Free { class, which });
            }
            18 => {
                maker.add(Intent::WrongPool { class });
                return;
            }
            _ => {
                maker.add(Intent::Look { class });
                return;
            }
        }
    }
}

/// Steps on a few classes with direct calls between them; in a quarter of the plans the heap's own calls on some class too.
fn steps(maker: &mut Maker, classes: &[u32], number: u64) {
    let heap = maker.random.chance(1, 4).then(|| any_class(maker));
    for _ in 0..number {
        match maker.random.below(16) {
            0 | 14 => maker.direct_step(),
            1 => {
                if let Some(class) = heap {
                    let (family, class) = family(class);
                    maker.class_step(family, class);
                }
            }
            2..=4 => {
                let class = maker.random.pick(classes);
                for _ in 0..maker.random.between(1, 5) {
                    maker.add(Intent::WrongPool { class });
                }
            }
            15 => {
                let class = maker.random.pick(classes);
                maker.add(Intent::Look { class });
            }
            _ => {
                let class = maker.random.pick(classes);
                pool_steps(maker, class);
            }
        }
    }
}

pub fn classes(maker: &mut Maker, most: u64) -> Vec<u32> {
    (0..maker.random.between(1, most)).map(|_| any_class(maker)).collect()
}

fn mixed(maker: &mut Maker) {
    maker.arena(4, 40);
    if maker.random.chance(9, 10) {
        maker.reserve();
    }
    let classes = classes(maker, 5);
    let number = maker.random.between(20, 160);
    steps(maker, &classes, number);
}

fn one_class(maker: &mut Maker) {
    maker.arena(2, 12);
    maker.reserve();
    let class = any_class(maker);
    let number = maker.random.between(20, 120);
    steps(maker, &[class], number);
}

/// Arenas so short that an alloc soon finds nothing.
fn exhaustion(maker: &mut Maker) {
    maker.arena(1, 5);
    maker.reserve();
    let classes = classes(maker, 3);
    let number = maker.random.between(20, 80);
    steps(maker, &classes, number);
}

/// Few pages and many classes of few blocks a page: all of a class goes back, stocked blocks too, and another has its pages.
fn passing_pages(maker: &mut Maker) {
    maker.arena(1, 8);
    maker.reserve();
    let classes: Vec<u32> = (0..3).map(|_| maker.random.pick(&[30, 36, 40, 42, 44, 45, 63, 64, 68, 71, 75])).collect();
    for _ in 0..maker.random.between(4, 20) {
        let class = maker.random.pick(&classes);
        let number = maker.random.between(1, 40);
        for _ in 0..number {
            maker.add(Intent::Alloc { class });
        }
        for _ in 0..maker.random.between(1, 12) {
            let class = maker.random.pick(&classes);
            maker.add(Intent::WrongPool { class });
        }
        let which = which(maker);
        for _ in 0..number {
            maker.add(Intent::Free { class, which });
        }
        for _ in 0..maker.random.between(0, 70) {
            maker.add(Intent::Trim { class });
        }
        steps(maker, &classes, 2);
    }
}

/// Every page of a class's stores: 4 empty ones, 256 cold ones, and more that go to the arena.
fn stores(maker: &mut Maker) {
    maker.arena(300, 400);
    maker.reserve();
    let class = maker.random.pick(&[44, 45, 63]);
    let blocks = maker.random.between(900, 1_200);
    for _ in 0..blocks {
        maker.push(HOST_ALL, Intent::Alloc { class });
    }
    let which = which(maker);
    for _ in 0..blocks {
        maker.add(Intent::Free { class, which });
    }
    let number = maker.random.between(20, 60);
    steps(maker, &[class, 40, 64], number);
}

/// Blocks beyond the pages that words of 32 bits could name. All before them went to one commit that was not granted.
fn far_pages(maker: &mut Maker) {
    maker.arena(OLD_PAGES + 100, OLD_PAGES + 400);
    let room = maker.random.between(4, 40);
    let ahead = maker.pages() - room;
    maker.push(HOST_ALL - HOST_COMMIT, Intent::Commit { pages: ahead });
    let classes = classes(maker, 4);
    let number = maker.random.between(20, 120);
    steps(maker, &classes, number);
}
