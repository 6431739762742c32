//! Random plans of every call: the heap's takes and releases and the pool's calls on the same classes, direct calls, reports.

use super::scenarios::{any_class, classes, pool_steps, which, Scenario, PASSING_PAGES};
use crate::generate::{Maker, OLD_PAGES};
use crate::plan::{Intent, Portion};
use crate::planned::family;
use crate::words::{Family, HOST_ALL, HOST_COMMIT};

pub const SCENARIOS: [Scenario; 7] = [
    Scenario { name: "side by side", weight: 300, make: side_by_side },
    Scenario { name: "one class", weight: 150, make: one_class },
    Scenario { name: "exhaustion", weight: 150, make: exhaustion },
    Scenario { name: PASSING_PAGES, weight: 200, make: passing_pages },
    Scenario { name: "groups", weight: 60, make: groups },
    Scenario { name: "stores", weight: 6, make: stores },
    Scenario { name: "far pages", weight: 4, make: far_pages },
];

/// So many steps, each on one of the classes, by the heap's calls or the pool's, or a direct one.
fn steps(maker: &mut Maker, classes: &[u32], number: u64) {
    for _ in 0..number {
        let class = maker.random.pick(classes);
        match maker.random.below(20) {
            0 | 1 => maker.direct_step(),
            2 => maker.look(),
            3..=8 => {
                let (family, class) = family(class);
                (0..maker.random.between(1, 3)).for_each(|_| maker.class_step(family, class));
            }
            9..=13 => pool_steps(maker, class),
            14..=17 => crossed(maker, class, 5),
            18 => maker.add(Intent::WrongPool { class }),
            _ => maker.add(Intent::Look { class }),
        }
    }
}

/// Up to so many calls that name what the other side has.
fn crossed(maker: &mut Maker, class: u32, most: u64) {
    (0..maker.random.between(1, most)).for_each(|_| maker.add(Intent::Crossed { class }));
}

fn side_by_side(maker: &mut Maker) {
    maker.arena(4, 60);
    if maker.random.chance(9, 10) {
        maker.reserve();
    }
    let classes = classes(maker, 4);
    let number = maker.random.between(20, 160);
    steps(maker, &classes, number);
}

fn one_class(maker: &mut Maker) {
    maker.arena(2, 16);
    maker.reserve();
    let class = any_class(maker);
    let number = maker.random.between(20, 120);
    steps(maker, &[class], number);
}

/// Arenas so short that what one side has the other does not get.
fn exhaustion(maker: &mut Maker) {
    maker.arena(1, 6);
    maker.reserve();
    let classes = classes(maker, 2);
    let number = maker.random.between(20, 80);
    steps(maker, &classes, number);
}

/// Few pages and classes of few blocks a page: all that one side has goes back, and the other has its pages, of the same class or another.
fn passing_pages(maker: &mut Maker) {
    maker.arena(1, 9);
    maker.reserve();
    let classes: Vec<u32> = (0..2).map(|_| maker.random.pick(&[30, 36, 40, 42, 44, 45, 63, 64, 68, 71, 75])).collect();
    for _ in 0..maker.random.between(4, 20) {
        let class = maker.random.pick(&classes);
        match maker.random.chance(1, 2) {
            true => heap_turn(maker, class),
            false => pool_turn(maker, class),
        }
        steps(maker, &classes, 2);
    }
}

/// Takes, then releases of all or nearly all that they gave.
fn heap_turn(maker: &mut Maker, class: u32) {
    let (family, number) = family(class);
    let takes = maker.random.between(1, 6);
    for _ in 0..takes {
        maker.add(Intent::Take { family, class: number });
    }
    crossed(maker, class, 12);
    for _ in 0..takes + maker.random.between(0, 6) {
        let groups = family == Family::Small && maker.random.chance(1, 3);
        maker.add(match groups {
            true => Intent::ReleaseChunks { class: number, most: 3, portion: Portion::All },
            false => Intent::ReleaseBlocks { family, class: number, portion: Portion::All },
        });
    }
    crossed(maker, class, 6);
}

/// Allocs, then frees, and trims of the stock.
fn pool_turn(maker: &mut Maker, class: u32) {
    let number = maker.random.between(1, 40);
    for _ in 0..number {
        maker.add(Intent::Alloc { class });
    }
    crossed(maker, class, 12);
    let which = which(maker);
    for _ in 0..number {
        maker.add(Intent::Free { class, which });
    }
    for _ in 0..maker.random.between(0, 70) {
        maker.add(Intent::Trim { class });
    }
    crossed(maker, class, 6);
}

/// Groups of many pages of a class whose pages are the heap's and the pool's by turns.
fn groups(maker: &mut Maker) {
    maker.arena(20, 200);
    maker.reserve();
    let class = maker.random.between(25, 46) as u32;
    for _ in 0..maker.random.between(2, 6) {
        for _ in 0..maker.random.between(4, 40) {
            maker.add(Intent::Take { family: Family::Small, class });
            (0..maker.random.below(4)).for_each(|_| maker.add(Intent::Alloc { class }));
        }
        for _ in 0..maker.random.between(1, 6) {
            let most = maker.random.pick(&[2, 10, 100]);
            let portion = maker.random.pick(&[Portion::One, Portion::Some, Portion::All]);
            maker.add(Intent::ReleaseChunks { class, most, portion });
            crossed(maker, class, 8);
            let which = which(maker);
            (0..maker.random.below(20)).for_each(|_| maker.add(Intent::Free { class, which }));
        }
        maker.look();
    }
}

/// The stores of one class on both sides, each with 4 empty pages, 256 cold ones, and more that go to the arena.
fn stores(maker: &mut Maker) {
    maker.arena(600, 700);
    maker.reserve();
    let class = maker.random.pick(&[44, 45, 63]);
    let (runs, blocks) = (maker.random.between(262, 270), maker.random.between(900, 1_100));
    for _ in 0..runs {
        maker.push(HOST_ALL, Intent::Take { family: Family::Small, class });
    }
    for _ in 0..blocks {
        maker.push(HOST_ALL, Intent::Alloc { class });
    }
    crossed(maker, class, 20);
    let which = which(maker);
    let mut frees = blocks;
    for _ in 0..runs {
        maker.add(Intent::ReleaseBlocks { family: Family::Small, class, portion: Portion::All });
        let some = maker.random.below(8).min(frees);
        (0..some).for_each(|_| maker.add(Intent::Free { class, which }));
        frees -= some;
    }
    for _ in 0..frees {
        maker.add(Intent::Free { class, which });
    }
    let number = maker.random.between(20, 60);
    steps(maker, &[class, 40, 64], number);
}

/// Blocks beyond the pages that words of 32 bits could name. All before them went to one commit that was not granted.
fn far_pages(maker: &mut Maker) {
    maker.arena(OLD_PAGES + 100, OLD_PAGES + 400);
    let room = maker.random.between(4, 40);
    let ahead = maker.pages() - room;
    maker.push(HOST_ALL - HOST_COMMIT, Intent::Commit { pages: ahead });
    let classes = classes(maker, 3);
    let number = maker.random.between(20, 120);
    steps(maker, &classes, number);
}
