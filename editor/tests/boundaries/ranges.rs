//! Number 13: the highest value of a word's range passes, the next is refused. docs/RANGES.md has words and ranges; here
//! they are written down once more, so that a range that is wrong everywhere else shows.

use crate::heap::{granule, Answer, Family, Heap, ALL, NO_COMMIT};

/// Three blocks to a page.
const CLASS: u32 = 45;
/// The pool's classes stand behind the heap's 76.
const POOLS: usize = 76;
/// Words of its row: PARTIAL and on.
const PARTIAL: usize = 160 + 8 * 45;
const EMPTY_COUNT: usize = PARTIAL + 2;
const COLD_COUNT: usize = PARTIAL + 4;
const EMPTY_LIMIT: usize = PARTIAL + 5;
const COLD_LIMIT: usize = PARTIAL + 6;
/// Words of a page.
const FREE: usize = 4;
const CARVED: usize = 5;
const LISTED: usize = 6;
const VIRGIN: usize = 7;
const STACK: usize = 272;

fn page(page: usize, word: usize) -> usize {
    40_000 + 4_112 * page + word
}

/// Page 0 of the class has all blocks out, page 1 all but one; pages 2 and 3 are a hole, page 4 is held directly.
fn scene() -> Heap {
    let mut heap = Heap::open(64);
    for first in [2_051, 6_147] {
        let blocks = vec![first, first - 1_024, first - 2_048];
        assert_eq!(heap.take(Family::Small, CLASS, ALL), Ok((blocks, true)));
    }
    assert_eq!(heap.give(Family::Small, CLASS, ALL, &[6_147]), Ok(0));
    assert_eq!(heap.commit(ALL, 2), Ok(Some((2, true))));
    assert_eq!(heap.commit(ALL, 1), Ok(Some((4, true))));
    assert_eq!(heap.release(ALL, 2, 2), Ok(()));
    heap
}

/// With this value in a word the call is refused as 13 and changes nothing, or it is not.
fn with<T>(word: usize, value: u32, refused: bool, call: impl Fn(&mut Heap) -> Answer<T>) {
    with_on(scene(), word, value, refused, call);
}

fn with_on<T>(mut heap: Heap, word: usize, value: u32, refused: bool, call: impl Fn(&mut Heap) -> Answer<T>) {
    heap.book[word] = value;
    let before = heap.book.clone();
    let number = call(&mut heap).err();
    assert_eq!(number == Some(13), refused, "word {word} with {value}: {number:?}");
    assert!(!refused || heap.book == before, "word {word} with {value}: refused, and the book changed");
}

/// The highest value passes, those behind it do not.
fn up_to<T>(word: usize, highest: u32, call: impl Fn(&mut Heap) -> Answer<T>) {
    with(word, highest, false, &call);
    for value in [highest + 1, highest + 6, highest + 904, u32::MAX] {
        with(word, value, true, &call);
    }
}

fn report(heap: &mut Heap) -> Answer<[u64; 6]> {
    heap.try_report()
}

fn commit(pages: u64) -> impl Fn(&mut Heap) -> Answer<Option<(u32, bool)>> {
    move |heap| heap.commit(ALL, pages)
}

fn take(heap: &mut Heap) -> Answer<(Vec<u64>, bool)> {
    heap.take(Family::Small, CLASS, ALL)
}

fn give(granules: &[u64]) -> impl Fn(&mut Heap) -> Answer<u32> + '_ {
    move |heap| heap.give(Family::Small, CLASS, ALL, granules)
}

/// OWNER and FIRST of a page, one word after the other: those of 256 pages stand in the record of the first.
#[test]
fn owner_and_first() {
    for ahead in [1, 255, 256, 300, 511] {
        let opened = || {
            let mut heap = Heap::open(512);
            assert_eq!(heap.commit(ALL, ahead), Ok(Some((0, true))));
            let (blocks, _) = take(&mut heap).expect("a page");
            assert_eq!(give(&blocks[..1])(&mut heap), Ok(0));
            heap
        };
        let at = usize::try_from(ahead).expect("64 bits");
        let (owner, first) = (page(at / 256 * 256, 3_344) + 2 * (at % 256), u32::try_from(ahead).expect("32 bits"));
        for (word, value) in [(owner, 46), (owner + 1, first)] {
            with_on(opened(), word, value, false, take);
            for other in [0, value - 1, value + 1, u32::MAX] {
                with_on(opened(), word, other, true, take);
            }
        }
    }
}

/// The pool's page, which its own class alone has: its OWNER is 77 and more.
#[test]
fn owner_of_a_pools_page() {
    let opened = || {
        let mut heap = Heap::open(8);
        assert_eq!(heap.alloc(CLASS, ALL).map(|block| block.map(granule)), Ok(Some(3)));
        for due in [1_027, 2_051] {
            assert_eq!(heap.trim(CLASS, ALL).map(|block| block.map(granule)), Ok(Some(due)));
        }
        heap
    };
    let (owner, pools) = (page(0, 3_344), 77 + CLASS);
    assert_eq!(opened().book[owner], pools);
    with_on(opened(), owner, pools, false, |heap: &mut Heap| heap.alloc(CLASS, ALL));
    for other in [0, 1 + CLASS, pools - 1, pools + 1, 153, u32::MAX] {
        with_on(opened(), owner, other, true, |heap: &mut Heap| heap.alloc(CLASS, ALL));
        let mut heap = opened();
        heap.book[owner] = other;
        let block = Family::Small.word(3);
        assert_eq!((heap.free(CLASS, ALL, block), heap.granted(CLASS, block)), (Err(10), false));
    }
}

/// The page that is held by hand, and no other.
#[test]
fn owner_of_a_page_held_by_hand() {
    let owner = page(0, 3_344) + 2 * 4;
    assert_eq!(scene().book[owner], 153);
    for other in [0, 1, 76, 77, 152, 154, u32::MAX] {
        let mut heap = scene();
        heap.book[owner] = other;
        assert_eq!((heap.release(ALL, 4, 1), heap.grow(ALL, 4, 1, 2)), (Err(12), Err(12)));
    }
}

/// Of every page its class's number, the heap's and the pool's alike; nobody's page, the hand's and those above the frontier have none.
#[test]
fn the_class_of_a_page() {
    let mut heap = scene();
    let owner = page(0, 3_344);
    let word = |page: u64| Family::Small.word(4_096 * page);
    assert_eq!([0, 1, 2, 3, 4, 5].map(|page| heap.class_of(word(page))), [CLASS, CLASS, 76, 76, 76, 76]);
    for (value, class) in [(0, 76), (1, 0), (76, 75), (77, 0), (152, 75), (153, 76), (u32::MAX, 76)] {
        heap.book[owner] = value;
        assert_eq!(heap.class_of(word(0)), class, "{value}");
        // FRONTIER is 5.
        heap.book[owner + 2 * 5] = value;
        assert_eq!(heap.class_of(word(5)), 76, "{value}");
    }
    heap.book[owner] = 1;
    for (frontier, class) in [(0, 76), (1, 0), (64, 0), (65, 76), (u32::MAX, 76)] {
        heap.book[2] = frontier;
        assert_eq!(heap.class_of(word(0)), class, "{frontier}");
    }
}

/// COUNT of the pool's classes, and their last ENTRY, whose block ends within the arena.
#[test]
fn a_pools_stock() {
    for (class, granules) in [(0, 1), (CLASS, 1_024), (63, 1_024), (64, 1_152), (75, 4_092)] {
        let at = usize::try_from(class).expect("32 bits");
        let opened = || {
            let mut heap = Heap::open(64);
            assert!(heap.alloc(class, ALL).is_ok_and(|block| block.is_some()));
            heap
        };
        let (count, entry) = (775 + 8 * at, 10_240 + 256 * at);
        let stocked = opened().stocked(class);
        assert_eq!(opened().book[count], stocked);
        for call in [Heap::alloc, Heap::trim] {
            let call = |heap: &mut Heap| call(heap, class, ALL);
            with_on(opened(), count, 255, false, call);
            for value in [256, 257, u32::MAX] {
                with_on(opened(), count, value, true, call);
            }
            let last = 64 * 4_096 - granules;
            let top = entry + usize::try_from(stocked).expect("32 bits") - 1;
            with_on(opened(), top, last, false, call);
            for value in [last + 1, 64 * 4_096, u32::MAX] {
                with_on(opened(), top, value, true, call);
            }
        }
        for (value, due) in [(0, 0), (255, 255), (256, 0), (u32::MAX, 0)] {
            let mut heap = opened();
            heap.book[count] = value;
            assert_eq!(heap.stocked(class), due, "{value}");
        }
    }
}

#[test]
fn the_arenas_record() {
    up_to(1, 2, report);
    up_to(2, 64, report);
    up_to(3, 4_096, report);
    up_to(4, 65_536, report);
    up_to(11, 64, report);
}

#[test]
fn every_classs_counts_in_a_report() {
    for class in 0..2 * POOLS {
        up_to(160 + 8 * class + 2, 256, report);
        up_to(160 + 8 * class + 4, 256, report);
    }
}

#[test]
fn holes_in_a_commit() {
    // Hole 0: two pages, which end at the frontier, 5.
    with(2_049, 0, true, commit(1));
    up_to(2_049, 2, commit(1));
    up_to(2_048, 3, commit(1));
}

#[test]
fn holes_in_a_take() {
    // No partial page, so that the take comes to the arena, for one page.
    let asks = |heap: &mut Heap| {
        heap.book[PARTIAL] = 0;
        take(heap)
    };
    let mut heap = scene();
    assert_eq!(asks(&mut heap), Ok((vec![10_243, 9_219, 8_195], true)));
    for (value, number) in [(2, None), (3, Some(13)), (0, Some(13))] {
        let mut heap = scene();
        heap.book[2_049] = value;
        assert_eq!(asks(&mut heap).err(), number);
    }
}

/// A give reads all holes, for those that its run touches; so does a growth whose pages are given, and no other.
#[test]
fn holes_in_a_give() {
    let gives: [fn(&mut Heap) -> Answer<()>; 2] =
        [|heap| heap.release(ALL, 4, 1), |heap| heap.grow(NO_COMMIT, 4, 1, 2).map(drop)];
    for call in gives {
        // Hole 0: two pages from 2 on. The frontier is 5.
        with(2_049, 0, true, call);
        up_to(2_049, 3, call);
        up_to(2_048, 3, call);
    }
    for value in [0, 4, u32::MAX] {
        with(2_049, value, false, |heap: &mut Heap| heap.grow(ALL, 4, 1, 2));
        // More than the arena has.
        with(2_049, value, false, |heap: &mut Heap| heap.grow(NO_COMMIT, 4, 1, 61));
    }
}

/// A class's release alike, by list and by chunks, where the page goes to the arena.
#[test]
fn holes_in_a_classs_give() {
    let parking_none = || {
        let mut heap = scene();
        heap.book[EMPTY_LIMIT..=COLD_LIMIT].fill(0);
        heap
    };
    let page = [2_051, 1_027, 3];
    let chunks = |heap: &mut Heap| heap.give_chunks(CLASS, &page, &[(3, 0)], 1);
    assert_eq!(give(&page)(&mut parking_none()), Ok(2));
    assert_eq!(chunks(&mut parking_none()), Ok(vec![6]));
    for (word, fits) in [(2_049, 1..4), (2_048, 0..4)] {
        for value in [0, 1, 2, 3, 4, 904, u32::MAX] {
            with_on(parking_none(), word, value, !fits.contains(&value), give(&page));
            with_on(parking_none(), word, value, !fits.contains(&value), chunks);
            // Parked, or kept: no hole is read.
            with(word, value, false, give(&page));
            with(word, value, false, chunks);
            with_on(parking_none(), word, value, false, give(&[3]));
        }
    }
}

#[test]
fn words_that_no_call_reads() {
    // Of the heap's rows the last word, which the pool's rows have COUNT in; words behind the rows, and behind the entries.
    for word in [13, 16, 16 + 3, 16 + 128, 159, 167 + 8 * 45, 1_376, 2_047, 29_696, 39_999] {
        with(word, u32::MAX, false, commit(3));
        with(word, u32::MAX, false, take);
        with(word, u32::MAX, false, report);
    }
}

#[test]
fn a_page_in_a_take() {
    up_to(page(1, VIRGIN), 1, take);
    for listed in [0, 2, 9] {
        with(page(1, LISTED), listed, true, take);
    }
    up_to(page(1, CARVED), 3, take);
    up_to(page(1, FREE), 3, take);
    // The one entry of its stack.
    up_to(page(1, STACK), 2, take);
}

#[test]
fn a_page_in_a_release() {
    up_to(page(0, VIRGIN), 1, give(&[3]));
    up_to(page(0, LISTED), 1, give(&[3]));
    up_to(page(0, CARVED), 3, give(&[3]));
    up_to(page(0, FREE), 2, give(&[3]));
}

#[test]
fn a_classs_row() {
    // Page 1 has code 2, and the frontier is 5.
    up_to(PARTIAL, 5, give(&[3]));
    for code in [6, u32::MAX] {
        with(PARTIAL, code, true, take);
    }
    up_to(EMPTY_COUNT, 256, give(&[2_051, 1_027, 3]));
    up_to(COLD_COUNT, 256, give(&[2_051, 1_027, 3]));
}

/// A release reads its class's limits, by list or by chunks, whether a page is emptied or not; no other call does, nor another class's.
#[test]
fn a_classs_limits() {
    let chunks = |heap: &mut Heap| heap.give_chunks(CLASS, &[3, 4_099], &[(1, 0), (1, 1)], 2);
    for limit in [EMPTY_LIMIT, COLD_LIMIT] {
        up_to(limit, 256, give(&[2_051, 1_027, 3]));
        up_to(limit, 256, give(&[3]));
        up_to(limit, 256, chunks);
        for value in [257, u32::MAX] {
            with(limit, value, false, take);
            with(limit, value, false, report);
            with(limit, value, false, commit(1));
            with(limit, value, false, |heap: &mut Heap| heap.release(ALL, 4, 1));
            with(limit, value, false, |heap: &mut Heap| heap.grow(ALL, 4, 1, 2));
            with(limit - 8, value, false, give(&[2_051, 1_027, 3]));
            with(limit + 8, value, false, chunks);
        }
    }
}

/// A span's class alike.
#[test]
fn a_medium_classs_limits() {
    for limit in [160 + 8 * 64 + 5, 160 + 8 * 64 + 6] {
        for (value, number) in [(256, None), (257, Some(13)), (u32::MAX, Some(13))] {
            let mut heap = Heap::open(8);
            let (blocks, _) = heap.take(Family::Medium, 0, ALL).expect("medium class 0");
            heap.book[limit] = value;
            let before = heap.book.clone();
            assert_eq!(heap.give(Family::Medium, 0, ALL, &blocks).err(), number);
            assert_eq!(heap.book == before, number.is_some());
        }
    }
}

/// The limits stand in the class's row: document 01's where no rows are given, else each row's.
#[test]
fn limits_in_the_book() {
    // The heap's class and the pool's of a number have the same.
    let words = |heap: &Heap, class: usize| {
        let [heaps, pools] = [class, POOLS + class].map(|class| [5, 6].map(|word| heap.book[160 + 8 * class + word]));
        assert_eq!(heaps, pools);
        heaps
    };
    let heap = Heap::open(1);
    assert!(
        (0..64).all(|class| words(&heap, class) == [4, 256]) && (64..76).all(|class| words(&heap, class) == [32, 256])
    );
    let heap = Heap::open_with(1, &[70, 75, 1, 2, 0, 63, 3, 4, 64, 69, 0, 256]);
    assert!((0..64).all(|class| words(&heap, class) == [3, 4]));
    assert!(
        (64..70).all(|class| words(&heap, class) == [0, 256]) && (70..76).all(|class| words(&heap, class) == [1, 2])
    );
}
