//! Refusals that a `Heap` can meet, each without a trace, the block that each names, and what they print.

use std::error::Error;
use std::fmt::Debug;

use vigbuso::{Block, Chunk, Class, Heap, Host, OpenError, Refusal, ReleaseError, Rules, Run, MAX_PAGES};

/// A heap with 64 blocks of two small classes, a span of a medium class and a run of two pages.
struct Scene {
    heap: Heap,
    blocks: Vec<Block>,
    others: Vec<Block>,
    span: Vec<Block>,
    run: Run,
}

fn small(number: u32) -> Class {
    Class::small(number).expect("0 to 63")
}

fn medium(number: u32) -> Class {
    Class::medium(number).expect("0 to 11")
}

fn chunk(count: u32, page: u64) -> Chunk {
    Chunk::new(count, page).expect("12 bits and 50")
}

fn scene() -> Scene {
    let mut heap = Heap::open(64).expect("64 pages");
    let blocks = heap.take(small(0)).expect("class 0").to_vec();
    let others = heap.take(small(1)).expect("class 1").to_vec();
    let span = heap.take(medium(0)).expect("medium class 0").to_vec();
    let run = heap.commit(2).expect("two pages").expect("there is room").run;
    Scene { heap, blocks, others, span, run }
}

/// The call is refused as said, and the heap is as before.
fn refuses<T: Debug, E: Into<Refusal> + Copy>(expected: Refusal, call: impl FnOnce(&mut Scene) -> Result<T, E>) -> E {
    let mut scene = scene();
    let before = scene.heap.clone();
    let error = call(&mut scene).expect_err("a refusal");
    assert_eq!(error.into(), expected);
    assert_eq!(scene.heap, before, "a refusal changes nothing: {expected}");
    error
}

/// The same, and the error names the block at a place.
fn blames<T: Debug>(expected: Refusal, place: usize, call: impl FnOnce(&mut Scene) -> Result<T, ReleaseError>) {
    let error = refuses(expected, call);
    assert_eq!(error.block().map(|(place, _)| place), Some(place), "{error}");
}

#[test]
fn openings() {
    for pages in [0, MAX_PAGES + 1, u64::MAX] {
        assert_eq!(Heap::open(pages), Err(Refusal::ArenaLength));
        assert_eq!(Heap::try_open(pages), Err(OpenError::Refused(Refusal::ArenaLength)));
    }
    assert_eq!(Heap::on([0; 100], 1).map(|_| ()), Err(Refusal::BookTooShort));
    assert_eq!(Heap::resume(vec![0; 50_000]), Err(Refusal::ArenaLength));
    assert_eq!(Heap::resume(vec![1; 44_111]), Err(Refusal::BookTooShort));
    refuses(Refusal::BookTooShort, |s| s.heap.reopen(65));
    refuses(Refusal::BookTooShort, |s| s.heap.reopen_with(65, &Rules::every(257, 0)));
    for rules in [Rules::every(257, 0), Rules::every(0, 257), Rules::default().class(medium(11), u32::MAX, 0)] {
        assert_eq!(Heap::open_with(64, &rules), Err(Refusal::Rows));
        refuses(Refusal::Rows, |s| s.heap.reopen_with(64, &rules));
    }
}

#[test]
fn lists() {
    assert_eq!(refuses(Refusal::EmptyList, |s| s.heap.release(small(0), &[])).block(), None);
    refuses(Refusal::EmptyList, |s| s.heap.release(medium(0), &[]));
    blames(Refusal::WrongKind, 0, |s| s.heap.release(small(0), &s.span));
    blames(Refusal::WrongKind, 0, |s| s.heap.release(medium(0), &s.blocks));
    blames(Refusal::WrongKind, 2, |s| s.heap.release(small(0), &[s.blocks[0], s.others[0], s.span[0], s.span[1]]));
    blames(Refusal::NotOut, 0, |s| s.heap.release(small(0), &s.others));
    blames(Refusal::NotOut, 0, |s| s.heap.release(small(0), &[Block::small(1 << 29).unwrap()]));
    // No bit of a granule is cut.
    for beyond in [1 << 30, 1 << 32, 1 << 61] {
        blames(Refusal::NotOut, 1, |s| {
            let foreign = Block::small(s.blocks[0].granule() + beyond).expect("62 bits");
            s.heap.release(small(0), &[s.blocks[1], foreign])
        });
    }
}

#[test]
fn the_first_block_that_is_not_out() {
    for stale in [0, 1, 5, 62, 63] {
        let mut s = scene();
        s.heap.release(small(0), &s.blocks[stale..=stale]).expect("it is out");
        let before = s.heap.clone();
        let error = s.heap.release(small(0), &s.blocks).expect_err("one is not out");
        assert_eq!(error.block(), Some((stale, s.blocks[stale])));
        assert_eq!(error.released(), 0);
        let error = s.heap.release_chunks(small(0), &s.blocks, &Chunk::of(&s.blocks)).expect_err("one is not out");
        assert_eq!(error.block(), Some((stale, s.blocks[stale])));
        assert_eq!(s.heap, before);
    }
    for stale in [0, 4, 9] {
        let mut s = scene();
        s.heap.release(medium(0), &s.span[stale..=stale]).expect("it is out");
        let before = s.heap.clone();
        let error = s.heap.release(medium(0), &s.span).expect_err("one is not out");
        assert_eq!(error.block(), Some((stale, s.span[stale])));
        assert_eq!(s.heap, before);
    }
}

/// A block that stands twice is told from one that is not out, wherever the two stand, by list and by chunks.
#[test]
fn a_block_that_stands_twice() {
    blames(Refusal::Repeated, 2, |s| s.heap.release(small(0), &[s.blocks[0], s.blocks[1], s.blocks[0]]));
    blames(Refusal::Repeated, 3, |s| s.heap.release(medium(0), &[s.span[2], s.span[0], s.span[1], s.span[2]]));
    blames(Refusal::NotOut, 0, |s| s.heap.release(small(0), &[s.others[0], s.others[0]]));
    blames(Refusal::WrongKind, 2, |s| s.heap.release(small(0), &[s.blocks[0], s.blocks[0], s.span[0]]));
    // Three times, and another one twice before: the first place counts.
    blames(Refusal::Repeated, 2, |s| {
        let [a, b] = [s.blocks[4], s.blocks[1]];
        s.heap.release(small(0), &[a, b, b, a, a])
    });
    // A foreign block twice, then one of the list.
    blames(Refusal::Repeated, 3, |s| {
        let [foreign, block] = [s.others[0], s.blocks[0]];
        s.heap.release(small(0), &[foreign, foreign, block, block])
    });
}

#[test]
fn a_block_that_stands_twice_and_one_that_is_not_out() {
    for (order, place) in [([0, 0, 1], 1), ([0, 1, 0], 2), ([1, 0, 0], 2)] {
        blames(Refusal::Repeated, place, |s| {
            s.heap.release(small(0), &order.map(|which| [s.blocks[0], s.others[0]][which]))
        });
        blames(Refusal::Repeated, place, |s| {
            let list = order.map(|which| [s.blocks[0], s.others[0]][which]);
            s.heap.release_chunks(small(0), &list, &Chunk::of(&list))
        });
        blames(Refusal::Repeated, place, |s| {
            let foreign = Block::medium(s.span[0].granule() + 1).expect("62 bits");
            s.heap.release(medium(0), &order.map(|which| [s.span[0], foreign][which]))
        });
    }
    let told = [Refusal::Repeated, Refusal::NotOut].map(Refusal::meaning);
    assert_eq!(
        told,
        ["a block that is out in this class stands twice in the list", "a block is not out in this class"]
    );
}

#[test]
fn blocks_of_two_pages() {
    for class in [small(45), medium(3)] {
        let mut heap = Heap::open(64).expect("64 pages");
        let mut blocks = heap.take(class).expect("a run").to_vec();
        let run = blocks.len();
        blocks.extend(heap.take(class).expect("another run"));
        let before = heap.clone();
        let error = heap.release(class, &blocks).expect_err("two runs");
        assert_eq!((error.refusal(), error.block()), (Refusal::OtherPage, Some((run, blocks[run]))));
        assert_eq!(heap, before);
        heap.release_all(class, &mut blocks).expect("all are out");
    }
}

#[test]
fn runs() {
    refuses(Refusal::RunLength, |s| s.heap.commit(0));
    refuses(Refusal::RunLength, |s| s.heap.commit(1 << 48));
    refuses(Refusal::RunLength, |s| s.heap.grow_frontier(s.run, s.run.pages));
    refuses(Refusal::RunLength, |s| s.heap.release_run(Run { pages: 0, ..s.run }));
    refuses(Refusal::NotHeld, |s| s.heap.release_run(Run { first: 0, pages: 1 }));
    refuses(Refusal::NotHeld, |s| s.heap.release_run(Run { first: u64::MAX, pages: 3 }));
    refuses(Refusal::NotHeld, |s| s.heap.grow_frontier(Run { pages: 3, ..s.run }, 4));
}

#[test]
fn chunks() {
    refuses(Refusal::EmptyList, |s| s.heap.release_chunks(small(0), &s.blocks, &[]));
    refuses(Refusal::EmptyList, |s| s.heap.release_chunks(small(0), &[], &[chunk(1, 0)]));
    refuses(Refusal::Chunks, |s| s.heap.release_chunks(small(0), &s.blocks, &vec![chunk(1, 0); 2_057]));
    refuses(Refusal::Chunks, |s| s.heap.release_chunks_into(small(0), &s.blocks, &[chunk(64, 0)], &mut []));
    refuses(Refusal::WrongKind, |s| s.heap.release_chunks(medium(0), &s.span, &[chunk(10, 2)]));
    blames(Refusal::WrongKind, 0, |s| s.heap.release_chunks(small(0), &s.span, &[chunk(10, 0)]));
    blames(Refusal::NotOut, 0, |s| s.heap.release_chunks(small(0), &s.others, &[chunk(64, 1)]));
    blames(Refusal::OtherPage, 0, |s| s.heap.release_chunks(small(0), &s.blocks, &[chunk(63, 0)]));
    let zero = |s: &mut Scene| s.heap.release_chunks(small(0), &s.blocks, &[chunk(64, 0), chunk(0, 1)]);
    assert_eq!(refuses(Refusal::OtherPage, zero).block(), None);
    blames(Refusal::OtherPage, 0, |s| s.heap.release_chunks(small(0), &s.blocks, &[chunk(32, 0), chunk(32, 0)]));
    for beyond in [64, 1 << 18, 1 << 32, (1 << 50) - 1] {
        blames(Refusal::OtherPage, 0, |s| s.heap.release_chunks(small(0), &s.blocks, &[chunk(64, beyond)]));
    }
}

/// A list of many runs: what stands before the refused block may be back, and the error tells how much.
#[test]
fn release_all_stops_at_a_stale_block() {
    for class in [small(0), small(20), small(45), medium(0)] {
        let mut heap = Heap::open(256).expect("256 pages");
        let mut blocks: Vec<Block> = (0..20).flat_map(|_| heap.take(class).expect("there is room")).collect();
        blocks.sort_unstable();
        let stale = blocks.len() * 2 / 3;
        heap.release(class, &blocks[stale..=stale]).expect("it is out");
        let block = blocks[stale];
        let error = heap.release_all(class, &mut blocks).expect_err("one is not out");
        assert_eq!((error.refusal(), error.block()), (Refusal::NotOut, Some((stale, block))), "{class}");
        assert!(error.released() <= stale);
        let mut rest: Vec<Block> = blocks[error.released()..].iter().copied().filter(|&other| other != block).collect();
        heap.release_all(class, &mut rest).expect("the others are out");
        let error = heap.release_all(class, &mut blocks).expect_err("none is out");
        assert_eq!(error.block(), Some((0, blocks[0])));
    }
}

/// With nothing granted the first take disables the arena for good; a heap's own word grants.
#[test]
fn a_heap_keeps_its_host_word() {
    let mut heap = Heap::open(64).expect("64 pages");
    assert!(heap.take_with(Host::NONE, small(0)).expect("no refusal").is_empty());
    assert!(heap.take(small(0)).expect("no refusal").is_empty());
    heap.reopen(64).expect("the book is long enough");
    assert_eq!(heap.take(small(0)).expect("no refusal").len(), 64);
    heap.set_host(Host::RESERVATION);
    assert_eq!(heap.commit(1), Ok(None));
    heap.reopen(64).expect("the book is long enough");
    assert_eq!(heap.host(), Host::RESERVATION);
}

#[test]
fn every_number_prints_its_meaning() {
    for number in 1..=24 {
        let refusal = Refusal::from_number(number).expect("documents 01 and 02 have it");
        assert_eq!(refusal.number(), number);
        let error: Box<dyn Error> = Box::new(refusal);
        assert_eq!(error.to_string(), format!("refused as {number}: {}", refusal.meaning()));
    }
    assert_eq!([0, u32::MAX].map(Refusal::from_number), [None, None]);
}
