//! Document 01's examples on an arena of 64 pages, through the safe calls.

use vigbuso::{Block, Chunk, Class, Fate, Heap, Host, Run, Taken};

fn heap() -> Heap {
    let mut heap = Heap::open(64).expect("64 pages");
    heap.set_host(Host::ALL);
    heap
}

fn class(number: u32) -> Class {
    Class::small(number).expect("0 to 63")
}

fn small(granules: &[u64]) -> Vec<Block> {
    granules.iter().map(|&granule| Block::small(granule).expect("62 bits")).collect()
}

fn granules(taken: &Taken) -> Vec<u64> {
    taken.iter().map(|block| block.granule()).collect()
}

fn first_page(heap: &mut Heap, host: Host, pages: u64) -> Option<u64> {
    heap.commit_with(host, pages).expect("a run has such a length").map(|answer| answer.run.first)
}

fn give(heap: &mut Heap, first: u64, pages: u64) {
    heap.release_run(Run { first, pages }).expect("the run is held");
}

/// As document 02 restates them (A.6).
#[test]
fn p1_to_p5_sizes() {
    assert_eq!([0, 16_384].map(Class::for_size), [0, 45].map(Class::small));
    assert_eq!([16_385, 18_432, 18_433, 65_472].map(Class::for_size), [0, 0, 1, 11].map(Class::medium));
    assert_eq!([65_473, (1 << 32) + 16, usize::MAX].map(Class::for_size), [None; 3]);
}

#[test]
fn p6_and_p7_a_take_a_release_and_a_take() {
    let mut heap = heap();
    let taken = heap.take(class(0)).expect("class 0");
    assert_eq!(granules(&taken), (3..=66).rev().collect::<Vec<_>>());
    assert!(taken.is_virgin());
    // As document 02 restates it (A.11).
    assert_eq!(taken[0].word(), 4_611_686_018_427_387_970);

    heap.release(class(0), &small(&[10])).expect("granule 10 is out");
    let taken = heap.take(class(0)).expect("class 0");
    assert_eq!(granules(&taken), (67..=129).rev().chain([10]).collect::<Vec<_>>());
    assert!(!taken.is_virgin());
}

#[test]
fn p8_released_as_one_page() {
    let mut heap = heap();
    let taken = heap.take(class(45)).expect("class 45");
    assert_eq!(granules(&taken), [2051, 1027, 3]);
    heap.release(class(45), &taken).expect("all on one page");
    assert_eq!(granules(&heap.take(class(45)).expect("class 45")), [3, 1027, 2051]);
}

#[test]
fn p9_released_as_a_chunk() {
    let mut heap = heap();
    let taken = heap.take(class(45)).expect("class 45");
    let fates = heap.release_chunks(class(45), &taken, &Chunk::of(&taken)).expect("one chunk");
    assert_eq!(fates, [Fate::KeptRetired]);
    assert_eq!(granules(&heap.take(class(45)).expect("class 45")), [2051, 1027, 3]);
}

#[test]
fn p10_a_medium_take() {
    let taken = heap().take(Class::medium(0).expect("0 to 11")).expect("medium class 0");
    let mut bytes: Vec<u64> = taken.iter().map(|block| block.byte_offset()).collect();
    bytes.sort_unstable();
    assert_eq!(bytes, (0..10).map(|i| 64 + 18_432 * i).collect::<Vec<_>>());
}

#[test]
fn p11_equal_holes() {
    let mut heap = heap();
    assert_eq!(first_page(&mut heap, Host::ALL, 10), Some(0));
    for first in [0, 4, 8] {
        give(&mut heap, first, 2);
    }
    assert_eq!([(); 3].map(|()| first_page(&mut heap, Host::ALL, 2)), [Some(0), Some(4), Some(8)]);
}

#[test]
fn p12_a_hole_that_is_not_granted() {
    let mut heap = heap();
    assert_eq!(first_page(&mut heap, Host::ALL, 4), Some(0));
    give(&mut heap, 0, 4);
    let without_commit = Host::from_bits(13).expect("four bits");
    assert_eq!(first_page(&mut heap, without_commit, 2), None);
    // There is the one hole (0, 4) again; nothing is held.
    assert_eq!(heap.report().expect("a reached book").idle, 64);
    assert_eq!(first_page(&mut heap, Host::ALL, 4), Some(0));
    assert_eq!(heap.report().expect("a reached book").reuses, 1);
}
