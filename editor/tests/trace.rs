//! Traces, against document 02's sentences.

use vigbuso::{book_words, Block, Class, Done, Figures, Heap, Refusal, Say, Trace};

const PAGES: u64 = 16;
const WRONG: u32 = 3 << 30;

/// Stands in a list where nothing was written.
fn filler() -> Block {
    Block::small(0).expect("a granule of 62 bits")
}

const UNTOLD: Figures = Figures { out: 7, bytes: 7, held: 7, idle: 7, highest: 7 };

fn small(number: u32) -> Class {
    Class::small(number).expect("0 to 63")
}

fn take(class: u32) -> u32 {
    class
}

fn release(place: u32) -> u32 {
    1 << 30 | place
}

const REPORT: u32 = 2 << 30;

/// What a trace left, with lists of so many entries.
struct Left {
    refusal: Option<Refusal>,
    done: Done,
    heap: Heap,
    blocks: Vec<Block>,
    figures: Vec<Figures>,
}

fn run(words: &[u32], blocks: usize, reports: usize) -> Left {
    run_on(PAGES, words, blocks, reports)
}

fn run_on(pages: u64, words: &[u32], blocks: usize, reports: usize) -> Left {
    let (mut blocks, mut figures) = (vec![filler(); blocks], vec![UNTOLD; reports]);
    let (book, trace) = (vec![9; book_words(pages)], Trace::from(words.to_vec()));
    let (refusal, (heap, done)) = match Heap::on_trace(book, pages, &trace, &mut blocks, &mut figures) {
        Ok(done) => (None, done),
        Err((refusal, done)) => (Some(refusal), done.expect("the opening is not refused")),
    };
    Left { refusal, done, heap, blocks, figures }
}

/// It stops at a word, and has left what the words before it alone leave.
fn stops_at(words: &[u32], blocks: usize, reports: usize, at: usize) -> Left {
    let left = run(words, blocks, reports);
    assert_eq!((left.refusal, left.done.words), (Some(Refusal::Stopped), at), "{words:x?}");
    let before = run(&words[..at], blocks, reports);
    assert_eq!((before.refusal, before.done), (None, left.done), "{words:x?}");
    assert_eq!(
        (&left.heap, &left.blocks, &left.figures),
        (&before.heap, &before.blocks, &before.figures),
        "{words:x?}"
    );
    assert!(left.blocks[left.done.blocks..].iter().all(|&block| block == filler()));
    assert!(left.figures[left.done.reports..].iter().all(|&figures| figures == UNTOLD));
    left
}

/// Words that can be carried out: the second take gives the one block that is back, at place 3.
const GOOD: [u32; 5] = [45, 1 << 30 | 1, REPORT, 45, REPORT];

#[test]
fn every_reason_at_the_first_a_middle_and_the_last_word() {
    let reasons = [
        WRONG,
        WRONG | 5,
        u32::MAX,
        REPORT | 1,
        REPORT | 1 << 29,
        take(76),
        take((1 << 30) - 1),
        release((1 << 30) - 1),
    ];
    for reason in reasons {
        assert_eq!(stops_at(&[reason], 6, 2, 0).done, Done { words: 0, blocks: 0, reports: 0 });
        for at in 0..=GOOD.len() {
            let mut words = GOOD.to_vec();
            words.insert(at, reason);
            stops_at(&words, 6, 2, at);
        }
    }
}

#[test]
fn a_place_that_is_not_handed_out_or_is_released() {
    for place in [0, 1, 5] {
        stops_at(&[release(place)], 6, 2, 0);
    }
    stops_at(&[take(45), release(3)], 6, 2, 1);
    stops_at(&[take(45), release(2), release(2)], 6, 2, 2);
    stops_at(&[take(45), release(3), release(0), REPORT], 6, 2, 1);
    let left = stops_at(&[take(45), release(0), take(45), REPORT, release(0)], 6, 2, 4);
    assert_eq!(left.figures[0].out, 3);
}

#[test]
fn lists_that_cannot_hold_what_a_word_adds() {
    for (room, at) in [(0, 0), (2, 0), (3, 3)] {
        stops_at(&GOOD, room, 2, at);
    }
    for (reports, at) in [(0, 2), (1, 4)] {
        stops_at(&GOOD, 6, reports, at);
    }
    assert_eq!(run(&GOOD, 4, 2).refusal, None);
    assert_eq!(stops_at(&[REPORT], 0, 0, 0).done.reports, 0);
}

/// From every source: a new page, the partial list, a parked page; in lists shorter than a batch.
#[test]
fn a_take_is_counted_before_anything_is_written() {
    stops_at(&[take(0)], 63, 0, 0);
    assert_eq!(run(&[take(0)], 64, 0).done.blocks, 64);
    // One block of the page is back, and the take gives just this one.
    let left = run(&[take(45), release(1), take(45)], 4, 0);
    assert_eq!((left.refusal, left.done.blocks), (None, 4));
    stops_at(&[take(45), release(1), take(45)], 3, 0, 2);
    // All are back, and the page is parked.
    let words = [take(45), release(0), release(1), release(2), take(45)];
    stops_at(&words, 5, 0, 4);
    assert_eq!(run(&words, 6, 0).done.blocks, 6);
    // A medium class's span has ten blocks.
    stops_at(&[take(64)], 9, 0, 0);
    assert_eq!(run(&[take(64)], 10, 0).done.blocks, 10);
    // Pages beyond the 260 that a class parks are holes: one of them has four blocks of class 44.
    let mut words = vec![take(45); 262];
    words.extend((0..3 * 262).map(release));
    words.push(take(44));
    for (room, done) in [(3, 0), (4, 4)] {
        let left = run_on(262, &words, 3 * 262 + room, 0);
        assert_eq!((left.refusal.is_none(), left.done.blocks), (done == 4, 3 * 262 + done));
    }
}

/// Sixteen takes of three blocks fill the arena; the next hand out nothing and need no room.
#[test]
fn a_take_of_none_passes_with_no_room_at_all() {
    let mut words = vec![take(45); 16];
    words.extend([take(45), take(0), take(75), REPORT]);
    let left = run(&words, 48, 1);
    assert_eq!((left.refusal, left.done), (None, Done { words: 20, blocks: 48, reports: 1 }));
    let bytes = 48 * 16_384;
    assert_eq!(left.figures, [Figures { out: 48, bytes, held: 16, idle: 0, highest: bytes }]);
    // A page's class gives what it has left.
    let mut words = vec![take(0); 64 * 16];
    words.push(take(0));
    let left = run(&words, 16 * 4_093, 0);
    assert_eq!((left.refusal, left.done.blocks), (None, 16 * 4_093));
}

#[test]
fn figures_by_hand() {
    let words = [REPORT, take(45), release(0), REPORT, take(64), REPORT, release(3), release(1), release(2), REPORT];
    let left = run(&words, 13, 4);
    let (small, medium) = (16_384, 18_432);
    let highest = 2 * small + 10 * medium;
    assert_eq!(
        left.figures,
        [
            Figures { out: 0, bytes: 0, held: 0, idle: 16, highest: 0 },
            Figures { out: 2, bytes: 2 * small, held: 1, idle: 15, highest: 3 * small },
            Figures { out: 12, bytes: highest, held: 4, idle: 12, highest },
            Figures { out: 9, bytes: 9 * medium, held: 4, idle: 13, highest }, // the page of three is parked
        ]
    );
}

/// A block that is handed out again has a new place; the old one is not out any more.
#[test]
fn a_block_handed_out_again_has_a_new_place() {
    let words = [take(45), release(1), take(45)];
    let left = run(&words, 64, 0);
    assert_eq!(left.blocks[1], left.blocks[3]);
    let mut again = words.to_vec();
    again.push(release(1));
    stops_at(&again, 64, 0, 3);
    again[3] = release(3);
    assert_eq!(run(&again, 64, 0).refusal, None);
}

/// A trace is the same takes and releases one by one, all granted and zeroing.
#[test]
fn the_heap_is_that_of_the_calls_and_goes_on() {
    let class = small(45);
    let mut traced = Heap::from_trace(PAGES, &Trace::from(GOOD.to_vec())).expect("16 pages");
    assert_eq!((traced.words, traced.stopped), (5, false));
    let mut heap = Heap::open(PAGES).expect("16 pages");
    heap.set_host(vigbuso::Host::ALL);
    let mut blocks = heap.take(class).expect("a page").to_vec();
    heap.release(class, &blocks[1..2]).expect("it is out");
    blocks.extend(heap.take(class).expect("the page's last block"));
    assert_eq!(traced.blocks, blocks);
    traced.heap.set_host(vigbuso::Host::ALL);
    assert_eq!(traced.heap, heap);
    // Place 1 is back; the others are out, and one of them goes and comes again.
    traced.heap.release(class, &traced.blocks[2..3]).expect("the trace left it out");
    assert_eq!(traced.heap.release(class, &traced.blocks[2..3]).unwrap_err().refusal(), Refusal::NotOut);
    assert_eq!(traced.heap.take(class).expect("a page")[..], traced.blocks[2..3]);
}

#[test]
fn a_stopped_trace_has_a_heap_too() {
    let traced = Heap::from_trace(PAGES, &Trace::from(vec![take(0), WRONG, take(0)])).expect("16 pages");
    assert_eq!((traced.words, traced.stopped, traced.blocks.len()), (1, true, 64));
    assert_eq!(traced.heap.report().expect("a heap").held, 1);
    assert_eq!(Heap::from_trace(0, &Trace::new()).map(|traced| traced.words), Err(Refusal::ArenaLength));
    let (refusal, left) = Heap::on_trace(vec![0; 5], 1, &Trace::new(), &mut [], &mut []).unwrap_err();
    assert_eq!((refusal, left.is_none()), (Refusal::BookTooShort, true));
    assert_eq!(run(&[], 0, 0).done, Done { words: 0, blocks: 0, reports: 0 });
}

#[test]
fn words_are_read_as_they_are_written() {
    let says = Class::all().map(Say::Take).chain([0, 5, (1 << 30) - 1].map(Say::Release)).chain([Say::Report]);
    let trace: Trace = says.clone().collect();
    assert!(trace.says().eq(says.map(Some)));
    assert_eq!(Trace::from(trace.words().to_vec()), trace);
    assert!(Trace::from(vec![76, WRONG, REPORT | 1]).says().all(|say| say.is_none()));
}
