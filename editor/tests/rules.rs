//! Parking rules of one's own (document 02, A.9), by the crate's types.

use vigbuso::{book_words, Block, Chunk, Class, Fate, Heap, Pool, Rules, Trace};

fn small(number: u32) -> Class {
    Class::small(number).expect("0 to 63")
}

fn medium(number: u32) -> Class {
    Class::medium(number).expect("0 to 11")
}

/// So many runs of a class, taken whole and then released one by one; their fates.
fn fates(heap: &mut Heap, class: Class, runs: usize) -> Vec<Fate> {
    let taken: Vec<_> = (0..runs).map(|_| heap.take(class).expect("an opened book")).collect();
    taken.iter().map(|blocks| heap.release(class, blocks).expect("the blocks are out")).collect()
}

#[test]
fn a_class_keeps_what_its_rules_say() {
    let rules = Rules::every(0, 0).class(small(45), 2, 1).class(medium(0), 1, 0);
    let mut heap = Heap::open_with(64, &rules).expect("64 pages");
    assert_eq!(fates(&mut heap, small(45), 5), [Fate::Kept, Fate::Kept, Fate::Cold, Fate::Arena, Fate::Arena]);
    assert_eq!(fates(&mut heap, medium(0), 3), [Fate::Kept, Fate::Arena, Fate::Arena]);
    assert_eq!(fates(&mut heap, small(44), 1), [Fate::Arena]);
    let report = heap.report().expect("an opened book");
    assert_eq!((report.held, report.overlap), (6, 6));
}

#[test]
fn chunks_go_by_them_too() {
    let class = small(45);
    let mut heap = Heap::open_with(64, &Rules::default().class(class, 1, 0)).expect("64 pages");
    let blocks: Vec<Block> = (0..3).flat_map(|_| heap.take(class).expect("an opened book")).collect();
    let fates = heap.release_chunks(class, &blocks, &Chunk::of(&blocks)).expect("the blocks are out");
    assert_eq!(fates, [Fate::KeptRetired, Fate::ArenaRetired, Fate::ArenaRetired]);
}

/// The rules without any are document 01's, word for word, whatever the book held.
#[test]
fn the_default_rules_are_those_of_a_plain_opening() {
    let books = [0, 1, u32::MAX].map(|content| vec![content; book_words(2)]);
    for book in books {
        let plain = Heap::on(book.clone(), 2).expect("two pages");
        assert!(Heap::on_with(book, 2, &Rules::default()).expect("two pages") == plain);
    }
}

/// Rules hold until the next opening that is not refused; a trace opens without any.
#[test]
fn rules_last_as_long_as_the_heap() {
    let class = small(45);
    let mut heap = Heap::open_with(8, &Rules::every(0, 0)).expect("8 pages");
    assert!(heap.reopen_with(8, &Rules::every(257, 0)).is_err());
    assert_eq!(fates(&mut heap, class, 1), [Fate::Arena]);
    let mut heap = Heap::resume(heap.into_book()).expect("as it was left");
    assert_eq!(fates(&mut heap, class, 1), [Fate::Arena]);
    heap.reopen(8).expect("the book is long enough");
    assert_eq!(fates(&mut heap, class, 1), [Fate::Kept]);
    heap.reopen_with(8, &Rules::every(0, 1)).expect("the book is long enough");
    assert_eq!(fates(&mut heap, class, 2), [Fate::Cold, Fate::Arena]);
    let traced = Heap::from_trace(8, &Trace::new()).expect("an empty trace");
    assert!(traced.heap == Heap::open(8).expect("8 pages"));
}

#[test]
fn a_pool_with_rules() {
    let mut pool = Pool::open_with(64, &Rules::every(0, 0)).expect("64 pages");
    let blocks: Vec<Block> = (0..100).map(|bytes| pool.alloc(100 * bytes).expect("there is room")).collect();
    for block in blocks {
        pool.free(block).expect("it is out");
    }
    pool.flush().expect("nothing was freed twice");
    let report = pool.report().expect("an opened book").arena;
    assert_eq!((report.held, report.idle, report.overlap), (0, 64, 0));
}
