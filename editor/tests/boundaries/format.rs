//! FORMAT: an opening writes it, and every other call tests it. A book that was never opened, or by a library whose words stood
//! elsewhere, is refused and left alone.

use crate::heap::{Answer, Family, Heap, ALL};

/// Its word, and what stands there: the letters VIG7.
const FORMAT: usize = 12;
const THIS: u32 = 1_447_642_935;

const PAGES: u64 = 64;

/// The heap's classes of the scene: three blocks of 1,024 granules to a page, ten of 1,152 to a span. Of the pool's, by one number, the
/// first has a stock, the second a full one, the third none.
const SMALL: u32 = 45;
const MEDIUM: u32 = 0;
const STOCKED: u32 = 20;
const FULL: u32 = 75;
const OTHER: u32 = 10;

/// Page 0 is the small class's, 1 to 3 are the medium one's, 4 is held by hand. Behind them is the pool's: 5 and two spans of 8.
struct Scene {
    heap: Heap,
    stocked: u64,
    full: u64,
}

fn scene() -> Scene {
    let mut heap = Heap::open(PAGES);
    assert_eq!(heap.take(Family::Small, SMALL, ALL), Ok((vec![2_051, 1_027, 3], true)));
    assert_eq!(heap.take(Family::Medium, MEDIUM, ALL).map(|(blocks, _)| blocks[0]), Ok(4_100));
    assert_eq!(heap.commit(ALL, 1), Ok(Some((4, true))));
    let mut alloc = |class| heap.alloc(class, ALL).expect("a class").expect("a block");
    let stocked = alloc(STOCKED);
    let spans: Vec<u64> = (0..9).map(|_| alloc(FULL)).collect();
    assert_eq!(heap.free(FULL, ALL, spans[8]), Ok(()));
    assert_eq!((heap.stocked(STOCKED), heap.stocked(FULL), heap.stocked(OTHER)), (63, 8, 0));
    // The frontier is where growth is.
    assert_eq!(heap.commit(ALL, 2), Ok(Some((22, true))));
    Scene { heap, stocked, full: spans[0] }
}

/// The number that every call with a refusal answers, in turn, each on the same book; none changes it if it is refused.
fn numbers(Scene { heap, stocked, full }: &Scene) -> [u32; 15] {
    let number = |call: &dyn Fn(&mut Heap) -> Answer<()>| {
        let mut on = heap.clone();
        let number = call(&mut on).err().unwrap_or(0);
        assert!(number == 0 || on.book == heap.book, "refused as {number}, and the book changed");
        number
    };
    [
        number(&|heap| heap.commit(ALL, 1).map(drop)),
        number(&|heap| heap.grow(ALL, 22, 2, 3).map(drop)),
        number(&|heap| heap.release(ALL, 4, 1)),
        number(&|heap| heap.try_report().map(drop)),
        number(&|heap| heap.take(Family::Small, SMALL, ALL).map(drop)),
        number(&|heap| heap.take(Family::Medium, MEDIUM, ALL).map(drop)),
        number(&|heap| heap.give(Family::Small, SMALL, ALL, &[3]).map(drop)),
        number(&|heap| heap.give(Family::Medium, MEDIUM, ALL, &[4_100]).map(drop)),
        number(&|heap| heap.give_chunks(SMALL, &[3, 1_027], &[(2, 0)], 1).map(drop)),
        number(&|heap| heap.alloc(STOCKED, ALL).map(drop)),
        number(&|heap| heap.alloc(OTHER, ALL).map(drop)),
        number(&|heap| heap.free(STOCKED, ALL, *stocked)),
        // To the heap: the stock is full.
        number(&|heap| heap.free(FULL, ALL, *full)),
        number(&|heap| heap.trim(STOCKED, ALL).map(drop)),
        number(&|heap| heap.trim(OTHER, ALL).map(drop)),
    ]
}

/// The calls that refuse nothing: whether the first page is in the arena, the class of a block, whether it is granted, the stock.
fn answers(Scene { heap, stocked, .. }: &Scene) -> (bool, u32, bool, u32) {
    (heap.contains(0, 65_536), heap.class_of(*stocked), heap.granted(STOCKED, *stocked), heap.stocked(STOCKED))
}

const NONE: (bool, u32, bool, u32) = (false, 76, false, 0);

#[test]
fn an_opening_writes_it() {
    for before in [0, 7, u32::MAX] {
        let mut heap = Heap { book: vec![before; 40_000 + 4_112] };
        assert_eq!(heap.reopen(1, &[]), Ok(()));
        assert_eq!(heap.book[FORMAT], THIS);
        let mut heap = Heap { book: vec![before; 40_000 + 4_112] };
        assert_eq!(heap.trace(1, &[0]).map(|blocks| blocks.len()), Ok(64));
        assert_eq!(heap.book[FORMAT], THIS);
    }
    assert_eq!(THIS.to_be_bytes(), *b"VIG7");
}

/// A refused opening leaves it, and so does every other call.
#[test]
fn nothing_else_writes_it() {
    let mut heap = Heap { book: vec![7; 40_000 + 4_112] };
    assert_eq!((heap.reopen(2, &[]), heap.reopen(1, &[0])), (Err(2), Err(19)));
    assert_eq!(heap.book[FORMAT], 7);
    let scene = scene();
    assert_eq!((numbers(&scene), answers(&scene)), ([0; 15], (true, STOCKED, true, 63)));
    assert_eq!(scene.heap.book[FORMAT], THIS);
}

#[test]
fn every_call_tests_it() {
    for other in [0, 1, 7, THIS - 1, THIS + 1, u32::MAX] {
        let mut scene = scene();
        scene.heap.book[FORMAT] = other;
        assert_eq!((numbers(&scene), answers(&scene)), ([13; 15], NONE), "{other}");
    }
}

/// Every word but the first is 0, 1 or ones: no page is held and no block is out, which comes before 13.
#[test]
fn books_that_were_never_opened() {
    for word in [0, 1, u32::MAX] {
        let mut scene = scene();
        scene.heap.book[1..].fill(word);
        let due = [13, 12, 12, 13, 13, 13, 10, 10, 10, 13, 13, 10, 10, 13, 13];
        assert_eq!((numbers(&scene), answers(&scene)), (due, NONE), "{word}");
    }
}

/// The layout before: 76 rows, COUNT at their ends, holes and entries 1,024 words further down, the hand's OWNER 77, and the pool's
/// pages as the heap's. Its heap and pool used no class both.
fn older(book: &[u32]) -> Vec<u32> {
    let mut older = book.to_vec();
    older[FORMAT] = 0;
    for class in [STOCKED, FULL].map(|class| class as usize) {
        older.copy_within(768 + 8 * class..776 + 8 * class, 160 + 8 * class);
    }
    older[768..1_024].fill(0);
    older[1_024..28_672].copy_from_slice(&book[2_048..29_696]);
    older[28_672..29_696].fill(0);
    for owner in older[43_344..43_344 + 512].iter_mut().step_by(2).filter(|owner| **owner > 76) {
        *owner = if *owner == 153 { 77 } else { *owner - 76 };
    }
    older
}

/// A heap's block that is out there is found, and then the format; what the hand and the pool have is not theirs any more.
#[test]
fn a_book_of_the_layout_before() {
    let mut scene = scene();
    scene.heap.book = older(&scene.heap.book);
    let due = [13, 12, 12, 13, 13, 13, 13, 13, 13, 13, 13, 10, 10, 13, 13];
    assert_eq!((numbers(&scene), answers(&scene)), (due, NONE));
    assert_eq!(scene.heap.reopen(PAGES, &[]), Ok(()));
    assert_eq!(scene.heap.report(), [0, 0, 0, 0, PAGES, 0], "an opening takes every book");
}
