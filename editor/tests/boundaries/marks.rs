//! The mark words of a page: while a list is tested for repeats, each block has a bit there. They are 0 between calls; where a
//! listed block that is out finds its word otherwise, the call is refused as 13, after 9 and before 15, and nothing changes
//! (document 02, A.3).

use crate::heap::{Answer, Family, Heap, ALL};

/// 4,093 blocks of one granule to a page, the first at granule 3: 128 mark words.
const CLASS: u32 = 0;
const BLOCKS: usize = 4_093;

/// The mark word of a block of a page.
fn mark(page: usize, block: usize) -> usize {
    40_000 + 4_112 * page + 144 + block / 32
}

fn granule(page: usize, block: usize) -> u64 {
    (4_096 * page + 3 + block) as u64
}

/// Granules of page 0.
fn on_page(blocks: &[usize]) -> Vec<u64> {
    blocks.iter().map(|&block| granule(0, block)).collect()
}

/// All blocks of page 0 are out but 8 to 15, and of page 1 the first 64.
fn scene() -> Heap {
    let mut heap = Heap::open(4);
    for _ in 0..=BLOCKS.div_ceil(64) {
        assert!(heap.take(Family::Small, CLASS, ALL).is_ok_and(|(blocks, _)| !blocks.is_empty()));
    }
    assert_eq!(heap.give(Family::Small, CLASS, ALL, &on_page(&[8, 9, 10, 11, 12, 13, 14, 15])), Ok(0));
    heap
}

fn list(granules: &[u64]) -> impl Fn(&mut Heap) -> Answer<Vec<u32>> + '_ {
    move |heap| heap.give(Family::Small, CLASS, ALL, granules).map(|fate| vec![fate])
}

/// Chunks that are the list's own.
fn chunks(granules: &[u64]) -> impl Fn(&mut Heap) -> Answer<Vec<u32>> + '_ {
    move |heap| {
        let chunks = own(granules);
        heap.give_chunks(CLASS, granules, &chunks, chunks.len())
    }
}

fn own(granules: &[u64]) -> Vec<(u64, u64)> {
    let on = |page| granules.iter().filter(|&granule| granule / 4_096 == page).count();
    let chunk = |page| (on(page) as u64, page);
    (0..8).map(chunk).filter(|&(count, _)| count > 0).collect()
}

/// With these values in words the call answers this number, and no word changes.
fn refused(words: &[(usize, u32)], number: u32, call: impl Fn(&mut Heap) -> Answer<Vec<u32>>) {
    let mut heap = scene();
    words.iter().for_each(|&(word, value)| heap.book[word] = value);
    let before = heap.book.clone();
    assert_eq!(call(&mut heap), Err(number), "{words:?}");
    assert!(heap.book == before, "{words:?}: refused as {number}, and the book changed");
}

/// With these values in words the call is carried out as without them, and they stay.
fn unmoved(words: &[(usize, u32)], call: impl Fn(&mut Heap) -> Answer<Vec<u32>>) {
    let [mut plain, mut heap] = [scene(), scene()];
    words.iter().for_each(|&(word, value)| heap.book[word] = value);
    let due = call(&mut plain);
    assert!(due.is_ok());
    assert_eq!(call(&mut heap), due, "{words:?}");
    words.iter().for_each(|&(word, value)| plain.book[word] = value);
    assert!(heap.book == plain.book, "{words:?}: another word differs");
}

#[test]
fn any_bit_of_a_listed_blocks_word_is_13() {
    for block in [0, 7, 31, 32, 63, 64, 2_000, 4_064, 4_092] {
        for bit in 0..32 {
            let spoilt = [(mark(0, block), 1 << bit)];
            let one = on_page(&[block]);
            refused(&spoilt, 13, list(&one));
            refused(&spoilt, 13, chunks(&one));
        }
        let others: Vec<usize> = (100..164).chain([block]).chain(200..210).collect();
        refused(&[(mark(0, block), u32::MAX)], 13, list(&on_page(&others)));
        refused(&[(mark(0, block), u32::MAX)], 13, chunks(&on_page(&others)));
    }
}

#[test]
fn a_word_of_the_second_page_is_13_too() {
    let granules = [granule(0, 40), granule(1, 5), granule(0, 41)];
    refused(&[(mark(1, 5), 4)], 13, chunks(&granules));
    // By list it would be 11 otherwise.
    refused(&[(mark(1, 5), 4)], 13, list(&granules));
    refused(&[(mark(1, 32), 4)], 11, list(&granules));
}

#[test]
fn a_mark_comes_before_15_and_10_and_after_9() {
    let (marked, clean) = (granule(0, 70), granule(0, 30));
    let (back, foreign) = (granule(0, 8), granule(3, 0));
    let spoilt = [(mark(0, 70), 1 << 9)];
    for granules in [vec![marked; 2], vec![clean, clean, marked], vec![marked, back], vec![foreign, marked, foreign]] {
        refused(&spoilt, 13, list(&granules));
    }
    refused(&spoilt, 13, chunks(&[marked, marked]));
    refused(&spoilt, 13, chunks(&[back, marked]));
    refused(&spoilt, 15, list(&[clean, foreign, clean]));
    refused(&spoilt, 15, chunks(&[clean, back, clean]));
    for granules in [[marked, marked, 1 << 63 | clean], [1 << 63 | clean, marked, foreign]] {
        refused(&spoilt, 9, list(&granules));
        refused(&spoilt, 9, chunks(&granules));
    }
}

#[test]
fn the_word_of_a_block_that_is_not_out_is_not_looked_at() {
    // Blocks 8 to 15 share word 0 with others that are out; page 3 is nobody's.
    for granules in [on_page(&[8]), on_page(&[15, 9]), on_page(&[10, 10]), on_page(&[40, 8]), vec![granule(3, 8)]] {
        let spoilt = [(mark(0, 8), u32::MAX), (mark(3, 8), u32::MAX)];
        refused(&spoilt, 10, list(&granules));
        refused(&spoilt, 10, chunks(&granules));
    }
    refused(&[(mark(0, 8), 1)], 15, list(&on_page(&[40, 9, 40])));
}

#[test]
fn the_words_of_blocks_that_are_not_listed_stay() {
    let one = on_page(&[100]);
    let some = on_page(&[32, 33, 95, 4_092]);
    let every_other: Vec<(usize, u32)> =
        (0..128).filter(|&word| word != 3).map(|word| (mark(0, 32 * word), u32::MAX - word as u32)).collect();
    unmoved(&every_other, list(&one));
    unmoved(&every_other, chunks(&one));
    let spoilt = [(mark(0, 0), 5), (mark(0, 96), 1 << 31), (mark(1, 33), u32::MAX), (mark(2, 0), 1)];
    unmoved(&spoilt, list(&some));
    unmoved(&spoilt, chunks(&some));
    // Both pages' words, by chunks.
    let both = [granule(0, 64), granule(1, 40), granule(1, 41), granule(0, 65)];
    unmoved(&[(mark(0, 63), 7), (mark(0, 96), 7), (mark(1, 31), 7), (mark(1, 64), 7)], chunks(&both));
}

/// A whole page but one block, whose word is not 0 and has no other block listed.
#[test]
fn a_long_list_beside_a_marked_word() {
    let rest: Vec<usize> = (32..BLOCKS).collect();
    unmoved(&[(mark(0, 0), 1 << 20)], list(&on_page(&rest)));
    unmoved(&[(mark(0, 0), 1 << 20)], chunks(&on_page(&rest)));
    refused(&[(mark(0, 4_092), 1 << 31)], 13, list(&on_page(&rest)));
}

/// A span has the words of its first page alone.
#[test]
fn medium_blocks_alike() {
    let opened = || {
        let mut heap = Heap::open(8);
        assert_eq!(heap.take(Family::Medium, 0, ALL).map(|(blocks, _)| blocks[0]), Ok(4));
        heap
    };
    let give = |heap: &mut Heap, list: &[u64]| heap.give(Family::Medium, 0, ALL, list);
    for bit in 0..32 {
        let mut heap = opened();
        heap.book[mark(0, 0)] = 1 << bit;
        let before = heap.book.clone();
        let lists: [&[u64]; 5] = [&[4], &[1_156, 4], &[4, 4], &[5], &[5, 4, 4]];
        assert_eq!(lists.map(|list| give(&mut heap, list)), [13, 13, 13, 10, 13].map(Err), "bit {bit}");
        assert!(heap.book == before);
    }
    let [mut plain, mut heap] = [opened(), opened()];
    let spoilt = [mark(0, 32), mark(1, 0), mark(2, 0), mark(3, 0)];
    spoilt.iter().for_each(|&word| heap.book[word] = u32::MAX);
    for list in [&[4, 1_156][..], &[2_308]] {
        assert_eq!(give(&mut plain, list), Ok(0));
        assert_eq!(give(&mut heap, list), Ok(0));
    }
    spoilt.iter().for_each(|&word| plain.book[word] = u32::MAX);
    assert!(heap.book == plain.book);
}

/// Whatever stood there, a new run has no mark set.
#[test]
fn a_new_runs_words_are_cleared() {
    for (class, words) in [(0, 128), (10, 10), (45, 1)] {
        let mut heap = Heap::open(2);
        heap.book[40_000..].fill(u32::MAX);
        let (blocks, _) = heap.take(Family::Small, class, ALL).expect("a class");
        assert_eq!(heap.book[mark(0, 0)..][..words], vec![0; words], "class {class}");
        assert_eq!(heap.give(Family::Small, class, ALL, &blocks), Ok(0));
    }
    let mut heap = Heap::open(3);
    heap.book[40_000..].fill(u32::MAX);
    let (blocks, _) = heap.take(Family::Medium, 0, ALL).expect("a class");
    assert_eq!(heap.book[mark(0, 0)], 0);
    assert_eq!(heap.give(Family::Medium, 0, ALL, &blocks), Ok(0));
}

/// Refused as 15, 10 or 11, and carried out: no mark is left.
#[test]
fn no_call_leaves_a_mark() {
    let mut heap = scene();
    let spans = [(0, BLOCKS.div_ceil(32)), (1, BLOCKS.div_ceil(32))];
    let lists: [&[usize]; 6] = [&[0, 1, 0], &[0, 8], &[8, 0], &[100, 1_000, 4_092, 100], &[100, 101, 102], &[7, 9, 7]];
    for blocks in lists {
        let granules = on_page(blocks);
        let _ = heap.give(Family::Small, CLASS, ALL, &granules);
        let _ = heap.give_chunks(CLASS, &granules, &[(1, 0)], 1);
        let _ = heap.give(Family::Small, CLASS, ALL, &[granules[0], granule(1, 0)]);
        for (page, words) in spans {
            assert_eq!(heap.book[mark(page, 0)..][..words], vec![0; words], "{blocks:?}");
        }
    }
}

/// On a book that was 0, where no run is parked: after every call, refused or carried out, all 128 words of every page are 0.
#[test]
fn no_page_has_a_mark_after_any_call() {
    let mut heap = Heap::open_with(8, &[0, 75, 0, 0]);
    // Page 7 stays nobody's.
    let foreign = granule(7, 0);
    for round in 0..3 {
        for class in [0, 10, 45] {
            let blocks: Vec<u64> = (0..2)
                .flat_map(|_| answered(&mut heap, |heap| heap.take(Family::Small, class, ALL)).expect("fits").0)
                .collect();
            let [first, last] = [blocks[0], blocks[blocks.len() - 1]];
            for (list, number) in [
                (vec![first, last, first], 15),
                (vec![first, foreign, first], 15),
                (vec![last, foreign], 10),
                (vec![foreign, foreign], 10),
                (vec![last, 1 << 63 | first], 9),
            ] {
                assert_eq!(answered(&mut heap, |heap| heap.give(Family::Small, class, ALL, &list)), Err(number));
                let chunks = [own(&list), vec![(1, 7)]].concat();
                assert_eq!(answered(&mut heap, |heap| heap.give_chunks(class, &list, &chunks, 8)), Err(number));
            }
            assert_eq!(answered(&mut heap, |heap| heap.give_chunks(class, &blocks, &[(1, 7)], 1)), Err(11));
            assert_eq!(answered(&mut heap, |heap| heap.give(Family::Small, class, ALL, &[first])), Ok(0));
            let rest = &blocks[1..];
            let chunks = own(rest);
            // Class 45's are of two pages.
            if round == 0 || chunks.len() == 2 {
                assert!(
                    chunks.len() == 1
                        || answered(&mut heap, |heap| heap.give(Family::Small, class, ALL, rest)) == Err(11)
                );
                let fates = answered(&mut heap, |heap| heap.give_chunks(class, rest, &chunks, chunks.len()));
                assert_eq!(fates, Ok(vec![6; chunks.len()]));
            } else {
                assert_eq!(answered(&mut heap, |heap| heap.give(Family::Small, class, ALL, rest)), Ok(2));
            }
        }
        let (blocks, _) = answered(&mut heap, |heap| heap.take(Family::Medium, 0, ALL)).expect("fits");
        for (list, due) in [(vec![blocks[0]; 2], Err(15)), (vec![blocks[0], 5], Err(10)), (blocks.clone(), Ok(2))] {
            assert_eq!(answered(&mut heap, |heap| heap.give(Family::Medium, 0, ALL, &list)), due);
        }
    }
}

/// What a call answers; no page has a mark then.
fn answered<T>(heap: &mut Heap, call: impl Fn(&mut Heap) -> Answer<T>) -> Answer<T> {
    let answer = call(heap);
    let words = (0..8).flat_map(|page| &heap.book[mark(page, 0)..][..128]);
    assert!(words.into_iter().all(|&word| word == 0));
    answer
}
