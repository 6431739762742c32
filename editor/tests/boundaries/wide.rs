//! Words of 64 bits, and arenas up to 1,048,576 pages (document 02, A.11).

use std::ffi::c_void;
use std::ops::{Deref, DerefMut};
use std::{ptr, slice};

use crate::heap::{book_words, Family, Heap, ALL, NO_COMMIT};

/// The longest arena, and the longest that words of 32 bits could name.
const MOST: u64 = 1_048_576;
const OLD: u64 = 262_144;
/// Three blocks to a page, as first taken.
const CLASS: u32 = 45;
const PAGE: [u64; 3] = [2_051, 1_027, 3];

extern "C" {
    fn mmap(addr: *mut c_void, len: usize, prot: i32, flags: i32, fd: i32, offset: i64) -> *mut c_void;
    fn munmap(addr: *mut c_void, len: usize) -> i32;
}

/// Words that are 0 and cost no memory until they are touched: the longest book has 17 GB.
struct Lazy {
    first: *mut u32,
    len: usize,
}

impl Lazy {
    fn new(len: usize) -> Lazy {
        // Read and write; private, anonymous, no swap reserved (Linux).
        // SAFETY: a new mapping wherever the kernel likes.
        let first = unsafe { mmap(ptr::null_mut(), len * 4, 3, 0x02 | 0x20 | 0x4000, -1, 0) };
        assert_ne!(first as usize, usize::MAX, "the system has no address space for {len} words");
        Lazy { first: first.cast(), len }
    }
}

impl Deref for Lazy {
    type Target = [u32];

    fn deref(&self) -> &[u32] {
        // SAFETY: so many words of our own mapping.
        unsafe { slice::from_raw_parts(self.first, self.len) }
    }
}

impl DerefMut for Lazy {
    fn deref_mut(&mut self) -> &mut [u32] {
        // SAFETY: as above, and `self` is borrowed exclusively.
        unsafe { slice::from_raw_parts_mut(self.first, self.len) }
    }
}

impl Drop for Lazy {
    fn drop(&mut self) {
        // SAFETY: our own mapping, no longer borrowed.
        unsafe { munmap(self.first.cast(), self.len * 4) };
    }
}

fn open(pages: u64) -> Heap<Lazy> {
    let mut heap = Heap { book: Lazy::new(book_words(pages)) };
    assert_eq!(heap.reopen(pages, &[]), Ok(()));
    heap
}

/// The class's blocks of a page, as first taken.
fn on(page: u64) -> Vec<u64> {
    PAGE.map(|granule| 4_096 * page + granule).to_vec()
}

/// A granule of which some bits alone are those of a block that is out; every bit of a word counts.
#[test]
fn a_granule_beyond_the_arena_is_10() {
    let mut heap = Heap::open(64);
    assert_eq!(heap.take(Family::Small, CLASS, ALL), Ok((on(0), true)));
    assert_eq!(heap.take(Family::Medium, 0, ALL).map(|(blocks, _)| blocks[0]), Ok(4_100));
    for granule in (12..62).map(|bit| 3 + (1 << bit)).chain([(1 << 62) - 1, (1 << 62) - (1 << 18) + 3]) {
        assert_eq!(heap.give(Family::Small, CLASS, ALL, &[granule]), Err(10), "{granule}");
        assert_eq!(heap.give(Family::Small, CLASS, ALL, &[2_051, granule]), Err(10), "{granule}");
        for page in [0, granule / 4_096] {
            assert_eq!(heap.give_chunks(CLASS, &[granule], &[(1, page)], 1), Err(10), "{granule}");
        }
    }
    for granule in (16..62).map(|bit| 4_100 + (1 << bit)) {
        assert_eq!(heap.give(Family::Medium, 0, ALL, &[granule]), Err(10), "{granule}");
        assert_eq!(heap.give(Family::Medium, 0, ALL, &[4_100, granule]), Err(10), "{granule}");
    }
    assert_eq!(heap.report(), [2, 0, 0, 4, 60, 0]);
    assert_eq!(heap.give(Family::Small, CLASS, ALL, &PAGE), Ok(0));
    assert_eq!(heap.give(Family::Medium, 0, ALL, &[4_100]), Ok(0));
}

/// So is a group's page, and a count's every bit.
#[test]
fn a_groups_page_beyond_the_arena_is_11() {
    let mut heap = Heap::open(64);
    assert_eq!(heap.take(Family::Small, CLASS, ALL), Ok((on(0), true)));
    let beyond = (6..50).map(|bit| 1 << bit).chain([64, OLD + 1, MOST, (1 << 50) - 1]);
    let counts = (2..12).map(|bit| (3 + (1 << bit), 0)).chain([(0, 0), (2, 0), (4_095, 0)]);
    for (count, page) in beyond.map(|page| (3, page)).chain(counts) {
        assert_eq!(heap.give_chunks(CLASS, &PAGE, &[(count, page)], 1), Err(11), "{count} {page}");
    }
    for page in [64, OLD, OLD + 1, 1 << 32] {
        assert_eq!(heap.give_chunks(CLASS, &PAGE, &[(3, 0), (1, page)], 2), Err(11), "{page}");
        assert_eq!(heap.give_chunks(CLASS, &PAGE, &[(2, 0), (1, page)], 2), Err(11), "{page}");
    }
    assert_eq!(heap.report(), [1, 0, 0, 1, 63, 0]);
    assert_eq!(heap.give_chunks(CLASS, &PAGE, &[(3, 0)], 1), Ok(vec![4]));
}

#[test]
fn more_than_1_048_576_pages_are_1() {
    let mut heap = Heap { book: vec![0; book_words(1)] };
    for pages in [MOST + 1, 1 << 21, 1 << 32, (1 << 32) + 1, 1 << 50, u64::MAX] {
        assert_eq!(heap.reopen(pages, &[]), Err(1), "{pages}");
    }
    assert_eq!(heap.reopen(MOST, &[]), Err(2));
    assert_eq!(heap.reopen(1, &[]), Ok(()));
}

/// 40,000 words and 4,112 for each page, as ever.
#[test]
fn a_book_a_word_short_is_2_also_at_1_048_576_pages() {
    for pages in [OLD + 1, MOST] {
        let mut heap = Heap { book: Lazy::new(book_words(pages) - 1) };
        assert_eq!(heap.reopen(pages, &[]), Err(2));
        assert_eq!(heap.reopen(pages - 1, &[]), Ok(()));
        assert_eq!(heap.report(), [0, 0, 0, 0, pages - 1, 0]);
    }
}

/// The pages before were abandoned by a commit that was not granted. Of each the book has a word written: 17 MB of it are touched.
#[test]
fn the_last_pages_of_the_longest_arena() {
    let mut heap = open(MOST);
    let ahead = MOST - 5;
    assert_eq!(heap.commit(NO_COMMIT, ahead), Ok(None));
    assert!(heap.contains(0, 1 << 36) && heap.contains((1 << 36) - 1, 1) && !heap.contains(1, 1 << 36));
    assert_eq!(heap.report(), [0, 0, 1, 0, 5, 0]);
    assert_eq!(heap.take(Family::Small, CLASS, ALL), Ok((on(ahead), true)));
    let span: Vec<u64> = (0..10).map(|block| 4_096 * (MOST - 4) + 4 + 1_152 * block).collect();
    assert_eq!(heap.take(Family::Medium, 0, ALL), Ok((span.clone(), true)));
    assert_eq!(heap.take(Family::Small, CLASS, ALL), Ok((on(MOST - 1), true)));
    assert_eq!(on(MOST - 1)[0], 4_294_965_251);
    assert_eq!(heap.take(Family::Small, 0, ALL), Ok((vec![], false)));
    assert_eq!(heap.commit(ALL, 1), Ok(None));
    // Pages of other arenas, and of this one with a bit more.
    for page in [ahead - OLD, ahead + (1 << 20), ahead + (1 << 32)] {
        assert_eq!(heap.give(Family::Small, CLASS, ALL, &on(page)), Err(10), "{page}");
    }
    let both = [on(MOST - 1), on(ahead)].concat();
    assert_eq!(heap.give_chunks(CLASS, &both, &[(3, ahead), (3, OLD - 1)], 2), Err(11));
    assert_eq!(heap.give_chunks(CLASS, &both, &[(3, ahead), (3, MOST - 1)], 2), Ok(vec![4, 4]));
    assert_eq!(heap.give(Family::Medium, 0, ALL, &span), Ok(0));
    assert_eq!(heap.report(), [3, 0, 1, 5, 5, 5]);
}

/// Behind a run that is held: it is given back at the end, and is too long for a hole.
#[test]
fn pages_above_262_144() {
    let mut heap = open(300_000);
    let long = 262_200;
    assert_eq!(heap.commit(ALL, long), Ok(Some((0, true))));
    for page in long..long + 6 {
        assert_eq!(heap.take(Family::Small, CLASS, ALL), Ok((on(page), true)));
    }
    // Four stay empty, the fifth and sixth go cold; then the latest empty one comes back first.
    let list: Vec<u64> = (long..long + 6).flat_map(on).collect();
    let chunks: Vec<(u64, u64)> = [1, 4, 0, 5, 2, 3].map(|page| (3, long + page)).to_vec();
    assert_eq!(heap.give_chunks(CLASS, &list, &chunks, 6), Ok(vec![4, 4, 4, 4, 5, 5]));
    for (page, virgin) in [(5, false), (0, false), (4, false), (1, false), (3, true), (2, true)] {
        assert_eq!(heap.take(Family::Small, CLASS, ALL), Ok((on(long + page), virgin)), "{page}");
    }
    let (span, _) = heap.take(Family::Medium, 0, ALL).expect("medium class 0");
    assert_eq!(span[0], 4_096 * (long + 6) + 4);
    assert_eq!(heap.give(Family::Medium, 0, ALL, &span), Ok(0));
    // Runs there: a growth at the frontier, and a hole that is used again.
    assert_eq!(heap.commit(ALL, 4), Ok(Some((262_209, true))));
    assert_eq!(heap.grow(ALL, 262_209, 4, 6), Ok(true));
    assert_eq!(heap.release(ALL, 262_209, 3), Ok(()));
    assert_eq!(heap.commit(ALL, 2), Ok(Some((262_209, false))));
    assert_eq!(heap.release(ALL, 262_209, 3), Err(12));
    assert_eq!(heap.release(ALL, 0, long), Ok(()));
    assert_eq!(heap.report(), [11, 1, 1, 14, 37_789, 3]);
}
