//! The boundary: the C functions of `libvigbuso.a` (docs/CALLS.md), and a safe function over each; and the memory of a book.
//! Nothing else in this crate is `unsafe`.
//!
//! # What the caller owes
//!
//! 1. A pointer with a length is a slice that may be read, or read and written where the pointer is `*mut`, for that
//!    many elements during the call. A report's `figures` is six elements, a trace's `done` three.
//! 2. What is lent to one call does not overlap, and nobody else writes it during the call.
//! 3. The functions are declared as docs/CALLS.md has them.
//!
//! 1 and 2 are what `&[T]` and `&mut [T]` already promise, so each function below takes such borrows and passes on their
//! pointer and length; out-parameters are locals. [`Block`] and [`Chunk`] are `repr(transparent)` over [`Word`] and [`Fate`] is
//! a `u32`, so a list of them is lent as a list of words. 3 is on this page, and the tests run every function.
//!
//! # What the library owes
//!
//! Proved, for every number, every list and every book: a call reads and writes only what it is lent, and within the
//! lengths given; it returns; it answers 0 or one of the papers' numbers; refused, it leaves everything lent as it was, but for
//! number 16, a trace that stopped.
//! It keeps no pointer and has no state but the book. So no call here has a condition on its arguments' values. What it
//! writes into a list is what its contract says: a take and a trace write words of blocks, which are not 0, and a release by
//! chunks writes fates. An alloc and a trim write the word of a block, or 0 for none.

use alloc::alloc::{alloc_zeroed, Layout};
use alloc::vec::Vec;

use crate::{Block, Chunk, Class, Fate, Figures, Growth, Host, Kind, Refusal, Report, Run, Word};

extern "C" {
    fn vigbuso_abi_7() -> u32;
    fn vigbuso_size_class(size: u64, class: *mut u32) -> u32;
    fn vigbuso_plan(sizes: *const u32, sizes_len: usize, takes: *const u32, takes_len: usize, total: *mut u64) -> u32;
    fn vigbuso_open(book: *mut u32, book_len: usize, pages: u64, rows: *const u32, rows_len: usize) -> u32;
    fn vigbuso_commit(book: *mut u32, book_len: usize, host: u32, pages: u64, first: *mut u32, fresh: *mut u32) -> u32;
    fn vigbuso_grow_frontier(
        book: *mut u32,
        book_len: usize,
        host: u32,
        first: u64,
        old_pages: u64,
        new_pages: u64,
        grown: *mut u32,
    ) -> u32;
    fn vigbuso_release(book: *mut u32, book_len: usize, host: u32, first: u64, pages: u64) -> u32;
    fn vigbuso_contains(book: *const u32, book_len: usize, offset: u64, length: u64) -> u32;
    fn vigbuso_report(book: *const u32, book_len: usize, figures: *mut u64) -> u32;
    fn vigbuso_take_blocks(
        book: *mut u32,
        book_len: usize,
        class: u32,
        host: u32,
        list: *mut Word,
        list_len: usize,
        count: *mut u32,
        virgin: *mut u32,
    ) -> u32;
    fn vigbuso_medium_take_blocks(
        book: *mut u32,
        book_len: usize,
        class: u32,
        host: u32,
        list: *mut Word,
        list_len: usize,
        count: *mut u32,
        virgin: *mut u32,
    ) -> u32;
    fn vigbuso_release_blocks(
        book: *mut u32,
        book_len: usize,
        class: u32,
        host: u32,
        list: *const Word,
        list_len: usize,
        fate: *mut u32,
    ) -> u32;
    fn vigbuso_medium_release_blocks(
        book: *mut u32,
        book_len: usize,
        class: u32,
        host: u32,
        list: *const Word,
        list_len: usize,
        fate: *mut u32,
    ) -> u32;
    fn vigbuso_release_bin_chunks(
        book: *mut u32,
        book_len: usize,
        class: u32,
        host: u32,
        list: *const Word,
        list_len: usize,
        chunks: *const Word,
        chunks_len: usize,
        fates: *mut u32,
        fates_len: usize,
    ) -> u32;
    fn vigbuso_alloc(book: *mut u32, book_len: usize, class: u32, host: u32, block: *mut Word) -> u32;
    fn vigbuso_free(book: *mut u32, book_len: usize, class: u32, host: u32, block: Word) -> u32;
    fn vigbuso_trim(book: *mut u32, book_len: usize, class: u32, host: u32, block: *mut Word) -> u32;
    fn vigbuso_class_of(book: *const u32, book_len: usize, block: Word) -> u32;
    fn vigbuso_granted(book: *const u32, book_len: usize, class: u32, block: Word) -> u32;
    fn vigbuso_stocked(book: *const u32, book_len: usize, class: u32) -> u32;
    fn vigbuso_trace(
        book: *mut u32,
        book_len: usize,
        pages: u64,
        trace: *const u32,
        trace_len: usize,
        blocks: *mut Word,
        blocks_len: usize,
        figures: *mut u64,
        figures_len: usize,
        done: *mut u64,
    ) -> u32;
    fn vigbuso_class_table(a: u64, b: u64, top: u64, slots: u64, list: *mut u32, list_len: usize) -> u32;
    fn vigbuso_asker_wins(pages: u64, live: u64, moves: u64, wins: *mut u32) -> u32;
    fn vigbuso_short_histories(pages: u64, length: u64, list: *mut u32, list_len: usize, written: *mut u64) -> u32;
}

/// Every opening refers to the name of the archive's number, so that no archive of another number links.
fn assert_abi() {
    // SAFETY: nothing is lent.
    assert_eq!(unsafe { vigbuso_abi_7() }, 7);
}

/// Whether a call was carried out.
#[inline]
fn carried_out(number: u32) -> Result<(), Refusal> {
    match number {
        0 => Ok(()),
        _ => Err(refusal(number)),
    }
}

#[cold]
fn refusal(number: u32) -> Refusal {
    Refusal::from_number(number).expect("a call answers 0 or one of the papers' numbers")
}

fn fate(number: u32) -> Fate {
    Fate::from_number(number).expect("a release answers one of document 01's fates")
}

/// A size's class; none if it is too large. The answer is the kind that its blocks' words have, 0 for none.
#[inline]
pub(crate) fn size_class(size: u64) -> Option<Class> {
    let mut number = 0;
    // SAFETY: the out-parameter is a local.
    match unsafe { vigbuso_size_class(size, &raw mut number) } {
        1 => Class::small(number),
        2 => Class::medium(number),
        _ => None,
    }
}

/// The unsigned integers of which memory of zeroes is made.
pub(crate) trait Unsigned: Copy + PartialEq + Default {}

impl Unsigned for u8 {}
impl Unsigned for u32 {}
impl Unsigned for u64 {}

/// So many integers of 0, not touched yet; none if there is no memory for them.
#[allow(clippy::cast_ptr_alignment, clippy::same_length_and_capacity)] // the layout is that of the array
pub(crate) fn zeroed<T: Unsigned>(count: usize) -> Option<Vec<T>> {
    let layout = Layout::array::<T>(count).ok()?;
    if layout.size() == 0 {
        return Some(Vec::new());
    }
    // SAFETY: the layout's size is not 0.
    let memory = unsafe { alloc_zeroed(layout) }.cast::<T>();
    if memory.is_null() {
        return None;
    }
    // SAFETY: the global allocator gave this memory for an array of so many `T`, an unsigned integer, and 0 is one.
    Some(unsafe { Vec::from_raw_parts(memory, count, count) })
}

/// The pages of a plan.
pub(crate) fn plan(sizes: &[u32], takes: &[u32]) -> Result<u64, Refusal> {
    let mut total = 0;
    // SAFETY: both slices are lent for the call, to be read, and the local to be written.
    carried_out(unsafe { vigbuso_plan(sizes.as_ptr(), sizes.len(), takes.as_ptr(), takes.len(), &raw mut total) })?;
    Ok(total)
}

/// No rows are none of the caller's own rules.
pub(crate) fn open(book: &mut [u32], pages: u64, rows: &[u32]) -> Result<(), Refusal> {
    assert_abi();
    // SAFETY: both slices are lent for the call, the rows to be read.
    carried_out(unsafe { vigbuso_open(book.as_mut_ptr(), book.len(), pages, rows.as_ptr(), rows.len()) })
}

/// First page and fresh.
pub(crate) fn commit(book: &mut [u32], host: Host, pages: u64) -> Result<(u32, u32), Refusal> {
    let (mut first, mut fresh) = (0, 0);
    // SAFETY: the slice and the two locals are lent for the call.
    carried_out(unsafe {
        vigbuso_commit(book.as_mut_ptr(), book.len(), host.bits(), pages, &raw mut first, &raw mut fresh)
    })?;
    Ok((first, fresh))
}

/// Grown.
pub(crate) fn grow_frontier(book: &mut [u32], host: Host, run: Run, new_pages: u64) -> Result<u32, Refusal> {
    let mut grown = 0;
    let Run { first, pages } = run;
    // SAFETY: the slice and the local are lent for the call.
    carried_out(unsafe {
        vigbuso_grow_frontier(book.as_mut_ptr(), book.len(), host.bits(), first, pages, new_pages, &raw mut grown)
    })?;
    Ok(grown)
}

pub(crate) fn release_run(book: &mut [u32], host: Host, run: Run) -> Result<(), Refusal> {
    // SAFETY: the slice is lent for the call.
    carried_out(unsafe { vigbuso_release(book.as_mut_ptr(), book.len(), host.bits(), run.first, run.pages) })
}

pub(crate) fn contains(book: &[u32], offset: u64, length: u64) -> u32 {
    // SAFETY: the slice is lent for the call, to be read.
    unsafe { vigbuso_contains(book.as_ptr(), book.len(), offset, length) }
}

pub(crate) fn report(book: &[u32]) -> Result<Report, Refusal> {
    let mut figures = [0; Report::FIGURES];
    // SAFETY: the slice is lent for the call, to be read, and the local of figures to be written.
    carried_out(unsafe { vigbuso_report(book.as_ptr(), book.len(), figures.as_mut_ptr()) })?;
    Ok(Report::new(figures))
}

/// Count and virgin; the list's first count entries are written.
pub(crate) fn take(book: &mut [u32], class: Class, host: Host, list: &mut [Block]) -> Result<(u32, u32), Refusal> {
    let take_blocks = match class.kind() {
        Kind::Small => vigbuso_take_blocks,
        Kind::Medium => vigbuso_medium_take_blocks,
    };
    let (mut count, mut virgin) = (0, 0);
    let (words, len) = (list.as_mut_ptr().cast::<Word>(), list.len());
    // SAFETY: both slices and the two locals are lent for the call; a `Block` is a `Word`, and the words that are written are
    // those of blocks.
    carried_out(unsafe {
        take_blocks(
            book.as_mut_ptr(),
            book.len(),
            class.number(),
            host.bits(),
            words,
            len,
            &raw mut count,
            &raw mut virgin,
        )
    })?;
    Ok((count, virgin))
}

pub(crate) fn release(book: &mut [u32], class: Class, host: Host, list: &[Block]) -> Result<Fate, Refusal> {
    let release_blocks = match class.kind() {
        Kind::Small => vigbuso_release_blocks,
        Kind::Medium => vigbuso_medium_release_blocks,
    };
    let mut number = 0;
    let (words, len) = (list.as_ptr().cast::<Word>(), list.len());
    // SAFETY: both slices and the local are lent for the call, the list to be read; a `Block` is a `Word`.
    carried_out(unsafe {
        release_blocks(book.as_mut_ptr(), book.len(), class.number(), host.bits(), words, len, &raw mut number)
    })?;
    Ok(fate(number))
}

/// Writes a fate for each chunk. The class is small.
pub(crate) fn release_chunks(
    book: &mut [u32],
    class: Class,
    host: Host,
    list: &[Block],
    chunks: &[Chunk],
    fates: &mut [Fate],
) -> Result<(), Refusal> {
    if class.kind() != Kind::Small {
        return Err(Refusal::WrongKind);
    }
    // SAFETY: the four slices are lent for the call, list and chunks to be read; a `Block` and a `Chunk` are a `Word`; a `Fate`
    // is a `u32`, and the numbers that are written are those of fates.
    carried_out(unsafe {
        vigbuso_release_bin_chunks(
            book.as_mut_ptr(),
            book.len(),
            class.number(),
            host.bits(),
            list.as_ptr().cast::<Word>(),
            list.len(),
            chunks.as_ptr().cast::<Word>(),
            chunks.len(),
            fates.as_mut_ptr().cast::<u32>(),
            fates.len(),
        )
    })
}

/// A class's place among all, as the pool's calls number them.
#[allow(clippy::cast_possible_truncation)] // it is below 76
const fn place(class: Class) -> u32 {
    class.index() as u32
}

/// A block of the pool; none if neither its stock nor the arena has one.
#[inline]
pub(crate) fn alloc(book: &mut [u32], class: Class, host: Host) -> Result<Option<Block>, Refusal> {
    let mut word = 0;
    // SAFETY: the slice and the local are lent for the call.
    carried_out(unsafe { vigbuso_alloc(book.as_mut_ptr(), book.len(), place(class), host.bits(), &raw mut word) })?;
    Ok(Block::from_word(word))
}

#[inline]
pub(crate) fn free(book: &mut [u32], class: Class, host: Host, block: Block) -> Result<(), Refusal> {
    // SAFETY: the slice is lent for the call.
    carried_out(unsafe { vigbuso_free(book.as_mut_ptr(), book.len(), place(class), host.bits(), block.word()) })
}

/// The block of the pool's stock that went back to the heap; none if the stock is empty.
pub(crate) fn trim(book: &mut [u32], class: Class, host: Host) -> Result<Option<Block>, Refusal> {
    let mut word = 0;
    // SAFETY: the slice and the local are lent for the call.
    carried_out(unsafe { vigbuso_trim(book.as_mut_ptr(), book.len(), place(class), host.bits(), &raw mut word) })?;
    Ok(Block::from_word(word))
}

/// The class that has the block's page. It says nothing of the block.
#[inline]
pub(crate) fn class_of(book: &[u32], block: Block) -> Option<Class> {
    // SAFETY: the slice is lent for the call, to be read.
    let place = unsafe { vigbuso_class_of(book.as_ptr(), book.len(), block.word()) } as usize;
    (place < Class::COUNT).then(|| Class::at(place))
}

/// Whether the pool has granted a block in a class, and not had it back.
#[inline]
pub(crate) fn granted(book: &[u32], class: Class, block: Block) -> bool {
    // SAFETY: the slice is lent for the call, to be read.
    unsafe { vigbuso_granted(book.as_ptr(), book.len(), place(class), block.word()) == 1 }
}

/// Blocks in a class's stock.
pub(crate) fn stocked(book: &[u32], class: Class) -> u32 {
    // SAFETY: the slice is lent for the call, to be read.
    unsafe { vigbuso_stocked(book.as_ptr(), book.len(), place(class)) }
}

/// A trace on a new heap, and how many words it carried out, how many blocks and numbers it wrote: none where the opening was
/// refused.
#[allow(clippy::cast_possible_truncation)] // no count exceeds the length of a slice
pub(crate) fn trace(
    book: &mut [u32],
    pages: u64,
    words: &[u32],
    blocks: &mut [Block],
    figures: &mut [Figures],
) -> (Result<(), Refusal>, [usize; 3]) {
    assert_abi();
    let mut done = [0; 3];
    // SAFETY: the four slices are lent for the call, the words to be read, and the local of three to be written. A `Block` is a
    // `Word`, and the words that are left in the list are those of blocks; `Figures` are five `u64` one after the other.
    let number = unsafe {
        vigbuso_trace(
            book.as_mut_ptr(),
            book.len(),
            pages,
            words.as_ptr(),
            words.len(),
            blocks.as_mut_ptr().cast::<Word>(),
            blocks.len(),
            figures.as_mut_ptr().cast::<u64>(),
            figures.len() * Figures::NUMBERS,
            done.as_mut_ptr(),
        )
    };
    (carried_out(number), done.map(|count: u64| count as usize))
}

/// Writes a class table into the first slots of the list.
pub(crate) fn class_table(growth: Growth, top: u64, slots: u64, list: &mut [u32]) -> Result<(), Refusal> {
    // SAFETY: the slice is lent for the call.
    carried_out(unsafe { vigbuso_class_table(growth.a, growth.b, top, slots, list.as_mut_ptr(), list.len()) })
}

/// 1 if the asker wins.
pub(crate) fn asker_wins(pages: u64, live: u64, moves: u64) -> Result<u32, Refusal> {
    let mut wins = 0;
    // SAFETY: the local is lent for the call.
    carried_out(unsafe { vigbuso_asker_wins(pages, live, moves, &raw mut wins) })?;
    Ok(wins)
}

/// How many numbers were written into the list.
pub(crate) fn short_histories(pages: u64, length: u64, list: &mut [u32]) -> Result<u64, Refusal> {
    let mut written = 0;
    // SAFETY: the slice and the local are lent for the call.
    carried_out(unsafe { vigbuso_short_histories(pages, length, list.as_mut_ptr(), list.len(), &raw mut written) })?;
    Ok(written)
}

/// The refusals that the types above rule out can be seen here only.
#[cfg(test)]
mod tests {
    use super::*;
    use std::vec;

    const WORDS: usize = 40_000 + 4_112;

    fn opened() -> Vec<u32> {
        let mut book = vec![0; WORDS];
        open(&mut book, 1, &[]).expect("a page, and a book for it");
        book
    }

    fn small(number: u32) -> Class {
        Class::small(number).expect("0 to 63")
    }

    #[test]
    fn a_size_that_is_too_large_leaves_the_class() {
        let looked_up = |size| {
            let mut class = 99;
            (unsafe { vigbuso_size_class(size, &raw mut class) }, class)
        };
        assert_eq!([0, 16_384].map(looked_up), [(1, 0), (1, 45)]);
        assert_eq!([16_385, 65_472].map(looked_up), [(2, 0), (2, 11)]);
        assert_eq!([65_473, (1 << 32) + 16, u64::MAX].map(looked_up), [(0, 99); 3]);
    }

    #[test]
    fn a_plan_has_lists_of_one_length_and_sizes_that_are_not_too_large() {
        assert_eq!(plan(&[0], &[]), Err(Refusal::Plan));
        assert_eq!(plan(&[0, 1], &[1]), Err(Refusal::Plan));
        assert_eq!([plan(&[65_472], &[1]), plan(&[65_473], &[1])], [Ok(8), Err(Refusal::Plan)]);
        assert_eq!(plan(&[u32::MAX], &[1]), Err(Refusal::Plan));
    }

    #[test]
    fn a_listing_fits_its_list() {
        let mut list = [9; 793];
        assert_eq!(short_histories(3, 4, &mut list[..791]), Err(Refusal::Listing));
        assert_eq!(list, [9; 793]);
        assert_eq!(short_histories(3, 4, &mut list), Ok(792));
        assert_eq!(list[788..], [3, 4, 3, 6, 9]);
    }

    #[test]
    fn a_book_has_a_length_and_is_long_enough() {
        assert_eq!(open(&mut [], 1, &[]), Err(Refusal::BookTooShort));
        assert_eq!(open(&mut vec![0; WORDS - 1], 1, &[]), Err(Refusal::BookTooShort));
        assert_eq!(open(&mut vec![0; WORDS], 0, &[]), Err(Refusal::ArenaLength));
        assert_eq!(report(&[]), Err(Refusal::ArenaLength));
        assert_eq!(report(&opened()[..WORDS - 1]), Err(Refusal::BookTooShort));
        assert_eq!(contains(&[], 0, 0), 0);
    }

    #[test]
    fn rows_are_whole_and_each_class_has_one() {
        let mut book = opened();
        let all = [0, 75, 4, 256];
        assert_eq!(open(&mut book, 1, &all[..3]), Err(Refusal::Rows));
        assert_eq!(open(&mut book, 1, &[all, all].concat()), Err(Refusal::TwoRows));
        assert_eq!(open(&mut book, 1, &[0, 74, 4, 256]), Err(Refusal::NoRow));
        assert_eq!(book, opened());
        assert_eq!(open(&mut book, 1, &all), Ok(()));
    }

    #[test]
    fn a_host_word_has_four_bits_and_a_class_is_there() {
        let mut book = opened();
        let (words, len) = (book.as_mut_ptr(), book.len());
        let (mut list, mut one, mut two) = ([0; 64], 0, 0);
        let room = list.as_mut_ptr();
        let mut take =
            |class, host| unsafe { vigbuso_take_blocks(words, len, class, host, room, 64, &raw mut one, &raw mut two) };
        assert_eq!([take(0, 16), take(64, u32::MAX), take(64, 15)], [3, 3, 4]);
        let medium = unsafe { vigbuso_medium_take_blocks(words, len, 12, 15, room, 64, &raw mut one, &raw mut two) };
        assert_eq!(medium, 4);
        assert_eq!(unsafe { vigbuso_release(words, len, 16, 0, 1) }, 3);
        assert_eq!(book, opened());
    }

    /// Classes are 0 to 75 by one number, and the questions answer 0 where the other calls are refused.
    #[test]
    fn the_pools_calls() {
        let mut book = opened();
        let (words, len, mut word) = (book.as_mut_ptr(), book.len(), 7);
        let mut call = |alloc: bool, class, host| {
            let call = if alloc { vigbuso_alloc } else { vigbuso_trim };
            unsafe { call(words, len, class, host, &raw mut word) }
        };
        for alloc in [true, false] {
            assert_eq!([call(alloc, 0, 16), call(alloc, 76, u32::MAX), call(alloc, 76, 3)], [3, 3, 4]);
        }
        let block = 1 << 62 | 3;
        let free = |class, host| unsafe { vigbuso_free(words, len, class, host, block) };
        assert_eq!([free(0, 16), free(76, 3), free(75, 3), free(0, 3)], [3, 4, 9, 10]);
        assert_eq!((word, &book), (7, &opened()), "a refusal changes nothing");
        assert_eq!(trim(&mut book, small(0), Host::GRANTED), Ok(None));
        assert_eq!(alloc(&mut book, small(0), Host::GRANTED).map(|block| block.map(Block::granule)), Ok(Some(3)));
        assert_eq!((stocked(&book, small(0)), stocked(&book, small(1)), stocked(&[], small(0))), (63, 0, 0));
        let [last, stocked_one, other] = [3, 4, 67].map(|granule| Block::small(granule).expect("62 bits"));
        assert_eq!([last, stocked_one, other].map(|block| granted(&book, small(0), block)), [true, false, false]);
        assert!(!granted(&book, small(1), last) && !granted(&[], small(0), last));
        assert_eq!((class_of(&book, last), class_of(&[], last)), (Some(small(0)), None));
        assert_eq!([free_again(&mut book, last), free_again(&mut book, last)], [Ok(()), Err(Refusal::NotOut)]);
        assert_eq!(trim(&mut book, small(0), Host::GRANTED), Ok(Some(last)));
        assert_eq!(stocked(&book, small(0)), 63);
    }

    fn free_again(book: &mut [u32], block: Block) -> Result<(), Refusal> {
        free(book, small(0), Host::GRANTED, block)
    }

    #[test]
    fn a_take_wants_room_for_a_batch() {
        let medium = |number| Class::medium(number).expect("0 to 11");
        for (class, room) in [(small(0), 64), (medium(0), 10), (medium(11), 8)] {
            let mut list = vec![Block::FILLER; room];
            let mut book = vec![0; WORDS + 9 * 4_112];
            open(&mut book, 10, &[]).expect("ten pages, and a book for them");
            assert_eq!(take(&mut book, class, Host::ALL, &mut list[1..]), Err(Refusal::ListTooShort));
            assert!(list.iter().all(|&block| block == Block::FILLER));
            assert_eq!(take(&mut book, class, Host::ALL, &mut list).map(|(count, _)| count as usize), Ok(room));
        }
    }

    #[test]
    fn a_damaged_book_is_refused_and_left_alone() {
        let mut book = opened();
        book[1] = 3; // the arena's state, 0 to 2
        let before = book.clone();
        let mut list = [Block::FILLER; 64];
        assert_eq!(report(&book), Err(Refusal::BookWord));
        assert_eq!(take(&mut book, small(0), Host::ALL, &mut list), Err(Refusal::BookWord));
        assert_eq!(commit(&mut book, Host::ALL, 1), Err(Refusal::BookWord));
        assert_eq!(contains(&book, 0, 1), 0);
        assert_eq!(book, before);
    }

    #[test]
    fn chunks_want_a_fate_each() {
        let mut book = opened();
        let mut list = [Block::FILLER; 64];
        take(&mut book, small(0), Host::ALL, &mut list).expect("64 blocks of a page");
        let chunks = Chunk::of(&list);
        assert_eq!(release_chunks(&mut book, small(0), Host::ALL, &list, &chunks, &mut []), Err(Refusal::Chunks));
        let mut fates = [Fate::Cold; 3];
        assert_eq!(release_chunks(&mut book, small(0), Host::ALL, &list, &chunks, &mut fates), Ok(()));
        assert_eq!(fates, [Fate::KeptRetired, Fate::Cold, Fate::Cold]);
    }

    /// A report wants five places; fewer are left alone.
    #[test]
    fn figures_want_five_places_each() {
        let (mut book, words) = (vec![0; WORDS], [2 << 30; 2]);
        for (places, reports) in [(0, 0), (4, 0), (5, 1), (9, 1), (10, 2), (14, 2)] {
            let (mut figures, mut done) = (vec![7; places], [7; 3]);
            let number = unsafe {
                vigbuso_trace(
                    book.as_mut_ptr(),
                    WORDS,
                    1,
                    words.as_ptr(),
                    2,
                    [].as_mut_ptr(),
                    0,
                    figures.as_mut_ptr(),
                    places,
                    done.as_mut_ptr(),
                )
            };
            assert_eq!((number, done), ([16, 16, 0][reports], [reports as u64, 0, 5 * reports as u64]), "{places}");
            let expected = [0, 0, 0, 1, 0].into_iter().cycle().take(5 * reports).chain(vec![7; places - 5 * reports]);
            assert_eq!(figures, expected.collect::<Vec<u64>>(), "{places}");
        }
    }

    #[test]
    fn words_of_zero() {
        assert_eq!(zeroed::<u32>(0), Some(Vec::new()));
        assert_eq!(zeroed(3), Some(vec![0_u64; 3]));
        assert_eq!(zeroed::<u8>(usize::MAX), None);
    }
}
