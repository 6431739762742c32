//! The port, through the C boundary of CALLS.md.

use crate::call::{Answer, Call, Lent, Look, PoolRequest};
use crate::memory::{Fence, Fenced, Plain};
use crate::planned::Planned;
use crate::words::{Family, Word, FIGURES, NO_PAGE};

// The folder is the build script's.
#[link(name = "vigbuso", kind = "static")]
extern "C" {
    fn vigbuso_size_class(size: u64, class: *mut u32) -> u32;
    fn vigbuso_asker_wins(pages: u64, live: u64, moves: u64, wins: *mut u32) -> u32;
    fn vigbuso_class_table(a: u64, b: u64, top: u64, slots: u64, list: *mut u32, len: usize) -> u32;
    fn vigbuso_short_histories(pages: u64, length: u64, list: *mut u32, len: usize, written: *mut u64) -> u32;
    fn vigbuso_plan(sizes: *const u32, len: usize, takes: *const u32, takes_len: usize, total: *mut u64) -> u32;
    fn vigbuso_open(book: *mut u32, words: usize, pages: u64, rows: *const u32, rows_len: usize) -> u32;
    fn vigbuso_commit(book: *mut u32, words: usize, host: u32, pages: u64, first: *mut u32, fresh: *mut u32) -> u32;
    fn vigbuso_grow_frontier(
        book: *mut u32,
        words: usize,
        host: u32,
        first: u64,
        old_pages: u64,
        new_pages: u64,
        grown: *mut u32,
    ) -> u32;
    fn vigbuso_release(book: *mut u32, words: usize, host: u32, first: u64, pages: u64) -> u32;
    fn vigbuso_contains(book: *const u32, words: usize, offset: u64, length: u64) -> u32;
    fn vigbuso_trace(
        book: *mut u32,
        words: usize,
        pages: u64,
        trace: *const u32,
        trace_len: usize,
        blocks: *mut Word,
        blocks_len: usize,
        figures: *mut u64,
        figures_len: usize,
        done: *mut u64,
    ) -> u32;
    fn vigbuso_report(book: *const u32, words: usize, figures: *mut u64) -> u32;
    fn vigbuso_take_blocks(
        book: *mut u32,
        words: usize,
        class: u32,
        host: u32,
        list: *mut Word,
        len: usize,
        count: *mut u32,
        virgin: *mut u32,
    ) -> u32;
    fn vigbuso_medium_take_blocks(
        book: *mut u32,
        words: usize,
        class: u32,
        host: u32,
        list: *mut Word,
        len: usize,
        count: *mut u32,
        virgin: *mut u32,
    ) -> u32;
    fn vigbuso_release_blocks(
        book: *mut u32,
        words: usize,
        class: u32,
        host: u32,
        list: *const Word,
        len: usize,
        fate: *mut u32,
    ) -> u32;
    fn vigbuso_medium_release_blocks(
        book: *mut u32,
        words: usize,
        class: u32,
        host: u32,
        list: *const Word,
        len: usize,
        fate: *mut u32,
    ) -> u32;
    fn vigbuso_release_bin_chunks(
        book: *mut u32,
        words: usize,
        class: u32,
        host: u32,
        list: *const Word,
        len: usize,
        chunks: *const Word,
        number: usize,
        fates: *mut u32,
        room: usize,
    ) -> u32;
    fn vigbuso_alloc(book: *mut u32, words: usize, class: u32, host: u32, block: *mut Word) -> u32;
    fn vigbuso_free(book: *mut u32, words: usize, class: u32, host: u32, block: Word) -> u32;
    fn vigbuso_trim(book: *mut u32, words: usize, class: u32, host: u32, block: *mut Word) -> u32;
    fn vigbuso_class_of(book: *const u32, words: usize, block: Word) -> u32;
    fn vigbuso_granted(book: *const u32, words: usize, class: u32, block: Word) -> u32;
    fn vigbuso_stocked(book: *const u32, words: usize, class: u32) -> u32;
}

/// None for a size that is too large, which keeps the class.
#[inline]
pub fn size_class(size: u64) -> Option<(Family, u32)> {
    let mut class = UNTOUCHED;
    // SAFETY: the number is lent for the call.
    match unsafe { vigbuso_size_class(size, &mut class) } {
        0 => {
            assert_eq!(class, UNTOUCHED, "{size} is too large, yet the class changed");
            None
        }
        1 => Some((Family::Small, class)),
        2 => Some((Family::Medium, class)),
        kind => panic!("size_class({size}) returned {kind}"),
    }
}

/// What is returned; the list's first slots are written.
pub fn class_table(a: u64, b: u64, top: u64, slots: u64, list: &mut [u32]) -> u32 {
    // SAFETY: the slice is lent for the call.
    unsafe { vigbuso_class_table(a, b, top, slots, list.as_mut_ptr(), list.len()) }
}

/// What is returned.
pub fn asker_wins(pages: u64, live: u64, moves: u64, wins: &mut u32) -> u32 {
    // SAFETY: the number is lent for the call.
    unsafe { vigbuso_asker_wins(pages, live, moves, wins) }
}

/// What is returned.
pub fn short_histories(pages: u64, length: u64, list: &mut [u32], written: &mut u64) -> u32 {
    // SAFETY: slice and number are lent for the call.
    unsafe { vigbuso_short_histories(pages, length, list.as_mut_ptr(), list.len(), written) }
}

/// A refusal keeps the total.
pub fn plan(sizes: &[u32], takes: &[u32]) -> Planned {
    let mut total = UNTOUCHED_FIGURE;
    // SAFETY: both slices are lent for the call, to be read, and the out-parameter to be written.
    let number = unsafe { vigbuso_plan(sizes.as_ptr(), sizes.len(), takes.as_ptr(), takes.len(), &mut total) };
    match number {
        0 => Planned::Pages(total),
        _ => {
            assert_eq!(total, UNTOUCHED_FIGURE, "refused as {number}, yet the total changed");
            Planned::Refused(number)
        }
    }
}

/// Without rows: 0, or the refusal's number.
pub fn open(book: &mut [u32], pages: u64) -> u32 {
    open_with(book, pages, &[])
}

/// 0, or the refusal's number.
pub fn open_with(book: &mut [u32], pages: u64, rows: &[u32]) -> u32 {
    // SAFETY: both slices are lent for the call, the rows to be read.
    unsafe { vigbuso_open(book.as_mut_ptr(), book.len(), pages, rows.as_ptr(), rows.len()) }
}

/// What is returned; blocks, figures and the three counts are written.
pub fn trace(
    book: &mut [u32],
    pages: u64,
    trace: &[u32],
    blocks: &mut [Word],
    figures: &mut [u64],
    done: &mut [u64; 3],
) -> u32 {
    // SAFETY: slices and counts are lent for the call, the trace to be read.
    unsafe {
        vigbuso_trace(
            book.as_mut_ptr(),
            book.len(),
            pages,
            trace.as_ptr(),
            trace.len(),
            blocks.as_mut_ptr(),
            blocks.len(),
            figures.as_mut_ptr(),
            figures.len(),
            done.as_mut_ptr(),
        )
    }
}

/// The most entries of a lent list.
const ROOM: usize = 1 << 18;

/// Where the lists of a call stand, each against an unmapped page.
pub struct Room {
    list: Fenced<Word>,
    chunks: Fenced<Word>,
    taken: Fenced<Word>,
    fates: Fenced<u32>,
    rows: Fenced<u32>,
}

impl Room {
    pub fn new(fence: Fence) -> Room {
        Room {
            list: Fenced::new(ROOM, fence),
            chunks: Fenced::new(ROOM, fence),
            taken: Fenced::new(ROOM, fence),
            fates: Fenced::new(ROOM, fence),
            rows: Fenced::new(ROOM, fence),
        }
    }

    /// An opening's rows, at their place.
    pub fn lend_rows(&mut self, rows: &[u32]) -> &[u32] {
        placed(&mut self.rows, rows)
    }
}

/// A list that is lent to be read, at its place.
fn placed<'a, T: Plain>(place: &'a mut Fenced<T>, list: &[T]) -> &'a [T] {
    let words = place.lend(list.len());
    words.copy_from_slice(list);
    words
}

/// A list that is lent to be written, at its place.
fn filled<'a, T: Plain>(place: &'a mut Fenced<T>, lent: &Lent<T>) -> &'a mut [T] {
    let words = place.lend(lent.len);
    words.fill(lent.fill);
    words
}

/// Asks the port. Every answer that CALLS.md does not allow is `Broken`. The plain calls beside it, whose time is
/// measured, pass on what the port returns and writes.
pub fn ask(book: &mut [u32], room: &mut Room, call: &Call) -> Answer {
    match call {
        Call::Take { family, class, host, lent } => {
            take(book, *family, [*class, *host], filled(&mut room.taken, lent), lent)
        }
        Call::ReleaseBlocks { family, class, host, list } => {
            let placed = placed(&mut room.list, list);
            only_read(release_blocks(book, *family, [*class, *host], placed), &[(placed, list)])
        }
        Call::ReleaseChunks { class, host, list, chunks, lent } => {
            let (words, placed_chunks) = (placed(&mut room.list, list), placed(&mut room.chunks, chunks));
            let answer =
                release_chunks(book, [*class, *host], words, placed_chunks, filled(&mut room.fates, lent), lent);
            only_read(answer, &[(words, list), (placed_chunks, chunks)])
        }
        Call::Commit { host, pages } => commit(book, *host, *pages),
        Call::Grow { host, first, old, new } => grow(book, *host, [*first, *old, *new]),
        Call::Release { host, first, pages } => release(book, *host, *first, *pages),
        Call::Contains { offset, length } => contains(book, *offset, *length),
        Call::Report => report(book),
        Call::Pool { request: PoolRequest::Alloc, class, host } => one_block(plain_alloc(book, [*class, *host])),
        Call::Pool { request: PoolRequest::Trim, class, host } => one_block(plain_trim(book, [*class, *host])),
        Call::Pool { request: PoolRequest::Free(block), class, host } => {
            match plain_free(book, [*class, *host], *block) {
                0 => Answer::Freed,
                number => refusal(number, true),
            }
        }
        Call::Look(look) => Answer::Told(plain_look(book, *look)),
    }
}

/// Release and group lists are only read.
fn only_read(answer: Answer, lists: &[(&[Word], &Vec<Word>)]) -> Answer {
    match lists.iter().all(|(after, before)| after == before) {
        true => answer,
        false => Answer::Broken("a list that is only read has changed".into()),
    }
}

/// What stands in an out-parameter before a call.
const UNTOUCHED: u32 = 0xDEAD_BEEF;
const UNTOUCHED_FIGURE: u64 = 0xDEAD_BEEF_DEAD_BEEF;

/// A refusal: its number is one of the papers' for calls of a history, and nothing that was lent has changed.
fn refusal(number: u32, unchanged: bool) -> Answer {
    match (number, unchanged) {
        (1..=13 | 15, true) => Answer::Refused(number),
        (1..=13 | 15, false) => {
            Answer::Broken(format!("refused as {number}, yet a lent list or an out-parameter changed"))
        }
        _ => Answer::Broken(format!("returned {number}")),
    }
}

fn yes_or_no(name: &str, value: u32, answer: impl FnOnce(bool) -> Answer) -> Answer {
    match value {
        0 | 1 => answer(value == 1),
        _ => Answer::Broken(format!("{name} is {value}")),
    }
}

/// What is returned, count and virgin.
#[inline]
pub fn plain_take(book: &mut [u32], family: Family, [class, host]: [u32; 2], list: &mut [Word]) -> [u32; 3] {
    let (mut count, mut virgin) = (UNTOUCHED, UNTOUCHED);
    let ask = match family {
        Family::Small => vigbuso_take_blocks,
        Family::Medium => vigbuso_medium_take_blocks,
    };
    let (words, len) = (book.len(), list.len());
    // SAFETY: slices and out-parameters are lent for the call.
    let number = unsafe { ask(book.as_mut_ptr(), words, class, host, list.as_mut_ptr(), len, &mut count, &mut virgin) };
    [number, count, virgin]
}

fn take(book: &mut [u32], family: Family, class_and_host: [u32; 2], list: &mut [Word], lent: &Lent<Word>) -> Answer {
    let [number, count, virgin] = plain_take(book, family, class_and_host, list);
    let kept = |from: usize| list[from..].iter().all(|&entry| entry == lent.fill);
    if number != 0 {
        return refusal(number, kept(0) && count == UNTOUCHED && virgin == UNTOUCHED);
    }
    let count = count as usize;
    if count > list.len() || !kept(count) {
        return Answer::Broken(format!("count {count}, and an entry past it changed or the list is shorter"));
    }
    yes_or_no("virgin", virgin, |virgin| Answer::Taken { virgin, words: list[..count].to_vec() })
}

/// What is returned, and the fate.
#[inline]
pub fn plain_release_blocks(book: &mut [u32], family: Family, [class, host]: [u32; 2], list: &[Word]) -> [u32; 2] {
    let mut fate = UNTOUCHED;
    let ask = match family {
        Family::Small => vigbuso_release_blocks,
        Family::Medium => vigbuso_medium_release_blocks,
    };
    // SAFETY: slices and out-parameters are lent for the call.
    let number = unsafe { ask(book.as_mut_ptr(), book.len(), class, host, list.as_ptr(), list.len(), &mut fate) };
    [number, fate]
}

fn release_blocks(book: &mut [u32], family: Family, class_and_host: [u32; 2], list: &[Word]) -> Answer {
    match plain_release_blocks(book, family, class_and_host, list) {
        [0, fate] => Answer::Fate(fate),
        [number, fate] => refusal(number, fate == UNTOUCHED),
    }
}

/// What is returned.
#[inline]
pub fn plain_release_chunks(
    book: &mut [u32],
    [class, host]: [u32; 2],
    list: &[Word],
    chunks: &[Word],
    fates: &mut [u32],
) -> u32 {
    // SAFETY: slices are lent for the call.
    unsafe {
        vigbuso_release_bin_chunks(
            book.as_mut_ptr(),
            book.len(),
            class,
            host,
            list.as_ptr(),
            list.len(),
            chunks.as_ptr(),
            chunks.len(),
            fates.as_mut_ptr(),
            fates.len(),
        )
    }
}

fn release_chunks(
    book: &mut [u32],
    class_and_host: [u32; 2],
    list: &[Word],
    chunks: &[Word],
    fates: &mut [u32],
    lent: &Lent<u32>,
) -> Answer {
    let number = plain_release_chunks(book, class_and_host, list, chunks, fates);
    let kept = |from: usize| fates[from..].iter().all(|&entry| entry == lent.fill);
    if number != 0 {
        return refusal(number, kept(0));
    }
    if chunks.len() > fates.len() || !kept(chunks.len()) {
        return Answer::Broken("an entry past the groups' fates changed, or the fate list is shorter".into());
    }
    Answer::Fates(fates[..chunks.len()].to_vec())
}

/// What is returned, first page and fresh.
#[inline]
pub fn plain_commit(book: &mut [u32], host: u32, pages: u64) -> [u32; 3] {
    let (mut first, mut fresh) = (UNTOUCHED, UNTOUCHED);
    // SAFETY: the book and the out-parameters are lent for the call.
    let number = unsafe { vigbuso_commit(book.as_mut_ptr(), book.len(), host, pages, &mut first, &mut fresh) };
    [number, first, fresh]
}

fn commit(book: &mut [u32], host: u32, pages: u64) -> Answer {
    match plain_commit(book, host, pages) {
        [0, NO_PAGE, 0] => Answer::NoRun,
        [0, NO_PAGE, fresh] => Answer::Broken(format!("no run, yet fresh is {fresh}")),
        [0, first, fresh] => yes_or_no("fresh", fresh, |fresh| Answer::Run { first, fresh }),
        [number, first, fresh] => refusal(number, first == UNTOUCHED && fresh == UNTOUCHED),
    }
}

fn grow(book: &mut [u32], host: u32, [first, old, new]: [u64; 3]) -> Answer {
    let mut grown = UNTOUCHED;
    // SAFETY: the book and the out-parameter are lent for the call.
    let number = unsafe { vigbuso_grow_frontier(book.as_mut_ptr(), book.len(), host, first, old, new, &mut grown) };
    match number {
        0 => yes_or_no("grown", grown, Answer::Grown),
        _ => refusal(number, grown == UNTOUCHED),
    }
}

/// What is returned.
#[inline]
pub fn plain_release(book: &mut [u32], host: u32, first: u64, pages: u64) -> u32 {
    // SAFETY: the book is lent for the call.
    unsafe { vigbuso_release(book.as_mut_ptr(), book.len(), host, first, pages) }
}

fn release(book: &mut [u32], host: u32, first: u64, pages: u64) -> Answer {
    match plain_release(book, host, first, pages) {
        0 => Answer::Released,
        number => refusal(number, true),
    }
}

fn contains(book: &[u32], offset: u64, length: u64) -> Answer {
    // SAFETY: the book is lent for the call, to be read.
    let answer = unsafe { vigbuso_contains(book.as_ptr(), book.len(), offset, length) };
    yes_or_no("contains", answer, Answer::Contains)
}

/// What is returned, and the figures: commits, reuses, abandoned, pages held, idle pages, pages that are both.
#[inline]
pub fn plain_report(book: &[u32]) -> (u32, [u64; FIGURES]) {
    let mut figures = [UNTOUCHED_FIGURE; FIGURES];
    // SAFETY: the book is lent for the call, to be read, and the figures to be written.
    let number = unsafe { vigbuso_report(book.as_ptr(), book.len(), figures.as_mut_ptr()) };
    (number, figures)
}

fn report(book: &[u32]) -> Answer {
    match plain_report(book) {
        (0, figures) => Answer::Report(figures),
        (number, figures) => refusal(number, figures == [UNTOUCHED_FIGURE; FIGURES]),
    }
}

/// What is returned, and the block.
#[inline]
pub fn plain_alloc(book: &mut [u32], [class, host]: [u32; 2]) -> (u32, Word) {
    let mut block = UNTOUCHED_FIGURE;
    // SAFETY: the book and the out-parameter are lent for the call.
    let number = unsafe { vigbuso_alloc(book.as_mut_ptr(), book.len(), class, host, &mut block) };
    (number, block)
}

/// What is returned, and the block.
#[inline]
pub fn plain_trim(book: &mut [u32], [class, host]: [u32; 2]) -> (u32, Word) {
    let mut block = UNTOUCHED_FIGURE;
    // SAFETY: the book and the out-parameter are lent for the call.
    let number = unsafe { vigbuso_trim(book.as_mut_ptr(), book.len(), class, host, &mut block) };
    (number, block)
}

/// What is returned.
#[inline]
pub fn plain_free(book: &mut [u32], [class, host]: [u32; 2], block: Word) -> u32 {
    // SAFETY: the book is lent for the call.
    unsafe { vigbuso_free(book.as_mut_ptr(), book.len(), class, host, block) }
}

/// What is returned.
#[inline]
pub fn plain_look(book: &[u32], look: Look) -> u32 {
    let (first, words) = (book.as_ptr(), book.len());
    // SAFETY: the book is lent for the call, to be read.
    unsafe {
        match look {
            Look::ClassOf(block) => vigbuso_class_of(first, words, block),
            Look::Granted { class, block } => vigbuso_granted(first, words, class, block),
            Look::Stocked { class } => vigbuso_stocked(first, words, class),
        }
    }
}

fn one_block((number, block): (u32, Word)) -> Answer {
    match number {
        0 => Answer::Block(block),
        _ => refusal(number, block == UNTOUCHED_FIGURE),
    }
}
