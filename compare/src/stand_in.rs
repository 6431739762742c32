//! The original behind the port's C functions, as a shared library. What calls these functions runs on it too: the editor's
//! tests, which so hold for the original as well, and `wrong_rules.py`, which changes the original's source first.
//!
//! It holds one heap for each thread, and one thread at a time: an opening waits until the former thread is gone. The book
//! says nothing here but the arena's length.

// The modules are the tool's; some of what they have is not used here.
#![allow(dead_code)]

mod call;
mod history;
mod ledger;
mod memory;
mod oracle;
mod parking;
mod planned;
mod random;
mod reference;
mod sizes;
mod stocks;
mod words;

use std::cell::RefCell;
use std::ffi::{c_char, CStr};
use std::slice;
use std::sync::{Mutex, MutexGuard};

use call::{Answer, Call, Lent, Look, PoolRequest};
use planned::{planned, Planned};
use reference::Reference;
use sizes::{original, size_class};
use words::{book_words, Family, Word, FIGURES, MAX_PAGES, NO_PAGE};

/// The original has one arena for the process.
static ORIGINAL: Mutex<()> = Mutex::new(());

struct Heap {
    book: *const u32,
    reference: Reference,
    _alone: MutexGuard<'static, ()>,
}

thread_local! {
    static HEAP: RefCell<Option<Heap>> = const { RefCell::new(None) };
}

fn open(book: *const u32, pages: u32, rows: &[u32]) {
    HEAP.with(|heap| {
        // The former one lets the original go first.
        *heap.borrow_mut() = None;
        let alone = ORIGINAL.lock().unwrap_or_else(|poisoned| poisoned.into_inner());
        *heap.borrow_mut() = Some(Heap { book, reference: Reference::open(pages, rows), _alone: alone });
    });
}

fn ask(book: *const u32, call: Call) -> Answer {
    HEAP.with(|heap| {
        let mut heap = heap.borrow_mut();
        let heap = heap.as_mut().expect("an opening comes first");
        assert!(heap.book == book, "the calls after an opening are on its book");
        heap.reference.answer(&call)
    })
}

/// What a function returns. `write` has the answer of a call that is not refused.
fn returned(answer: Answer, write: impl FnOnce(Answer)) -> u32 {
    match answer {
        Answer::Refused(number) => number,
        answer => {
            write(answer);
            0
        }
    }
}

unsafe fn list<T: Copy>(words: *const T, len: usize) -> Vec<T> {
    match len {
        0 => Vec::new(),
        _ => slice::from_raw_parts(words, len).to_vec(),
    }
}

#[no_mangle]
pub unsafe extern "C" fn vigbuso_size_class(size: u64, class: *mut u32) -> u32 {
    // Which of the original's two lookups answers is document 02's rule.
    let Some((family, _)) = size_class(size) else {
        return 0;
    };
    class.write(original(family, size));
    family.kind()
}

#[no_mangle]
pub unsafe extern "C" fn vigbuso_plan(
    sizes: *const u32,
    sizes_len: usize,
    takes: *const u32,
    takes_len: usize,
    total: *mut u64,
) -> u32 {
    match planned(&list(sizes, sizes_len), &list(takes, takes_len)) {
        Planned::Refused(number) => number,
        Planned::Pages(pages) => {
            total.write(pages);
            0
        }
    }
}

#[no_mangle]
pub unsafe extern "C" fn vigbuso_open(
    book: *mut u32,
    words: usize,
    pages: u64,
    rows: *const u32,
    rows_len: usize,
) -> u32 {
    if pages == 0 || pages > u64::from(MAX_PAGES) {
        return 1;
    }
    if words < book_words(pages as u32) {
        return 2;
    }
    let rows = list(rows, rows_len);
    if let Some(number) = parking::refusal(&rows) {
        return number;
    }
    book.write(pages as u32);
    open(book, pages as u32, &rows);
    0
}

#[no_mangle]
pub unsafe extern "C" fn vigbuso_commit(
    book: *mut u32,
    _words: usize,
    host: u32,
    pages: u64,
    first: *mut u32,
    fresh: *mut u32,
) -> u32 {
    returned(ask(book, Call::Commit { host, pages }), |answer| {
        let (page, new) = match answer {
            Answer::Run { first, fresh } => (first, fresh),
            _ => (NO_PAGE, false),
        };
        first.write(page);
        fresh.write(u32::from(new));
    })
}

#[no_mangle]
pub unsafe extern "C" fn vigbuso_grow_frontier(
    book: *mut u32,
    _words: usize,
    host: u32,
    first: u64,
    old: u64,
    new: u64,
    grown: *mut u32,
) -> u32 {
    returned(ask(book, Call::Grow { host, first, old, new }), |answer| {
        grown.write(u32::from(answer == Answer::Grown(true)));
    })
}

#[no_mangle]
pub unsafe extern "C" fn vigbuso_release(book: *mut u32, _words: usize, host: u32, first: u64, pages: u64) -> u32 {
    returned(ask(book, Call::Release { host, first, pages }), drop)
}

#[no_mangle]
pub unsafe extern "C" fn vigbuso_contains(book: *const u32, _words: usize, offset: u64, length: u64) -> u32 {
    u32::from(ask(book, Call::Contains { offset, length }) == Answer::Contains(true))
}

#[no_mangle]
pub unsafe extern "C" fn vigbuso_report(book: *const u32, _words: usize, figures: *mut u64) -> u32 {
    returned(ask(book, Call::Report), |answer| {
        let Answer::Report(seen) = answer else { unreachable!("a report answers figures") };
        figures.cast::<[u64; FIGURES]>().write(seen);
    })
}

unsafe fn take(book: *const u32, call: Call, entries: *mut Word, count: *mut u32, virgin: *mut u32) -> u32 {
    returned(ask(book, call), |answer| {
        let Answer::Taken { words, virgin: clean } = answer else { unreachable!("a take answers blocks") };
        entries.copy_from(words.as_ptr(), words.len());
        count.write(words.len() as u32);
        virgin.write(u32::from(clean));
    })
}

#[no_mangle]
pub unsafe extern "C" fn vigbuso_take_blocks(
    book: *mut u32,
    _words: usize,
    class: u32,
    host: u32,
    entries: *mut Word,
    len: usize,
    count: *mut u32,
    virgin: *mut u32,
) -> u32 {
    let call = Call::Take { family: Family::Small, class, host, lent: Lent { len, fill: 0 } };
    take(book, call, entries, count, virgin)
}

#[no_mangle]
pub unsafe extern "C" fn vigbuso_medium_take_blocks(
    book: *mut u32,
    _words: usize,
    class: u32,
    host: u32,
    entries: *mut Word,
    len: usize,
    count: *mut u32,
    virgin: *mut u32,
) -> u32 {
    let call = Call::Take { family: Family::Medium, class, host, lent: Lent { len, fill: 0 } };
    take(book, call, entries, count, virgin)
}

unsafe fn release(book: *const u32, call: Call, fate: *mut u32) -> u32 {
    returned(ask(book, call), |answer| {
        let Answer::Fate(seen) = answer else { unreachable!("a release answers a fate") };
        fate.write(seen);
    })
}

#[no_mangle]
pub unsafe extern "C" fn vigbuso_release_blocks(
    book: *mut u32,
    _words: usize,
    class: u32,
    host: u32,
    blocks: *const Word,
    len: usize,
    fate: *mut u32,
) -> u32 {
    release(book, Call::ReleaseBlocks { family: Family::Small, class, host, list: list(blocks, len) }, fate)
}

#[no_mangle]
pub unsafe extern "C" fn vigbuso_medium_release_blocks(
    book: *mut u32,
    _words: usize,
    class: u32,
    host: u32,
    blocks: *const Word,
    len: usize,
    fate: *mut u32,
) -> u32 {
    release(book, Call::ReleaseBlocks { family: Family::Medium, class, host, list: list(blocks, len) }, fate)
}

#[no_mangle]
pub unsafe extern "C" fn vigbuso_release_bin_chunks(
    book: *mut u32,
    _words: usize,
    class: u32,
    host: u32,
    blocks: *const Word,
    len: usize,
    chunks: *const Word,
    number: usize,
    fates: *mut u32,
    room: usize,
) -> u32 {
    let (list, chunks) = (list(blocks, len), list(chunks, number));
    let call = Call::ReleaseChunks { class, host, list, chunks, lent: Lent { len: room, fill: 0 } };
    returned(ask(book, call), |answer| {
        let Answer::Fates(seen) = answer else { unreachable!("groups answer fates") };
        fates.copy_from(seen.as_ptr(), seen.len());
    })
}

unsafe fn pool(book: *const u32, class: u32, host: u32, request: PoolRequest, block: *mut Word) -> u32 {
    returned(ask(book, Call::Pool { request, class, host }), |answer| {
        if let Answer::Block(word) = answer {
            block.write(word);
        }
    })
}

#[no_mangle]
pub unsafe extern "C" fn vigbuso_alloc(book: *mut u32, _words: usize, class: u32, host: u32, block: *mut Word) -> u32 {
    pool(book, class, host, PoolRequest::Alloc, block)
}

#[no_mangle]
pub unsafe extern "C" fn vigbuso_free(book: *mut u32, _words: usize, class: u32, host: u32, block: Word) -> u32 {
    pool(book, class, host, PoolRequest::Free(block), std::ptr::null_mut())
}

#[no_mangle]
pub unsafe extern "C" fn vigbuso_trim(book: *mut u32, _words: usize, class: u32, host: u32, block: *mut Word) -> u32 {
    pool(book, class, host, PoolRequest::Trim, block)
}

fn look(book: *const u32, look: Look) -> u32 {
    let Answer::Told(told) = ask(book, Call::Look(look)) else { unreachable!("a look is told") };
    told
}

#[no_mangle]
pub unsafe extern "C" fn vigbuso_class_of(book: *const u32, _words: usize, block: Word) -> u32 {
    look(book, Look::ClassOf(block))
}

#[no_mangle]
pub unsafe extern "C" fn vigbuso_granted(book: *const u32, _words: usize, class: u32, block: Word) -> u32 {
    look(book, Look::Granted { class, block })
}

#[no_mangle]
pub unsafe extern "C" fn vigbuso_stocked(book: *const u32, _words: usize, class: u32) -> u32 {
    look(book, Look::Stocked { class })
}

/// The tests refer to it; those that call it look at words of the book, and are not run here.
#[no_mangle]
pub extern "C" fn vigbuso_trace() -> u32 {
    unreachable!("the original has no trace")
}

/// The stored histories of a file, asked of the original: 0 if it answers as they say, 1 if not, and then the first call
/// that differs is printed; 2 if the file cannot be read.
#[no_mangle]
pub unsafe extern "C" fn stand_in_replay(file: *const c_char) -> u32 {
    let file = CStr::from_ptr(file).to_string_lossy().into_owned();
    let histories = match std::fs::read_to_string(&file)
        .map_err(|error| error.to_string())
        .and_then(|text| history::parse(&text))
    {
        Ok(histories) => histories,
        Err(error) => {
            println!("{file}: {error}");
            return 2;
        }
    };
    for (at, history) in histories.iter().enumerate() {
        let mut reference = Reference::open(history.pages, &history.rows);
        for (call, due) in &history.calls {
            let got = reference.answer(call);
            if got != *due {
                println!("history {}: {}", at + 1, history::line(call, due));
                println!("answered: {}", history::line(call, &got));
                return 1;
            }
        }
    }
    0
}
