//! The block heap Vigbuso, for Rust.
//!
//! A heap decides which bytes of one big arena belong to which of a program's many small records.
//!
//! A [`Region`] has the arena, deals it out, and has the records: bytes go in, a [`Handle`] comes out.
//!
//! ```
//! use vigbuso::{Error, Region};
//!
//! let mut region = Region::open(64)?; // 64 pages of 64 KiB
//! let record = region.alloc(b"a record with 24 letters")?;
//! assert_eq!(&region[record][..8], b"a record");
//! region.free(record)?;
//! assert_eq!(region.get(record), None); // and so for good, whatever stands there now
//! assert_eq!(region.free(record), Err(Error::Stale(record)));
//! # Ok::<(), Error>(())
//! ```
//!
//! A [`Store`] has values of one type in a region, by typed handles. All of it is kept in a file and gone on with:
//! [`Region::save`], [`Region::load`].
//!
//! Below a region is a [`Pool`]. It hands out [`Block`]s one by one, which only say from which byte on a record may stand: it never
//! reads or writes the arena's bytes, which stand wherever the caller keeps them, for example in a `Vec<u8>`.
//!
//! ```
//! use vigbuso::{Pool, PAGE_BYTES};
//!
//! let mut arena = vec![0; 64 * PAGE_BYTES];
//! let mut pool = Pool::open(64)?;
//! let record = b"the record of this block";
//! let block = pool.alloc(record.len())?;
//! arena[block.range(record.len())].copy_from_slice(record);
//! pool.free(block)?;
//! println!("{}", pool.report()?);
//! # Ok::<(), vigbuso::Error>(())
//! ```
//!
//! Below a pool is a [`Heap`]. It hands blocks out in batches and has them back in lists:
//!
//! ```
//! use vigbuso::{Class, Heap};
//!
//! let mut heap = Heap::open(64)?;
//! let class = Class::for_size(24).expect("at most 65,472 bytes");
//! let mut blocks = heap.take(class)?; // 64 of them, 32 bytes each
//! heap.release_all(class, &mut blocks)?;
//! println!("{}", heap.report()?);
//! # Ok::<(), vigbuso::Error>(())
//! ```
//!
//! Both may be used on one arena, in any mixture and for the same sizes: a pool [lends its heap](Pool::heap_mut).
//!
//! ```
//! use vigbuso::{Class, Pool};
//!
//! let mut pool = Pool::open(64)?;
//! let class = Class::for_size(24).expect("at most 65,472 bytes");
//! let name = pool.alloc(24)?;
//! let mut records = pool.heap_mut().take(class)?; // 64 others of 32 bytes
//! assert!(pool.heap_mut().release(class, &[name]).is_err() && pool.free(records[0]).is_err());
//! pool.heap_mut().release_all(class, &mut records)?;
//! pool.free(name)?;
//! # Ok::<(), vigbuso::Error>(())
//! ```
//!
//! Every call of the library on a heap is a method of [`Heap`] or [`Pool`]; the size lookup is [`Class::for_size`]. [`plan`] works out,
//! before a large fill, how many pages it needs, and [`Heap::from_trace`], after one, what figures its [`Trace`] comes to. Beside the
//! heap are [`class_table`], [`asker_wins`] and [`short_histories`], which lists all that can happen in a few direct calls: those that
//! ask for whole runs of pages and give them back ([`Heap::commit`]). A call with bad arguments changes nothing and answers a
//! [`Refusal`]; only a trace that [stopped](Refusal::Stopped) leaves what it had done. Every error of this crate becomes an [`Error`].
//!
//! | arena | blocks in batches | blocks one by one |
//! |---|---|---|
//! | [`Heap::open`], [`Heap::open_with`] (parking [`Rules`] of its own), [`Heap::on`], [`Heap::reopen`], [`Heap::resume`] | [`Heap::take`] | [`Pool::alloc`] |
//! | [`Heap::report`], [`Heap::contains`] | [`Heap::release`], [`Heap::release_all`] | [`Pool::free`], [`Pool::free_in`] |
//! | [`Heap::commit`], [`Heap::grow_frontier`], [`Heap::release_run`] | [`Heap::release_chunks`] | [`Pool::flush`] |
//!
//! The code behind the methods of [`Heap`] and [`Pool`] is proved: what each call answers and leaves behind is a definition, and the
//! library is built only if the code does just that. So it is proved, of every history of calls, that a block in use is never handed
//! out again, and that just the blocks granted and not yet freed can be freed. This crate itself is not proved but tested: the types
//! over those calls, [`Region`] and [`Store`] on top, and saves; what can be misused, in debug and in release builds. Document 01,
//! which the comments cite, is the paper that states the heap's rules; `docs/CALLS.md` of the repository describes the C functions
//! and which of them may change places, `docs/DEMANDS.md` what is proved of them.
//!
//! The crate needs no `std`, only `alloc`.
#![no_std]
#![deny(missing_docs, unsafe_code, unsafe_op_in_unsafe_fn)]

extern crate alloc;
#[cfg(test)]
extern crate std;

mod arena;
mod block;
mod book;
mod chunk;
mod class;
mod error;
mod fate;
#[allow(unsafe_code)]
mod ffi;
mod game;
mod handle;
mod heap;
mod host;
mod listing;
mod plan;
mod pool;
mod record;
mod refusal;
mod region;
mod release;
mod report;
mod rules;
mod run;
mod save;
mod store;
mod table;
mod taken;
mod trace;

pub use block::{Block, Kind, Word};
pub use chunk::Chunk;
pub use class::Class;
pub use error::{AllocError, Error, FreeError, LoadError, OpenError, ReleaseError};
pub use fate::Fate;
pub use game::asker_wins;
pub use handle::Handle;
pub use heap::{book_words, Heap, MAX_PAGES};
pub use host::Host;
pub use listing::{short_histories, DirectCall, ShortHistories};
pub use plan::plan;
pub use pool::{Pool, PoolReport};
pub use record::Record;
pub use refusal::Refusal;
pub use region::{Records, Region};
pub use report::Report;
pub use rules::Rules;
pub use run::{Committed, Run};
pub use store::{Keep, KeepMut, Store};
pub use table::{class_table, Growth};
pub use taken::{Taken, BATCH};
pub use trace::{Done, Figures, Say, Trace, TraceError, Traced};

/// Bytes of a page.
///
/// ```
/// assert_eq!(vigbuso::PAGE_BYTES, 64 * 1024);
/// ```
pub const PAGE_BYTES: usize = 65_536;

/// Bytes of a granule: every block starts at a multiple of it.
///
/// ```
/// # use vigbuso::{Class, Heap, GRANULE_BYTES};
/// let blocks = Heap::open(1)?.take(Class::for_size(100).unwrap())?;
/// assert!(blocks.iter().all(|block| block.range(100).start % GRANULE_BYTES == 0));
/// # Ok::<(), vigbuso::Refusal>(())
/// ```
pub const GRANULE_BYTES: usize = 16;

/// The README's example, tested as it stands there.
#[cfg(doctest)]
#[doc = include_str!("../README.md")]
struct Readme;
