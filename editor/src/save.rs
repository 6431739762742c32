//! Heaps, pools and regions as bytes, and back.
//!
//! | bytes | what |
//! |---|---|
//! | 0 to 7 | [`MAGIC`] |
//! | 8 to 11 | the format, [`FORMAT`] |
//! | 12 to 15 | what it is a save of: [`Content`] |
//! | 16 to 23 | its length in bytes |
//! | 24 to 31 | the arena's pages |
//! | 32 to 35 | the host word |
//! | 36 on | the book's words below the frontier; of a region then the granules' marks there and the records' bytes |
//! | the last 8 | the checksum of all before |
//!
//! Numbers have their low byte first. Words are there in stretches: the place of the first and how many, 8 bytes each, then the words.
//! Stretches of zeroes are left out, and one of no words ends them.

use alloc::vec::Vec;

use crate::book::{frontier, is_zero};
use crate::ffi::Unsigned;
use crate::heap::{book_words, own_words, zeroes};
use crate::{Heap, Host, LoadError, OpenError, Pool, Record};

const MAGIC: [u8; 8] = *b"vigbuso\x1a";
const FORMAT: u32 = 2;

/// Bytes before the words, and the checksum's behind them.
const HEAD: usize = 36;
const CHECKSUM: usize = 8;
const LENGTH: core::ops::Range<usize> = 16..24;

/// Words that are there, or left out, together.
const CHUNK: usize = 16;

/// What a save is of.
#[derive(Clone, Copy, PartialEq)]
pub(crate) enum Content {
    Heap = 1,
    Pool = 2,
    Region = 3,
}

/// A save that is being written.
pub(crate) struct Writer {
    bytes: Vec<u8>,
}

impl Writer {
    pub(crate) fn new<B: AsRef<[u32]> + AsMut<[u32]>>(content: Content, heap: &Heap<B>) -> Writer {
        let mut writer = Writer { bytes: MAGIC.to_vec() };
        writer.number(&FORMAT);
        writer.number(&(content as u32));
        writer.number(&0_u64); // the length, when it is known
        writer.number(&heap.pages());
        writer.number(&heap.host().bits());
        let used = book_words(frontier(heap.book()).min(heap.pages()));
        writer.words(heap.book().get(..used).unwrap_or(heap.book()));
        writer
    }

    fn number<T: Record>(&mut self, number: &T) {
        let end = self.bytes.len();
        self.bytes.resize(end + T::BYTES, 0);
        number.write(&mut self.bytes[end..]);
    }

    /// Those that are not 0, by stretches.
    pub(crate) fn words<T: Unsigned + Record>(&mut self, words: &[T]) {
        let mut place = 0;
        let chunks: Vec<&[T]> = words.chunks(CHUNK).collect();
        for stretch in chunks.chunk_by(|a, b| is_zero(a) == is_zero(b)) {
            let count = stretch.iter().map(|chunk| chunk.len()).sum::<usize>();
            if !is_zero(stretch[0]) {
                self.number(&[place as u64, count as u64]);
                words[place..place + count].iter().for_each(|word| self.number(word));
            }
            place += count;
        }
        self.number(&[0_u64; 2]);
    }

    pub(crate) fn bytes(&mut self, bytes: &[u8]) {
        self.bytes.extend_from_slice(bytes);
    }

    pub(crate) fn finish(mut self) -> Vec<u8> {
        let length = (self.bytes.len() + CHECKSUM) as u64;
        length.write(&mut self.bytes[LENGTH]);
        let sum = checksum(&self.bytes);
        self.number(&sum);
        self.bytes
    }
}

/// A save that is being read: what is left of it.
pub(crate) struct Reader<'a> {
    bytes: &'a [u8],
    pages: u64,
}

impl<'a> Reader<'a> {
    /// The save of a content, whole and unchanged.
    fn new(content: Content, bytes: &'a [u8]) -> Result<Reader<'a>, LoadError> {
        if bytes.get(..MAGIC.len()) != Some(&MAGIC) {
            // A save that is cut within its first bytes begins as one nevertheless.
            return Err(if MAGIC.starts_with(bytes) { LoadError::Cut } else { LoadError::NotASave });
        }
        let mut reader = Reader { bytes: &bytes[MAGIC.len()..], pages: 0 };
        let format: u32 = reader.number().ok_or(LoadError::Cut)?;
        if format != FORMAT {
            return Err(LoadError::Format(format));
        }
        let found: u32 = reader.number().ok_or(LoadError::Cut)?;
        let length: u64 = reader.number().ok_or(LoadError::Cut)?;
        if length > bytes.len() as u64 || bytes.len() < HEAD + CHECKSUM {
            return Err(LoadError::Cut);
        }
        let (body, sum) = bytes.split_at(bytes.len() - CHECKSUM);
        if length < bytes.len() as u64 || checksum(body) != u64::read(sum) {
            return Err(LoadError::Changed);
        }
        if found != content as u32 {
            return Err(LoadError::Content);
        }
        reader.bytes = &body[LENGTH.end..];
        reader.pages = reader.number().ok_or(LoadError::Damaged)?;
        Ok(reader)
    }

    /// The next bytes.
    pub(crate) fn bytes(&mut self, count: usize) -> Option<&'a [u8]> {
        let (bytes, rest) = self.bytes.split_at_checked(count)?;
        self.bytes = rest;
        Some(bytes)
    }

    fn number<T: Record>(&mut self) -> Option<T> {
        self.bytes(T::BYTES).map(T::read)
    }

    /// The words that were written by stretches, into words of 0.
    pub(crate) fn words<T: Unsigned + Record>(&mut self, words: &mut [T]) -> Option<()> {
        loop {
            let place = usize::try_from(self.number::<u64>()?).ok()?;
            let count = usize::try_from(self.number::<u64>()?).ok()?;
            if count == 0 {
                return Some(());
            }
            let bytes = self.bytes(count.checked_mul(T::BYTES)?)?;
            let stretch = words.get_mut(place..place.checked_add(count)?)?;
            for (word, bytes) in stretch.iter_mut().zip(bytes.chunks_exact(T::BYTES)) {
                *word = T::read(bytes);
            }
        }
    }

    /// The heap, its pool's stocks as they were.
    fn heap(&mut self) -> Result<Heap, LoadError> {
        let host = self.number().and_then(Host::from_bits).ok_or(LoadError::Damaged)?;
        let mut book = zeroes(own_words(self.pages)).map_err(LoadError::no_memory)?;
        self.words(&mut book).ok_or(LoadError::Damaged)?;
        let mut heap = Heap::resume_stocked(book).map_err(LoadError::Refused)?;
        heap.set_host(host);
        if heap.pages() == self.pages {
            Ok(heap)
        } else {
            Err(LoadError::Damaged)
        }
    }

    /// Nothing is left.
    pub(crate) fn end(&self) -> Result<(), LoadError> {
        if self.bytes.is_empty() {
            Ok(())
        } else {
            Err(LoadError::Damaged)
        }
    }
}

/// A change of up to eight bytes side by side always gives another sum: each step is one to one in the sum and in the word.
fn checksum(bytes: &[u8]) -> u64 {
    let step = |sum: u64, word: u64| {
        let mixed = (sum ^ word).wrapping_mul(0x9e37_79b9_7f4a_7c15);
        mixed ^ mixed >> 32
    };
    let words = bytes.chunks_exact(u64::BYTES);
    let mut rest = [0; u64::BYTES];
    rest[..words.remainder().len()].copy_from_slice(words.remainder());
    let sum = words.map(u64::read).fold(bytes.len() as u64, step);
    step(sum, u64::read(&rest))
}

impl<B: AsRef<[u32]> + AsMut<[u32]>> Heap<B> {
    /// The heap as bytes, to be kept in a file: what pages below the frontier have, without the zeroes. [`Heap::load`] has it back.
    ///
    /// ```
    /// use vigbuso::{Class, Heap};
    ///
    /// let mut heap = Heap::open(64)?;
    /// let class = Class::for_size(24).unwrap();
    /// let blocks = heap.take(class)?;
    /// let mut again = Heap::load(&heap.save())?;
    /// assert_eq!(again, heap);
    /// again.release(class, &blocks)?;
    /// # Ok::<(), vigbuso::Error>(())
    /// ```
    #[must_use]
    pub fn save(&self) -> Vec<u8> {
        Writer::new(Content::Heap, self).finish()
    }
}

impl Heap {
    /// The heap that was [saved](Heap::save). Its bytes are not trusted: what was cut or changed is found out, and a book that was
    /// forged, its checksum too, makes no call unsafe: it is as any damaged book.
    ///
    /// ```
    /// use vigbuso::{Heap, LoadError};
    ///
    /// let mut saved = Heap::open(64)?.save();
    /// assert_eq!(Heap::load(&saved[..40]), Err(LoadError::Cut));
    /// saved[40] ^= 1;
    /// assert_eq!(Heap::load(&saved), Err(LoadError::Changed));
    /// # Ok::<(), vigbuso::Error>(())
    /// ```
    ///
    /// # Errors
    ///
    /// Any [`LoadError`].
    pub fn load(bytes: &[u8]) -> Result<Heap, LoadError> {
        let mut reader = Reader::new(Content::Heap, bytes)?;
        let mut heap = reader.heap()?;
        heap.flush().map_err(LoadError::Refused)?;
        reader.end().map(|()| heap)
    }
}

impl<B: AsRef<[u32]> + AsMut<[u32]>> Pool<B> {
    /// The pool as bytes, to be kept in a file: what was granted is granted there, and what is in stock is in stock. [`Pool::load`]
    /// has it back. The arena's bytes are the caller's own; [`Region::save`](crate::Region::save) has both.
    ///
    /// ```
    /// use vigbuso::Pool;
    ///
    /// let mut pool = Pool::open(64)?;
    /// let block = pool.alloc(100)?;
    /// let mut again = Pool::load(&pool.save())?;
    /// assert_eq!(again, pool);
    /// again.free(block)?;
    /// assert!(again.free(block).is_err());
    /// # Ok::<(), vigbuso::Error>(())
    /// ```
    #[must_use]
    pub fn save(&self) -> Vec<u8> {
        Writer::new(Content::Pool, self.heap()).finish()
    }
}

impl Pool {
    /// The pool that was [saved](Pool::save). Its bytes are not trusted, as [`Heap::load`] does not trust them.
    ///
    /// ```
    /// use vigbuso::{Heap, LoadError, Pool};
    ///
    /// assert_eq!(Pool::load(b"a text"), Err(LoadError::NotASave));
    /// assert_eq!(Pool::load(&Heap::open(64)?.save()), Err(LoadError::Content));
    /// # Ok::<(), vigbuso::Error>(())
    /// ```
    ///
    /// # Errors
    ///
    /// Any [`LoadError`].
    pub fn load(bytes: &[u8]) -> Result<Pool, LoadError> {
        let (pool, reader) = Pool::read(Content::Pool, bytes)?;
        reader.end().map(|()| pool)
    }

    /// The pool that a save begins with, and the rest.
    pub(crate) fn read(content: Content, bytes: &[u8]) -> Result<(Pool, Reader<'_>), LoadError> {
        let mut reader = Reader::new(content, bytes)?;
        Ok((Pool::from(reader.heap()?), reader))
    }
}

impl LoadError {
    pub(crate) fn no_memory(error: OpenError) -> LoadError {
        match error {
            OpenError::NoMemory { bytes } => LoadError::NoMemory { bytes },
            OpenError::Refused(refusal) => LoadError::Refused(refusal),
        }
    }
}
