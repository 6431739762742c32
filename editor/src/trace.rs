//! Traces: takes, releases and reports as words (document 02, A.7).

use alloc::vec;
use alloc::vec::Vec;
use core::fmt;

use crate::heap::own_words;
use crate::{ffi, Block, Class, Heap, Refusal, BATCH};

/// Bits of a trace's word below its kind. A trace's words have 32 bits, whatever a [`Word`](crate::Word) has.
const NUMBER_BITS: u32 = 30;

/// What a word of a trace says: the kind is in its top two bits, a number below them.
///
/// ```
/// use vigbuso::{Class, Say};
///
/// let take = Say::Take(Class::medium(0).unwrap());
/// assert_eq!((take.word(), Say::from_word(64)), (Some(64), Some(take)));
/// ```
#[derive(Clone, Copy, PartialEq, Eq, Hash, Debug)]
pub enum Say {
    /// Kind 0: a take from a class. One that the arena cannot serve hands out nothing.
    Take(Class),
    /// Kind 1: the release of the block with this place in the order of handing out, from 0. Within one take the listed order
    /// counts.
    Release(u32),
    /// Kind 2: [figures](Figures) are written.
    Report,
}

impl Say {
    /// The word that says it; none for a place from 2^30 on, which no word can name.
    ///
    /// ```
    /// # use vigbuso::Say;
    /// assert_eq!(Say::Release(5).word(), Some(0x4000_0005));
    /// assert_eq!(Say::Release(1 << 30).word(), None);
    /// ```
    #[must_use]
    #[allow(clippy::cast_possible_truncation)] // a class's place is below 76
    pub const fn word(self) -> Option<u32> {
        match self {
            Say::Take(class) => Some(class.index() as u32),
            Say::Release(place) if place >> NUMBER_BITS == 0 => Some(1 << NUMBER_BITS | place),
            Say::Release(_) => None,
            Say::Report => Some(2 << NUMBER_BITS),
        }
    }

    /// What a word says; none where it is one that stops a trace by itself: kind 3, a report with other bits set, a class above
    /// 75.
    ///
    /// ```
    /// # use vigbuso::Say;
    /// assert_eq!(Say::from_word(0x8000_0000), Some(Say::Report));
    /// assert_eq!([76, 0x8000_0001, 0xc000_0000].map(Say::from_word), [None; 3]);
    /// ```
    #[must_use]
    pub fn from_word(word: u32) -> Option<Say> {
        let number = word & ((1 << NUMBER_BITS) - 1);
        match word >> NUMBER_BITS {
            0 => Class::all().nth(number as usize).map(Say::Take),
            1 => Some(Say::Release(number)),
            2 if number == 0 => Some(Say::Report),
            _ => None,
        }
    }
}

/// A trace: words that [`Heap::from_trace`] carries out one by one, every host answer granted. Any words are one;
/// [`take`](Trace::take), [`release`](Trace::release) and [`report`](Trace::report) write them.
///
/// ```
/// use vigbuso::{Class, Heap, Say, Trace};
///
/// let mut trace = Trace::new();
/// trace.take(Class::for_size(16_384).unwrap()).release(0).report();
/// assert_eq!(trace.words(), [45, 0x4000_0000, 0x8000_0000]);
/// assert!(trace.says().eq([Say::Take(Class::small(45).unwrap()), Say::Release(0), Say::Report].map(Some)));
/// let traced = Heap::from_trace(64, &trace)?;
/// assert_eq!((traced.figures[0].out, traced.figures[0].highest), (2, 3 * 16_384));
/// # Ok::<(), vigbuso::Refusal>(())
/// ```
#[derive(Clone, PartialEq, Eq, Default, Debug)]
pub struct Trace {
    words: Vec<u32>,
}

impl Trace {
    /// No word yet.
    #[must_use]
    pub const fn new() -> Trace {
        Trace { words: Vec::new() }
    }

    /// A take from a class.
    pub fn take(&mut self, class: Class) -> &mut Trace {
        self.say(Say::Take(class))
    }

    /// The release of the block with this place in the order of handing out, from 0.
    ///
    /// # Panics
    ///
    /// If the place is 2^30 or more: no word can name it.
    pub fn release(&mut self, place: u32) -> &mut Trace {
        self.say(Say::Release(place))
    }

    /// A report.
    pub fn report(&mut self) -> &mut Trace {
        self.say(Say::Report)
    }

    /// One more word.
    ///
    /// # Panics
    ///
    /// If it is the release of a place from 2^30 on.
    pub fn say(&mut self, say: Say) -> &mut Trace {
        self.words.push(say.word().expect("a place below 2^30"));
        self
    }

    /// Its words.
    #[must_use]
    pub fn words(&self) -> &[u32] {
        &self.words
    }

    /// What each word says; none for one that stops the trace by itself.
    #[must_use = "it tells, and changes nothing"]
    pub fn says(&self) -> impl DoubleEndedIterator<Item = Option<Say>> + ExactSizeIterator + '_ {
        self.words.iter().map(|&word| Say::from_word(word))
    }

    /// The most blocks that it can hand out, and how many reports it has.
    fn most(&self) -> (usize, usize) {
        self.says().fold((0, 0), |(blocks, reports), say| match say {
            Some(Say::Take(class)) => (blocks + class.capacity().min(BATCH), reports),
            Some(Say::Report) => (blocks, reports + 1),
            _ => (blocks, reports),
        })
    }
}

impl From<Vec<u32>> for Trace {
    /// Any words, as they were stored.
    fn from(words: Vec<u32>) -> Trace {
        Trace { words }
    }
}

impl Extend<Say> for Trace {
    fn extend<I: IntoIterator<Item = Say>>(&mut self, says: I) {
        says.into_iter().for_each(|say| {
            self.say(say);
        });
    }
}

impl FromIterator<Say> for Trace {
    fn from_iter<I: IntoIterator<Item = Say>>(says: I) -> Trace {
        let mut trace = Trace::new();
        trace.extend(says);
        trace
    }
}

/// The five numbers of a report in a trace. Equal traces have equal figures: they are told from the arena's length and the words
/// up to there, which is proved.
///
/// ```
/// use vigbuso::{Class, Heap, Trace};
///
/// let mut trace = Trace::new();
/// trace.take(Class::small(0).unwrap()).report();
/// let figures = Heap::from_trace(64, &trace)?.figures[0];
/// assert_eq!(figures.to_string(), "64 blocks out, 1024 bytes; 1 page held, 63 idle; at most 1024 bytes");
/// # Ok::<(), vigbuso::Refusal>(())
/// ```
#[derive(Clone, Copy, PartialEq, Eq, Hash, Default, Debug)]
#[repr(C)]
pub struct Figures {
    /// Blocks out.
    pub out: u64,
    /// Their bytes.
    pub bytes: u64,
    /// Pages held.
    pub held: u64,
    /// Idle pages.
    pub idle: u64,
    /// The highest bytes out so far.
    pub highest: u64,
}

impl Figures {
    /// How many numbers a report writes.
    pub(crate) const NUMBERS: usize = 5;
}

impl fmt::Display for Figures {
    fn fmt(&self, f: &mut fmt::Formatter) -> fmt::Result {
        let Figures { out, bytes, held, idle, highest } = self;
        let plural = |number: &u64| if *number == 1 { "" } else { "s" };
        write!(f, "{out} block{} out, {bytes} bytes; {held} page{} held, {idle} idle; ", plural(out), plural(held))?;
        write!(f, "at most {highest} bytes")
    }
}

/// How far a trace came: the words carried out, the blocks and the reports written.
#[derive(Clone, Copy, PartialEq, Eq, Hash, Debug)]
pub struct Done {
    /// Words carried out. If there are more, the next is the one that stopped the trace, as [`Refusal::Stopped`] says.
    pub words: usize,
    /// Blocks handed out.
    pub blocks: usize,
    /// Reports written.
    pub reports: usize,
}

/// What a trace came to: the heap as it left it, which goes on like any other, and all that it wrote.
#[derive(Clone, PartialEq, Eq)]
pub struct Traced {
    /// The heap, with the blocks out that the trace did not release.
    pub heap: Heap,
    /// The blocks in the order of handing out, those too that were released.
    pub blocks: Vec<Block>,
    /// The figures, in the order of the reports.
    pub figures: Vec<Figures>,
    /// Words carried out.
    pub words: usize,
    /// The word that stopped the trace was refused; it and those after it were not carried out.
    pub stopped: bool,
}

impl fmt::Debug for Traced {
    fn fmt(&self, f: &mut fmt::Formatter) -> fmt::Result {
        let (blocks, reports) = (self.blocks.len(), self.figures.len());
        let mut shown = f.debug_struct("Traced");
        shown.field("heap", &self.heap).field("words", &self.words).field("stopped", &self.stopped);
        shown.field("blocks", &blocks).field("reports", &reports).finish()
    }
}

impl Heap {
    /// Opens a heap on an arena of so many pages, with a book of its own, and carries a trace out on it. Every block and every
    /// report has room, so that a trace stops only at a word that is none, or that releases a place that is not out.
    ///
    /// ```
    /// use vigbuso::{Class, Heap, Trace};
    ///
    /// let class = Class::for_size(24).unwrap();
    /// let mut trace = Trace::new();
    /// trace.take(class).release(3).report();
    /// let mut traced = Heap::from_trace(64, &trace)?;
    /// assert_eq!((traced.words, traced.stopped, traced.figures[0].out), (3, false, 63));
    /// traced.heap.release(class, &traced.blocks[..3])?; // the heap goes on
    /// # Ok::<(), vigbuso::Refusal>(())
    /// ```
    ///
    /// # Errors
    ///
    /// [`Refusal::ArenaLength`].
    pub fn from_trace(pages: u64, trace: &Trace) -> Result<Traced, Refusal> {
        let (blocks, reports) = trace.most();
        let (mut blocks, mut figures) = (vec![Block::FILLER; blocks], vec![Figures::default(); reports]);
        let book = vec![0; own_words(pages)];
        let (heap, done, stopped) = match Heap::on_trace(book, pages, trace, &mut blocks, &mut figures) {
            Ok((heap, done)) => (heap, done, false),
            Err((refusal, None)) => return Err(refusal),
            Err((_, Some((heap, done)))) => (heap, done, true),
        };
        blocks.truncate(done.blocks);
        blocks.shrink_to_fit();
        figures.truncate(done.reports);
        Ok(Traced { heap, blocks, figures, words: done.words, stopped })
    }
}

/// Why a trace was not carried out to its end; with [`Refusal::Stopped`] the heap as the earlier words left it, and how far it
/// came.
pub type TraceError<B> = (Refusal, Option<(Heap<B>, Done)>);

impl<B: AsRef<[u32]> + AsMut<[u32]>> Heap<B> {
    /// Opens a heap on a book that the caller lends or gives and carries a trace out on it, with lists that the caller lends. Entries
    /// of the lists past what was written keep their content.
    ///
    /// ```
    /// use vigbuso::{book_words, Block, Class, Figures, Heap, Refusal, Trace};
    ///
    /// let mut trace = Trace::new();
    /// trace.take(Class::for_size(24).unwrap()).report();
    /// let mut book = vec![0; book_words(64)];
    /// let mut blocks = [Block::small(0).unwrap(); 70];
    /// // There is room for the blocks, and none for the report.
    /// let (refusal, stopped) = Heap::on_trace(&mut book[..], 64, &trace, &mut blocks, &mut []).unwrap_err();
    /// let (heap, done) = stopped.expect("it was opened");
    /// assert_eq!((refusal, done.words, done.blocks), (Refusal::Stopped, 1, 64));
    /// assert_eq!(heap.report()?.held, 1);
    /// # Ok::<(), vigbuso::Refusal>(())
    /// ```
    ///
    /// # Errors
    ///
    /// [`Refusal::ArenaLength`], [`BookTooShort`](Refusal::BookTooShort), with nothing changed;
    /// [`Stopped`](Refusal::Stopped).
    pub fn on_trace(
        mut book: B,
        pages: u64,
        trace: &Trace,
        blocks: &mut [Block],
        figures: &mut [Figures],
    ) -> Result<(Heap<B>, Done), TraceError<B>> {
        let (ends, [words, blocks, numbers]) = ffi::trace(book.as_mut(), pages, trace.words(), blocks, figures);
        let done = Done { words, blocks, reports: numbers / Figures::NUMBERS };
        match ends {
            Ok(()) => Ok((Heap::opened(book, pages), done)),
            Err(Refusal::Stopped) => Err((Refusal::Stopped, Some((Heap::opened(book, pages), done)))),
            Err(refusal) => Err((refusal, None)),
        }
    }
}
