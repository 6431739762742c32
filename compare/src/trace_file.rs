//! A trace (document 02, A.7) that a program wrote, on the original as it is and on the port: which blocks each take hands out. Document
//! 02 lets the two differ by A.4 and A.8 alone. Where they do, the trace is carried out again with one of the two in the original.

use std::fs;

use crate::arguments::Arguments;
use crate::call::{Answer, Call, Lent};
use crate::oracle;
use crate::oracle::rules::Rules;
use crate::planned::family;
use crate::port;
use crate::reference::Reference;
use crate::traces::{say, Reason, Say};
use crate::words::{book_words, granule_of, kind_of, Word, HOST_ALL, MAX_PAGES, SMALL_BATCH};

/// As the example `fill` has it.
const PAGES: u32 = 32;

pub fn run(words: &[String]) -> Result<bool, String> {
    let (file, rest) = words.split_first().filter(|(file, _)| !file.starts_with("--")).ok_or("trace needs a file")?;
    let arguments = Arguments::read(rest, &["pages"])?;
    let pages: u32 = arguments.number("pages")?.unwrap_or(PAGES);
    if pages == 0 || pages > MAX_PAGES {
        return Err(format!("an arena has 1 to {MAX_PAGES} pages, not {pages}"));
    }
    let bytes = fs::read(file).map_err(|error| format!("{file}: {error}"))?;
    let trace = read(&bytes).map_err(|error| format!("{file}: {error}"))?;
    let compared = compare(&trace, pages).map_err(|stop| format!("{file}: {}", stop.told(&trace)))?;
    print!("{}", compared.told(&trace, pages));
    Ok(compared.is_explained())
}

/// Words of 32 bits, the low byte first; or text, a number a line.
pub fn read(bytes: &[u8]) -> Result<Vec<u32>, String> {
    if bytes.iter().all(|byte| byte.is_ascii_digit() || byte.is_ascii_whitespace()) {
        let text = String::from_utf8_lossy(bytes);
        let lines = text.lines().enumerate().filter(|(_, line)| !line.trim().is_empty());
        return lines
            .map(|(at, line)| line.trim().parse().map_err(|_| format!("line {}: {line} is no word of 32 bits", at + 1)))
            .collect();
    }
    let words = bytes.chunks_exact(4);
    match words.remainder() {
        [] => Ok(words.map(|word| u32::from_le_bytes([word[0], word[1], word[2], word[3]])).collect()),
        _ => Err(format!("{} bytes are no whole words of 32 bits", bytes.len())),
    }
}

/// The word that stops a trace, and why.
#[derive(Clone, Copy, PartialEq, Eq, Debug)]
pub struct Stop {
    pub at: usize,
    pub reason: Reason,
}

impl Stop {
    pub fn told(&self, trace: &[u32]) -> String {
        let word = trace[self.at];
        let number = word & 0x3FFF_FFFF;
        let why = match self.reason {
            Reason::Kind => "its kind is 3".into(),
            Reason::Report => format!("a report with {number} below its kind"),
            Reason::Class => format!("class {number} is above 75"),
            Reason::NotHandedOut => format!("it releases place {number}, which is not handed out yet"),
            Reason::Released => format!("it releases place {number}, which was released before"),
            Reason::Blocks | Reason::Figures => "a list is full".into(),
        };
        format!("word {} ({word:#010x}) stops the trace: {why}", self.at)
    }
}

/// What a side's takes handed out, up to the word that stopped it.
#[derive(PartialEq, Eq)]
struct Carried {
    /// In the order of handing out.
    blocks: Vec<Word>,
    /// By word: how many blocks were handed out after it.
    handed: Vec<usize>,
    stop: Option<Stop>,
}

impl Carried {
    /// What the word handed out; none where the side stopped before.
    fn by(&self, word: usize) -> Option<&[Word]> {
        let end = *self.handed.get(word)?;
        let first = if word == 0 { 0 } else { self.handed[word - 1] };
        Some(&self.blocks[first..end])
    }

    /// Whether both handed out the same, up to a word and at it.
    fn agrees(&self, other: &Carried, word: usize) -> bool {
        (0..=word).all(|word| self.by(word) == other.by(word))
    }
}

/// One heap, by a take and a release of one block.
trait Heap {
    fn take(&mut self, class: u32) -> Vec<Word>;
    fn release(&mut self, class: u32, block: Word);
}

impl Heap for Reference {
    fn take(&mut self, class: u32) -> Vec<Word> {
        let (family, class) = family(class);
        let lent = Lent { len: SMALL_BATCH, fill: 0 };
        match self.answer(&Call::Take { family, class, host: HOST_ALL, lent }) {
            Answer::Taken { words, .. } => words,
            other => panic!("a take is answered by {other:?}"),
        }
    }

    fn release(&mut self, class: u32, block: Word) {
        let (family, class) = family(class);
        let answer = self.answer(&Call::ReleaseBlocks { family, class, host: HOST_ALL, list: vec![block] });
        assert!(matches!(answer, Answer::Fate(_)), "a release is answered by {answer:?}");
    }
}

/// The port's book.
struct Port(Vec<u32>);

impl Port {
    fn open(pages: u32) -> Port {
        let mut book = vec![0; book_words(pages)];
        assert_eq!(port::open(&mut book, u64::from(pages)), 0, "an arena of {pages} pages opens");
        Port(book)
    }
}

impl Heap for Port {
    fn take(&mut self, class: u32) -> Vec<Word> {
        let (family, class) = family(class);
        let mut list = [0; SMALL_BATCH];
        let [refused, count, _] = port::plain_take(&mut self.0, family, [class, HOST_ALL], &mut list);
        assert_eq!(refused, 0, "a take is refused");
        list[..count as usize].to_vec()
    }

    fn release(&mut self, class: u32, block: Word) {
        let (family, class) = family(class);
        let [refused, _] = port::plain_release_blocks(&mut self.0, family, [class, HOST_ALL], &[block]);
        assert_eq!(refused, 0, "the release of {block} is refused");
    }
}

fn carry(trace: &[u32], heap: &mut impl Heap) -> Carried {
    let (mut carried, mut out) = (Carried { blocks: Vec::new(), handed: Vec::new(), stop: None }, Vec::new());
    for (at, &word) in trace.iter().enumerate() {
        let done = say(word).and_then(|say| match say {
            Say::Take(class) => {
                carried.blocks.extend(heap.take(class));
                out.resize(carried.blocks.len(), Some(class));
                Ok(())
            }
            Say::Release(place) => {
                let class: &mut Option<u32> = out.get_mut(place).ok_or(Reason::NotHandedOut)?;
                heap.release(class.take().ok_or(Reason::Released)?, carried.blocks[place]);
                Ok(())
            }
            Say::Report => Ok(()),
        });
        if let Err(reason) = done {
            carried.stop = Some(Stop { at, reason });
            break;
        }
        carried.handed.push(carried.blocks.len());
    }
    carried
}

/// Which of document 02's requests make the original answer as the port, up to the first word that differs and at it.
#[derive(Clone, Copy, PartialEq, Eq, Debug)]
pub enum Why {
    /// Touching holes become one.
    A4,
    /// Of equal holes the lowest page.
    A8,
    Either,
    Both,
    None,
}

pub struct Compared {
    original: Carried,
    port: Carried,
    /// The first word that differs.
    pub first: Option<usize>,
    pub why: Option<Why>,
}

/// A trace that stops on both sides at one word is malformed.
pub fn compare(trace: &[u32], pages: u32) -> Result<Compared, Stop> {
    let with = |rules, trace: &[u32]| carry(trace, &mut Reference::open_with(pages, &[], rules));
    let (original, port) = (with(Rules::Plain, trace), carry(trace, &mut Port::open(pages)));
    if let Some(stop) = original.stop.filter(|_| original.stop == port.stop) {
        return Err(stop);
    }
    let first = (0..trace.len()).find(|&word| original.by(word) != port.by(word));
    let why = first.map(|first| {
        let agrees = |rules| with(rules, &trace[..=first]).agrees(&port, first);
        match (agrees(Rules::Amended), agrees(Rules::Joined), agrees(Rules::Apart)) {
            (false, ..) => Why::None,
            (true, true, true) => Why::Either,
            (true, true, false) => Why::A4,
            (true, false, true) => Why::A8,
            (true, false, false) => Why::Both,
        }
    });
    Ok(Compared { original, port, first, why })
}

impl Compared {
    pub fn is_explained(&self) -> bool {
        self.why != Some(Why::None)
    }

    pub fn told(&self, trace: &[u32], pages: u32) -> String {
        let count = |wanted: fn(&Say) -> bool| trace.iter().filter_map(|&word| say(word).ok()).filter(wanted).count();
        let takes = count(|say| matches!(say, Say::Take(_)));
        let releases = count(|say| matches!(say, Say::Release(_)));
        let handed = self.port.blocks.len();
        let mut text = format!(
            "{} words on {pages} pages: {takes} takes, which hand out {handed} blocks, {releases} releases\n",
            trace.len()
        );
        let (Some(first), Some(why)) = (self.first, self.why) else {
            return text + "every block is the same on the original as it is and on the library\n";
        };
        let others = (first..trace.len()).filter(|&word| self.original.by(word) != self.port.by(word));
        text += &format!("word {first}, {}, is the first that differs:\n", named(trace[first]));
        text += &format!("  the original as it is hands out {}\n", blocks(self.original.by(first)));
        text += &format!("  the library hands out           {}\n", blocks(self.port.by(first)));
        text += match why {
            Why::A4 => {
                "A.4 explains it: touching holes became one, and with that alone the original hands out the same\n"
            }
            Why::A8 => {
                "A.8 explains it: of equal holes the lowest page, and with that alone the original hands out the same\n"
            }
            Why::Either => "A.4 explains it, and A.8 does: with either alone the original hands out the same\n",
            Why::Both => {
                "A.4 and A.8 explain it together: with both, and with neither alone, the original hands out the same\n"
            }
            Why::None => "no request explains it: with A.4 and A.8 the original hands out others\n",
        };
        text + &format!("{} takes of {takes} hand out other blocks on the two\n", others.count())
    }
}

fn named(word: u32) -> String {
    match say(word) {
        Ok(Say::Take(class)) => {
            let (family, number) = family(class);
            format!("a take of class {class} (blocks of {} bytes)", oracle::block_bytes(family, number))
        }
        Ok(Say::Release(place)) => format!("the release of place {place}"),
        Ok(Say::Report) => "a report".into(),
        Err(reason) => format!("{reason:?}"),
    }
}

/// The first blocks of a list, by page and granule in it.
fn blocks(words: Option<&[Word]>) -> String {
    const SHOWN: usize = 3;
    let Some(words) = words else { return "nothing: it stopped before".into() };
    let at = |&word: &Word| format!("{}+{}", granule_of(word) / 4_096, granule_of(word) % 4_096);
    match words {
        [] => "none".into(),
        [first, ..] => {
            let kind = if kind_of(*first) == 1 { "small" } else { "medium" };
            let shown: Vec<String> = words.iter().take(SHOWN).map(at).collect();
            let more = if words.len() > SHOWN { " .." } else { "" };
            format!("{} {kind} blocks at (page+granule) {}{more}", words.len(), shown.join(", "))
        }
    }
}
