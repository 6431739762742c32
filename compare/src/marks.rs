//! Marks that are not clear (document 02, A.3), on the port: at each release and take of a random history some mark words of a
//! second book hold anything. Where one is the word of a listed block that is out, the call is refused as 13, after 9 and before 15;
//! otherwise it answers as on the book without them, which answers as the judge does. What is refused changes no word, and what is
//! carried out leaves the same book, the marks aside, which it does not touch but on a new run. On the book without marks no page has one
//! after any call.

use std::collections::BTreeMap;

use crate::arguments::Arguments;
use crate::call::{Answer, Call};
use crate::generate;
use crate::history;
use crate::ledger::Ledger;
use crate::memory::Fence;
use crate::oracle;
use crate::port::{self, Room};
use crate::progress::Progress;
use crate::random::Random;
use crate::reference::Reference;
use crate::words::{book_words, granule_of, page_of, Family, Word, PAGE_GRANULES};

/// Where the mark words stand, as docs/RANGES.md has it: in a page's words, from this one on.
const MARKS: usize = 144;
const MARK_WORDS: usize = 128;

const SCENARIOS: [&str; 3] = ["mixed", "exhaustion", "chunks"];

#[derive(Default)]
struct Tally {
    calls: u64,
    marked: u64,
    /// Of the book without marks, and of the one with them.
    refused: [BTreeMap<u32, u64>; 2],
}

pub fn run(words: &[String]) -> Result<bool, String> {
    let arguments = Arguments::read(words, &["calls", "seed"])?;
    let calls: u64 = arguments.number("calls")?.unwrap_or(100_000);
    let mut random = Random::new(arguments.number("seed")?.unwrap_or(1));
    let (mut tally, mut progress) = (Tally::default(), Progress::begin());
    while tally.marked < calls {
        if let Err(what) = play(&mut random, &mut tally) {
            println!("{what}");
            return Ok(false);
        }
        progress.show(tally.marked, calls, "calls");
    }
    println!("{} calls, {} of them also on a book with marks", tally.calls, tally.marked);
    for (refused, book) in tally.refused.iter().zip(["without", "with"]) {
        let all: u64 = refused.values().sum();
        println!("{all} refused on the book {book} marks, every word of it as it was");
        for (number, times) in refused {
            println!("  {times:>12} refused as {number}");
        }
    }
    println!("{:.1} s", progress.seconds());
    println!("0 differences");
    Ok(true)
}

/// A history on two books, of which the second has marks during its takes and releases.
fn play(random: &mut Random, tally: &mut Tally) -> Result<(), String> {
    let pages = random.between(1, 20) as u32;
    let scenario = random.pick(&SCENARIOS);
    let plan = generate::plan(random, |_| true, Some(scenario), Some(pages));
    let mut reference = Reference::open(pages, &plan.rows);
    let (mut plain, mut room) = (vec![0; book_words(pages)], Room::new(Fence::Back));
    assert_eq!(port::open_with(&mut plain, u64::from(pages), &plan.rows), 0, "an arena of {pages} pages opens");
    let mut marked = plain.clone();
    for step in &plan.steps {
        let Some(call) = step.call(&reference.ledger, reference.frontier()) else { continue };
        let wrong = |what: &str| format!("{what}: {}", history::line(&call, &Answer::Broken(String::new())));
        let marks = marks_for(random, &reference.ledger, &call);
        let number = due(&reference.ledger, &call, &marks);
        let answer = reference.answer(&call);
        tally.calls += 1;
        if port::ask(&mut plain, &mut room, &call) != answer {
            return Err(wrong("another answer than the judge's"));
        }
        if let Answer::Refused(number) = answer {
            // The second book is as the first was before the call.
            if plain != marked {
                return Err(wrong(&format!("refused as {number}, and the book changed")));
            }
            *tally.refused[0].entry(number).or_default() += 1;
        }
        if (0..pages).any(|page| plain[page_words(page)..][..MARK_WORDS].iter().any(|&mark| mark != 0)) {
            return Err(wrong("a mark is left"));
        }
        marks.iter().for_each(|(&word, &mark)| marked[word] = mark);
        let before = marked.clone();
        let got = port::ask(&mut marked, &mut room, &call);
        if let Some(number) = number {
            if got != Answer::Refused(number) || marked != before {
                return Err(wrong(&format!("due is {number} and every word as it was, with the marks {marks:?}")));
            }
            marked.copy_from_slice(&plain);
        } else {
            let carves = matches!(call, Call::Take { .. });
            let kept = |(&word, &mark): (&usize, &u32)| marked[word] == mark || carves && marked[word] == 0;
            if got != answer || !marks.iter().all(kept) {
                return Err(wrong(&format!("another answer or mark, with the marks {marks:?}")));
            }
            marks.keys().for_each(|&word| marked[word] = 0);
            if marked != plain {
                return Err(wrong(&format!("another book, with the marks {marks:?}")));
            }
        }
        if !marks.is_empty() {
            tally.marked += 1;
            number.into_iter().for_each(|number| *tally.refused[1].entry(number).or_default() += 1);
        }
    }
    Ok(())
}

/// Family, class and blocks of a release.
fn listed(call: &Call) -> Option<(Family, u32, &[Word])> {
    match call {
        Call::ReleaseBlocks { family, class, list, .. } => Some((*family, *class, list)),
        Call::ReleaseChunks { class, list, .. } => Some((Family::Small, *class, list)),
        _ => None,
    }
}

/// The number that is due, if one is.
fn due(ledger: &Ledger, call: &Call, marks: &BTreeMap<usize, u32>) -> Option<u32> {
    let refusal = ledger.refusal(call);
    if refusal.is_some_and(|number| number <= 9) {
        return refusal;
    }
    let hit = listed(call).is_some_and(|(family, class, list)| {
        let out = list.iter().filter(|&&word| ledger.is_out(family, class, word));
        out.map(|&word| mark_word(ledger, family, class, word))
            .any(|word| marks.get(&word).is_some_and(|&mark| mark != 0))
    });
    if hit {
        Some(13)
    } else {
        refusal
    }
}

/// The mark word of a block that is out.
fn mark_word(ledger: &Ledger, family: Family, class: u32, word: Word) -> usize {
    let first = ledger.first_page(word);
    let header = match family {
        Family::Small => 3,
        Family::Medium => 4,
    };
    let granule = granule_of(word) - u64::from(first) * PAGE_GRANULES - header;
    let block = granule as usize * 16 / oracle::block_bytes(family, class);
    page_words(first) + block / 32
}

fn page_words(page: u32) -> usize {
    book_words(page) + MARKS
}

/// Mark words of listed blocks, of their neighbours and of any, and what they hold; none for calls of other kinds.
fn marks_for(random: &mut Random, ledger: &Ledger, call: &Call) -> BTreeMap<usize, u32> {
    let mut marks = BTreeMap::new();
    let of = listed(call);
    if of.is_none() && !matches!(call, Call::Take { .. }) {
        return marks;
    }
    for _ in 0..random.weighted(&[(3, 1), (1, 2), (1, 40)]) {
        let any = page_words(random.below(u64::from(ledger.pages())) as u32) + random.index(MARK_WORDS);
        let near = of.filter(|(_, _, list)| !list.is_empty() && random.chance(2, 3)).map(|(family, class, list)| {
            let word = random.pick(list);
            match ledger.is_out(family, class, word) {
                true => mark_word(ledger, family, class, word) + random.weighted(&[(3, 0), (1, 1)]),
                false => page_words(page_of(word).min(u64::from(ledger.pages() - 1)) as u32) + random.index(3),
            }
        });
        let mark = match random.below(3) {
            0 => 1 << random.below(32),
            1 => random.word() as u32,
            _ => u32::MAX,
        };
        marks.insert(near.unwrap_or(any), mark);
    }
    marks
}
