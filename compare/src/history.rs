//! Histories as text: one call a line, `NAME ARGUMENTS = RETURNED OUT-PARAMETERS`, as CALLS.md passes them.
//!
//! ```text
//! open PAGES                                                     (with rows: open PAGES N NUMBER..)
//! take_blocks CLASS HOST LENGTH FILL = 0 COUNT VIRGIN WORD..      (medium_take_blocks alike)
//! release_blocks CLASS HOST N WORD.. = 0 FATE                     (medium_release_blocks alike)
//! release_bin_chunks CLASS HOST N WORD.. M GROUP.. LENGTH FILL = 0 FATE..
//! commit HOST PAGES = 0 FIRST FRESH
//! grow_frontier HOST FIRST OLD NEW = 0 GROWN
//! release HOST FIRST PAGES = 0
//! contains OFFSET LENGTH = YES
//! report = 0 COMMITS REUSES ABANDONED HELD IDLE OVERLAP
//! alloc CLASS HOST = 0 BLOCK                                      (trim alike)
//! free CLASS HOST BLOCK = 0
//! class_of BLOCK = CLASS
//! granted CLASS BLOCK = YES
//! stocked CLASS = COUNT
//! ```
//!
//! A refused call has just its number after `=`. A lent list of LENGTH entries holds FILL in each before the call.
//! Numbers are decimal, separated by one space; an empty line or one that starts with `#` says nothing.

use std::fmt::Write;

use crate::call::{Answer, Call, Due, Kind, Lent, Look, PoolRequest};
use crate::words::{Family, FIGURES, NO_PAGE};

#[derive(Clone, PartialEq, Eq, Debug)]
pub struct History {
    pub pages: u32,
    pub rows: Vec<u32>,
    pub calls: Vec<Due>,
}

impl History {
    pub fn text(&self) -> String {
        let mut text = format!("open {}", self.pages);
        if !self.rows.is_empty() {
            listed(&self.rows).for_each(|number| write!(text, " {number}").expect("a string takes all"));
        }
        text.push('\n');
        for (call, answer) in &self.calls {
            text += &line(call, answer);
            text.push('\n');
        }
        text
    }
}

/// One call and its answer, without the line's end.
pub fn line(call: &Call, answer: &Answer) -> String {
    let mut line = String::from(call.kind().name());
    for number in arguments(call) {
        write!(line, " {number}").expect("a string takes all");
    }
    line.push_str(" =");
    if let Answer::Broken(what) = answer {
        return line + " " + what;
    }
    for number in results(answer) {
        write!(line, " {number}").expect("a string takes all");
    }
    line
}

fn listed<T: Copy + Into<u64>>(list: &[T]) -> impl Iterator<Item = u64> + '_ {
    std::iter::once(list.len() as u64).chain(list.iter().map(|&number| number.into()))
}

fn lent_list<T: Copy + Into<u64>>(lent: &Lent<T>) -> [u64; 2] {
    [lent.len as u64, lent.fill.into()]
}

fn arguments(call: &Call) -> Vec<u64> {
    match call {
        Call::Take { class, host, lent, .. } => {
            [u64::from(*class), u64::from(*host)].into_iter().chain(lent_list(lent)).collect()
        }
        Call::ReleaseBlocks { class, host, list, .. } => {
            [u64::from(*class), u64::from(*host)].into_iter().chain(listed(list)).collect()
        }
        Call::ReleaseChunks { class, host, list, chunks, lent } => [u64::from(*class), u64::from(*host)]
            .into_iter()
            .chain(listed(list))
            .chain(listed(chunks))
            .chain(lent_list(lent))
            .collect(),
        Call::Commit { host, pages } => vec![u64::from(*host), *pages],
        Call::Grow { host, first, old, new } => vec![u64::from(*host), *first, *old, *new],
        Call::Release { host, first, pages } => vec![u64::from(*host), *first, *pages],
        Call::Contains { offset, length } => vec![*offset, *length],
        Call::Report => Vec::new(),
        Call::Pool { request, class, host } => {
            let block = if let PoolRequest::Free(block) = request { Some(*block) } else { None };
            [u64::from(*class), u64::from(*host)].into_iter().chain(block).collect()
        }
        Call::Look(Look::ClassOf(block)) => vec![*block],
        Call::Look(Look::Granted { class, block }) => vec![u64::from(*class), *block],
        Call::Look(Look::Stocked { class }) => vec![u64::from(*class)],
    }
}

fn results(answer: &Answer) -> Vec<u64> {
    match answer {
        Answer::Refused(number) => vec![u64::from(*number)],
        Answer::Taken { virgin, words: taken } => [&[0, taken.len() as u64, u64::from(*virgin)], &taken[..]].concat(),
        Answer::Fate(fate) => vec![0, u64::from(*fate)],
        Answer::Fates(fates) => std::iter::once(0).chain(fates.iter().map(|&fate| u64::from(fate))).collect(),
        Answer::Run { first, fresh } => vec![0, u64::from(*first), u64::from(*fresh)],
        Answer::NoRun => vec![0, u64::from(NO_PAGE), 0],
        Answer::Grown(grown) => vec![0, u64::from(*grown)],
        Answer::Released | Answer::Freed => vec![0],
        Answer::Block(block) => vec![0, *block],
        Answer::Told(number) => vec![u64::from(*number)],
        Answer::Contains(yes) => vec![u64::from(*yes)],
        Answer::Report(figures) => [&[0], &figures[..]].concat(),
        Answer::Broken(_) => Vec::new(),
    }
}

/// The histories of a file. What does not read as the format says is an error that names the line.
pub fn parse(text: &str) -> Result<Vec<History>, String> {
    let mut histories: Vec<History> = Vec::new();
    for (at, line) in text.lines().enumerate().filter(|(_, line)| !line.is_empty() && !line.starts_with('#')) {
        let bad = || format!("line {}: {line}", at + 1);
        if let Some(opening) = line.strip_prefix("open ") {
            let (pages, rows) = parse_opening(opening).ok_or_else(bad)?;
            histories.push(History { pages, rows, calls: Vec::new() });
        } else {
            let history = histories.last_mut().ok_or_else(bad)?;
            history.calls.push(parse_line(line).ok_or_else(bad)?);
        }
    }
    Ok(histories)
}

fn parse_opening(text: &str) -> Option<(u32, Vec<u32>)> {
    let mut from = Numbers::of(text)?;
    let pages = from.number()?;
    let rows = if from.0.len() > 0 { from.list()? } else { Vec::new() };
    from.next().is_none().then_some((pages, rows))
}

/// The numbers of a line's side, read from the front.
struct Numbers(std::vec::IntoIter<u64>);

impl Numbers {
    fn of(text: &str) -> Option<Numbers> {
        let numbers: Option<Vec<u64>> = text.split_whitespace().map(|word| word.parse().ok()).collect();
        Some(Numbers(numbers?.into_iter()))
    }

    fn next(&mut self) -> Option<u64> {
        self.0.next()
    }

    /// A number of the width that is asked for.
    fn number<T: TryFrom<u64>>(&mut self) -> Option<T> {
        T::try_from(self.next()?).ok()
    }

    fn flag(&mut self) -> Option<bool> {
        match self.next()? {
            0 => Some(false),
            1 => Some(true),
            _ => None,
        }
    }

    fn many<T: TryFrom<u64>>(&mut self, count: usize) -> Option<Vec<T>> {
        (0..count).map(|_| self.number()).collect()
    }

    fn list<T: TryFrom<u64>>(&mut self) -> Option<Vec<T>> {
        let count = self.next()? as usize;
        self.many(count)
    }

    fn lent<T: TryFrom<u64>>(&mut self) -> Option<Lent<T>> {
        Some(Lent { len: self.next()? as usize, fill: self.number()? })
    }
}

/// The call of a line, whatever answer stands there.
pub fn asked(line: &str) -> Option<Call> {
    let (asked, _) = line.split_once(" =")?;
    let (name, rest) = asked.split_once(' ').unwrap_or((asked, ""));
    let mut from = Numbers::of(rest)?;
    let call = parse_call(Kind::named(name)?, &mut from)?;
    from.next().is_none().then_some(call)
}

fn parse_line(line: &str) -> Option<Due> {
    let call = asked(line)?;
    let (_, answered) = line.split_once(" =")?;
    let mut results = Numbers::of(answered)?;
    let answer = parse_answer(&call, &mut results)?;
    results.next().is_none().then_some((call, answer))
}

fn parse_call(kind: Kind, from: &mut Numbers) -> Option<Call> {
    Some(match kind {
        Kind::TakeBlocks | Kind::MediumTakeBlocks => {
            Call::Take { family: family(kind), class: from.number()?, host: from.number()?, lent: from.lent()? }
        }
        Kind::ReleaseBlocks | Kind::MediumReleaseBlocks => Call::ReleaseBlocks {
            family: family(kind),
            class: from.number()?,
            host: from.number()?,
            list: from.list()?,
        },
        Kind::ReleaseBinChunks => Call::ReleaseChunks {
            class: from.number()?,
            host: from.number()?,
            list: from.list()?,
            chunks: from.list()?,
            lent: from.lent()?,
        },
        Kind::Commit => Call::Commit { host: from.number()?, pages: from.next()? },
        Kind::GrowFrontier => {
            Call::Grow { host: from.number()?, first: from.next()?, old: from.next()?, new: from.next()? }
        }
        Kind::Release => Call::Release { host: from.number()?, first: from.next()?, pages: from.next()? },
        Kind::Contains => Call::Contains { offset: from.next()?, length: from.next()? },
        Kind::Report => Call::Report,
        Kind::Alloc | Kind::Free | Kind::Trim => {
            let (class, host) = (from.number()?, from.number()?);
            let request = match kind {
                Kind::Alloc => PoolRequest::Alloc,
                Kind::Trim => PoolRequest::Trim,
                _ => PoolRequest::Free(from.next()?),
            };
            Call::Pool { request, class, host }
        }
        Kind::ClassOf => Call::Look(Look::ClassOf(from.next()?)),
        Kind::Granted => Call::Look(Look::Granted { class: from.number()?, block: from.next()? }),
        Kind::Stocked => Call::Look(Look::Stocked { class: from.number()? }),
    })
}

fn family(kind: Kind) -> Family {
    match kind {
        Kind::MediumTakeBlocks | Kind::MediumReleaseBlocks => Family::Medium,
        _ => Family::Small,
    }
}

fn parse_answer(call: &Call, from: &mut Numbers) -> Option<Answer> {
    match call {
        Call::Contains { .. } => return from.flag().map(Answer::Contains),
        Call::Look(_) => return from.number().map(Answer::Told),
        _ => {}
    }
    let number: u32 = from.number()?;
    if number != 0 {
        return Some(Answer::Refused(number));
    }
    Some(match call {
        Call::Take { .. } => {
            let count = from.next()? as usize;
            Answer::Taken { virgin: from.flag()?, words: from.many(count)? }
        }
        Call::ReleaseBlocks { .. } => Answer::Fate(from.number()?),
        Call::ReleaseChunks { chunks, .. } => Answer::Fates(from.many(chunks.len())?),
        Call::Commit { .. } => match (from.number()?, from.flag()?) {
            (NO_PAGE, false) => Answer::NoRun,
            (first, fresh) => Answer::Run { first, fresh },
        },
        Call::Grow { .. } => Answer::Grown(from.flag()?),
        Call::Release { .. } => Answer::Released,
        Call::Report => {
            let mut figures = [0; FIGURES];
            for figure in &mut figures {
                *figure = from.next()?;
            }
            Answer::Report(figures)
        }
        Call::Pool { request: PoolRequest::Free(_), .. } => Answer::Freed,
        Call::Pool { .. } => Answer::Block(from.next()?),
        Call::Contains { .. } | Call::Look(_) => unreachable!("answered above"),
    })
}
