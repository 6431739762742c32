//! Whose each page of the arena is, as far as the caller's own calls tell.

use std::collections::BTreeSet;
use std::ops::Range;

use vigbuso::Rules;

use super::blocks::{self, Block, Class, Report, PAGE_BYTES};
use super::Outcome;

#[derive(Clone, Copy, PartialEq, Eq, PartialOrd, Ord, Debug)]
pub enum Holder {
    /// The direct calls.
    Direct,
    /// A class: a block of it is out there.
    Class(Class),
    /// A class, with no block of it out: idle all the same.
    Parked(Class),
    /// Nobody, any more.
    Hole,
    /// Nobody, ever.
    Fresh,
}

impl Holder {
    /// What a legend says of it.
    pub fn name(self) -> String {
        match self {
            Holder::Direct => "direct run".into(),
            Holder::Class(class) => blocks::name(class),
            Holder::Parked(class) => format!("parked, {}", blocks::name(class)),
            Holder::Hole => "hole".into(),
            Holder::Fresh => "fresh".into(),
        }
    }

    fn is_busy(self) -> bool {
        matches!(self, Holder::Direct | Holder::Class(_))
    }
}

#[derive(Clone, Copy)]
pub struct Page {
    pub holder: Holder,
    /// The first page of its span or run.
    pub first: usize,
    /// Bytes in blocks that have a record, or of a run.
    pub in_use: usize,
}

#[derive(Clone)]
pub struct Pages(Vec<Page>);

impl Pages {
    pub fn new(pages: usize) -> Pages {
        Pages((0..pages).map(|first| Page { holder: Holder::Fresh, first, in_use: 0 }).collect())
    }

    /// These pages, a span or a run, have a holder from now on.
    pub fn hold(&mut self, pages: Range<usize>, holder: Holder) {
        let first = pages.start;
        self.0[pages].fill(Page { holder, first, in_use: 0 });
    }

    /// The pages with what is in use, and the parked ones as such: those of a class with no record and no block in stock. It
    /// must agree with what the heap reports, where a parked page may have been given back.
    pub fn with(
        &self,
        records: impl Iterator<Item = Range<usize>>,
        stock: impl Iterator<Item = Block>,
        rules: &Rules,
        report: Report,
    ) -> Outcome<Pages> {
        let mut pages = self.clone();
        for page in pages.0.iter_mut().filter(|page| page.holder == Holder::Direct) {
            page.in_use = PAGE_BYTES;
        }
        for bytes in records.filter(|bytes| !bytes.is_empty()) {
            for page in bytes.start / PAGE_BYTES..=(bytes.end - 1) / PAGE_BYTES {
                let end = bytes.end.min((page + 1) * PAGE_BYTES);
                pages.0[page].in_use += end - bytes.start.max(page * PAGE_BYTES);
            }
        }
        pages.park(stock, rules);
        let busy = pages.0.iter().filter(|page| page.holder.is_busy()).count() as u64;
        let parked = pages.0.iter().filter(|page| matches!(page.holder, Holder::Parked(_))).count() as u64;
        match (report.held - report.overlap, report.overlap) {
            (held, overlap) if held == busy && overlap <= parked => Ok(pages),
            _ => Err(format!("{busy} pages seem busy and {parked} parked, but the heap says: {report}").into()),
        }
    }

    /// The runs of a class without a byte in use and without one of these blocks are parked, or holes if the class keeps none.
    fn park(&mut self, stock: impl Iterator<Item = Block>, rules: &Rules) {
        let stocked = stock.map(|block| self.0[block.page() as usize].first);
        let used = self.0.iter().filter(|page| page.in_use > 0).map(|page| page.first);
        let out: BTreeSet<usize> = stocked.chain(used).collect();
        for page in self.0.iter_mut().filter(|page| !out.contains(&page.first)) {
            if let Holder::Class(class) = page.holder {
                page.holder = if rules.limits(class) == (0, 0) { Holder::Hole } else { Holder::Parked(class) };
            }
        }
    }

    pub fn all(&self) -> &[Page] {
        &self.0
    }

    /// Whether a page and the one after it are of one span, one run or one hole.
    pub fn joined(&self, page: usize) -> bool {
        let next = self.0.get(page + 1);
        self.0[page].holder != Holder::Fresh
            && next.is_some_and(|next| (next.holder, next.first) == (self.0[page].holder, self.0[page].first))
    }

    /// The holders that occur, in order, each with its number of pages.
    pub fn holders(&self) -> Vec<(Holder, usize)> {
        let mut holders: Vec<Holder> = self.0.iter().map(|page| page.holder).collect();
        holders.sort_unstable();
        holders.chunk_by(|a, b| a == b).map(|equal| (equal[0], equal.len())).collect()
    }
}
