//! What was compared, in numbers.

use std::collections::BTreeMap;
use std::fmt;

use crate::call::{Answer, Call, Kind};
use crate::generate::OLD_PAGES;
use crate::reference::Reference;
use crate::words::{chunk_page, page_of};

#[derive(Default)]
pub struct Tally {
    pub histories: u64,
    scenarios: BTreeMap<&'static str, u64>,
    carried_out: BTreeMap<Kind, u64>,
    refused: BTreeMap<(Kind, u32), u64>,
    /// How often something happened that a rule of document 01 turns on.
    events: BTreeMap<String, u64>,
    most_holes: usize,
    most_hole_pages: u32,
}

impl Tally {
    pub fn begin(&mut self, scenario: &'static str) {
        self.histories += 1;
        *self.scenarios.entry(scenario).or_default() += 1;
    }

    /// Calls that were compared, refused ones included.
    pub fn calls(&self) -> u64 {
        self.carried_out.values().chain(self.refused.values()).sum()
    }

    pub fn count(&mut self, call: &Call, answer: &Answer) {
        match answer {
            Answer::Refused(number) => *self.refused.entry((call.kind(), *number)).or_default() += 1,
            _ => *self.carried_out.entry(call.kind()).or_default() += 1,
        }
        self.count_events(call, answer);
    }

    pub fn count_holes(&mut self, reference: &Reference) {
        let (holes, pages) = reference.holes();
        self.most_holes = self.most_holes.max(holes);
        self.most_hole_pages = self.most_hole_pages.max(pages);
    }

    pub fn event(&mut self, name: &str) {
        match self.events.get_mut(name) {
            Some(times) => *times += 1,
            None => {
                self.events.insert(name.into(), 1);
            }
        }
    }

    /// What names a page beyond those of words of 32 bits (document 02, A.11), and is carried out.
    fn count_far(&mut self, call: &Call, answer: &Answer) {
        let far = |page: u64| page >= u64::from(OLD_PAGES);
        match (call, answer) {
            (_, Answer::Taken { words, .. }) if words.iter().any(|&word| far(page_of(word))) => {
                self.event("far page: take");
            }
            (Call::ReleaseBlocks { list, .. }, Answer::Fate(_)) if far(page_of(list[0])) => {
                self.event("far page: release by list");
            }
            (Call::ReleaseChunks { chunks, .. }, Answer::Fates(_))
                if chunks.iter().any(|&chunk| far(chunk_page(chunk))) =>
            {
                self.event("far page: release by groups");
            }
            (_, Answer::Run { first, .. }) if far(u64::from(*first)) => self.event("far page: commit"),
            _ => {}
        }
    }

    fn count_events(&mut self, call: &Call, answer: &Answer) {
        self.count_far(call, answer);
        match answer {
            Answer::Run { fresh: true, .. } => self.event("commit from the frontier"),
            Answer::Run { fresh: false, .. } => self.event("commit from a hole"),
            Answer::NoRun => self.event("commit answers none"),
            Answer::Grown(true) => self.event("growth answers yes"),
            Answer::Grown(false) => self.event("growth answers no"),
            Answer::Block(0) => self.event(&format!("{} answers none", call.kind().name())),
            Answer::Report([.., overlap]) if *overlap > 0 => self.event("report with parked pages"),
            Answer::Taken { words, .. } if words.is_empty() => self.event("take answers none"),
            Answer::Taken { virgin: true, .. } => self.event("take is virgin"),
            Answer::Taken { virgin: false, .. } => self.event("take is not virgin"),
            Answer::Fate(fate) => self.event(&format!("{}: fate {fate}", call.kind().name())),
            Answer::Fates(fates) => {
                for fate in fates {
                    self.event(&format!("{}: fate {fate}", call.kind().name()));
                }
            }
            _ => {}
        }
    }
}

impl fmt::Display for Tally {
    fn fmt(&self, out: &mut fmt::Formatter) -> fmt::Result {
        writeln!(out, "{} calls in {} histories", self.calls(), self.histories)?;
        let scenarios: Vec<String> = self.scenarios.iter().map(|(name, times)| format!("{name} {times}")).collect();
        writeln!(out, "  scenarios: {}", scenarios.join(", "))?;
        for (kind, times) in &self.carried_out {
            writeln!(out, "  {:<22} {times:>12}", kind.name())?;
        }
        for ((kind, number), times) in &self.refused {
            writeln!(out, "  {:<22} {times:>12} refused as {number}", kind.name())?;
        }
        for (event, times) in &self.events {
            writeln!(out, "  {event:<46} {times:>12}")?;
        }
        write!(out, "  most holes {}, most hole pages {}", self.most_holes, self.most_hole_pages)
    }
}
