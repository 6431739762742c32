//! A fill from start to end.

use std::fs;

use vigbuso::{Rules, Trace};

use super::arguments::Arguments;
use super::blocks::Report;
use super::grid::Grid;
use super::history::Sample;
use super::pages::Pages;
use super::search::{Fill, Progress, Search, Stop};
use super::store::{Store, Tally};
use super::words::{Word, Words};
use super::Outcome;

/// 24 blocks, 30 words of three to five letters.
const GRID: (&str, &str) = ("examples/fill/9x9.txt", include_str!("9x9.txt"));
const WORDS: (&str, &str) = ("examples/words.txt", include_str!("../words.txt"));

pub struct Job {
    pub grid: Grid,
    pub words: Words,
    pub pages: usize,
    pub turns: usize,
    /// Empty pages that the class of the search's records keeps, where others keep none.
    pub keep: Option<u32>,
    /// Whether a trace of the blocks is written.
    pub traced: bool,
}

/// What a search came to. Its records were read back and released by then.
pub struct Done {
    pub best: Option<Fill>,
    pub stop: Stop,
    pub turns: usize,
    pub fills: usize,
    pub reads: usize,
    pub tally: Tally,
    pub report: Report,
    /// As they were when the search came to its end.
    pub pages: Pages,
    pub history: Vec<Sample>,
    pub trace: Option<Trace>,
}

impl Job {
    /// Every error in a file names it, and the line.
    pub fn new(arguments: &Arguments) -> Outcome<Job> {
        let (grid_file, grid) = source(arguments.grid.as_deref(), GRID)?;
        let (words_file, words) = source(arguments.words.as_deref(), WORDS)?;
        let grid = Grid::parse(&grid).map_err(|error| format!("{grid_file}: {error}"))?;
        let mut words = Words::parse(&words).map_err(|error| format!("{words_file}: {error}"))?;
        for slot in grid.slots() {
            let set = grid.set_in(slot);
            if set.len() == slot.len() {
                // A word that is set whole is one, whether the list has it or not.
                words.admit(&set.iter().map(|(_, letter)| *letter).collect::<Vec<_>>())?;
            } else if !words.of_length(slot.len()).iter().any(|word| fits(word, &set)) {
                let (line, described) = grid.describe(slot);
                return Err(format!("{grid_file}: line {line}: no word of {words_file} fits {described}").into());
            }
        }
        let Arguments { pages, turns, keep, .. } = *arguments;
        Ok(Job { grid, words, pages, turns, keep, traced: arguments.trace.is_some() })
    }

    /// Searches, reads back what was kept, and gives everything back. That this is not refused shows that just this was out.
    pub fn run(&self, watch: &mut dyn FnMut(&Progress)) -> Outcome<Done> {
        let mut store = Store::open(self.pages, self.rules())?;
        if self.traced {
            store.record(self.pages)?;
        }
        let search = Search::new(&self.grid, &self.words, &mut store)?;
        let mut search = search.ok_or_else(|| format!("too few pages to begin with: {}", self.pages))?;
        let (stop, pages) = search.run(&mut store, self.turns, watch)?;
        let done = Done {
            best: search.best(&store)?,
            stop,
            turns: search.turns(),
            fills: search.fills(),
            history: search.history(&store)?,
            reads: store.reads(),
            tally: store.tally().clone(),
            report: store.report()?,
            pages,
            trace: None,
        };
        search.release(&mut store)?;
        store.note();
        let done = Done { trace: store.trace().cloned(), ..done };
        store.close()?;
        Ok(done)
    }

    /// How much each class parks.
    fn rules(&self) -> Rules {
        match (self.keep, Search::class(&self.grid, &self.words)) {
            (Some(pages), Some(class)) => Rules::every(0, 0).class(class, pages, 0),
            _ => Rules::default(),
        }
    }

    /// The best fill and the figures, as text.
    pub fn text(&self, done: &Done) -> String {
        let Done { best, stop, turns, fills, reads, tally, report, .. } = done;
        let fill = match best {
            Some(Fill { score, letters }) => format!("{}score {score}: ", self.grid.show(letters)),
            None => "no fill: ".into(),
        };
        let stop = match stop {
            Stop::Tried => "nothing was left to try",
            Stop::Turns => "no more turns were granted",
            Stop::Full => "the arena was full",
        };
        let (slots, words) = (self.grid.slots().len(), self.words.len());
        let left_out = match self.words.left_out() {
            0 => String::new(),
            lines => format!(" (and {lines} lines that are no plain word)"),
        };
        let plural = if *fills == 1 { "" } else { "s" };
        let (records, blocks, most) = (tally.records, tally.blocks(), tally.most);
        format!(
            "{fill}{slots} words out of {words}{left_out}\n\
             {fills} fill{plural}; turned back {turns} times, until {stop}\n\
             {records} records in {blocks} blocks, at most {most} at once; {reads} reads, each as it was written\n\
             heap: {report}\n"
        )
    }
}

/// The name and the text of a file, or of what stands in for it. A byte that is no text spoils its own line only.
fn source(file: Option<&str>, default: (&str, &str)) -> Result<(String, String), String> {
    let Some(file) = file else {
        return Ok((default.0.into(), default.1.into()));
    };
    let bytes = fs::read(file).map_err(|error| format!("{file}: {error}"))?;
    Ok((file.into(), String::from_utf8_lossy(&bytes).into_owned()))
}

/// Whether a word has these letters at these places.
fn fits(word: &Word, set: &[(usize, u8)]) -> bool {
    set.iter().all(|&(place, letter)| word.letters[place] == letter)
}
