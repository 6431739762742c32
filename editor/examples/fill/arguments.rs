//! What the command line asks for.

use vigbuso::MAX_PAGES;

use super::number::number;

pub const USAGE: &str = "\
usage: fill [--grid FILE] [--words FILE] [--pages N] [--turns N] [--keep N] [--draw] [--svg FILE]
            [--plot FILE] [--trace FILE]

  --grid FILE   the grid: a row a line, a dot for an open square, a letter for one that is set and # for a block,
                with spaces between or not (9 x 9 by default)
  --words FILE  the words: one a line, in either case, alone or as `word 50` or `WORD;50` with a score (a list of
                3 to 15 letters by default)
  --pages N     pages of the arena, 64 KiB each (32 by default)
  --turns N     how often the search turns back before it is content with its best fill (20000 by default)
  --keep N      parking rules of its own: the class of the search's records keeps up to N empty pages, 0 to 256, and
                others keep none
  --draw        print the arena's pages by holder
  --svg FILE    draw them as a picture
  --plot FILE   draw pages held and blocks out over the search
  --trace FILE  write its takes and releases of blocks as a trace, for the example `figures`
";

#[derive(Debug, PartialEq, Eq)]
pub struct Arguments {
    pub help: bool,
    pub draw: bool,
    pub svg: Option<String>,
    pub plot: Option<String>,
    pub trace: Option<String>,
    pub grid: Option<String>,
    pub words: Option<String>,
    pub pages: usize,
    pub turns: usize,
    pub keep: Option<u32>,
}

impl Default for Arguments {
    fn default() -> Arguments {
        let (svg, plot, trace, grid, words) = (None, None, None, None, None);
        Arguments { help: false, draw: false, svg, plot, trace, grid, words, pages: 32, turns: 20_000, keep: None }
    }
}

impl Arguments {
    pub fn parse(mut words: impl Iterator<Item = String>) -> Result<Arguments, String> {
        let mut found = Arguments::default();
        while let Some(word) = words.next() {
            let mut next = || words.next().ok_or_else(|| format!("{word} wants a value"));
            match word.as_str() {
                "--help" => found.help = true,
                "--draw" => found.draw = true,
                "--svg" => found.svg = Some(next()?),
                "--plot" => found.plot = Some(next()?),
                "--trace" => found.trace = Some(next()?),
                "--grid" => found.grid = Some(next()?),
                "--words" => found.words = Some(next()?),
                "--pages" => found.pages = number(&word, &next()?, &(1..=MAX_PAGES as usize))?,
                "--turns" => found.turns = number(&word, &next()?, &(1..=u32::MAX as usize))?,
                "--keep" => found.keep = Some(number(&word, &next()?, &(0..=256))?),
                _ => return Err(format!("`{word}` is no option\n\n{USAGE}")),
            }
        }
        Ok(found)
    }
}
