//! What the command line asks for.

use vigbuso::MAX_PAGES;

use super::number::number;

pub const USAGE: &str = "\
usage: figures FILE [--pages N] [--svg FILE]

  FILE        the trace: words of 32 bits, the low byte first, or text with one number a line
  --pages N   pages of the arena, 64 KiB each (32 by default)
  --svg FILE  draw bytes out and pages held over the trace
";

#[derive(Debug, PartialEq, Eq)]
pub struct Arguments {
    pub file: String,
    pub pages: u64,
    pub svg: Option<String>,
}

impl Arguments {
    /// None where the usage is asked for.
    pub fn parse(mut words: impl Iterator<Item = String>) -> Result<Option<Arguments>, String> {
        let (mut file, mut pages, mut svg) = (None, 32, None);
        while let Some(word) = words.next() {
            let mut next = || words.next().ok_or_else(|| format!("{word} wants a value"));
            match word.as_str() {
                "--help" => return Ok(None),
                "--pages" => pages = number(&word, &next()?, &(1..=MAX_PAGES))?,
                "--svg" => svg = Some(next()?),
                _ if word.starts_with("--") => return Err(format!("`{word}` is no option\n\n{USAGE}")),
                _ if file.is_some() => return Err(format!("one file is enough\n\n{USAGE}")),
                _ => file = Some(word),
            }
        }
        let file = file.ok_or_else(|| format!("no file is named\n\n{USAGE}"))?;
        Ok(Some(Arguments { file, pages, svg }))
    }
}
