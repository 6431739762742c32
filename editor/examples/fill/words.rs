//! The word list.

use std::collections::{BTreeMap, HashSet};

/// Letters by what each of them is worth: the rarer, the more.
const WORTH: [(&[u8], usize); 4] = [(b"aeilnorst", 1), (b"cdghmpu", 2), (b"bfkvwy", 4), (b"jqxz", 8)];

/// A word's number within its length has two bytes in the search's records.
const MOST: usize = 1 << 16;

#[derive(Debug)]
pub struct Word {
    pub letters: Vec<u8>,
    pub score: u16,
}

/// Words by length, in each length the best score first.
#[derive(Debug)]
pub struct Words {
    lists: BTreeMap<usize, Vec<Word>>,
    left_out: usize,
}

impl Words {
    /// A word a line, in either case, with a score after it or not: `word 50` or `WORD;50`. A line that starts with # says something
    /// else. What has other than the 26 letters, as a genitive, is left out; of a word that stands twice the first counts.
    pub fn parse(text: &str) -> Result<Words, String> {
        let mut words = Words { lists: BTreeMap::new(), left_out: 0 };
        let mut seen = HashSet::new();
        for (line, number) in text.trim_start_matches('\u{feff}').lines().map(str::trim).zip(1..) {
            if line.is_empty() || line.starts_with('#') {
                continue;
            }
            let parts = line.rsplit_once(';').or_else(|| line.split_once(char::is_whitespace));
            let (letters, score) = parts.map_or((line, ""), |(letters, score)| (letters.trim(), score.trim()));
            let letters = letters.to_ascii_lowercase();
            if letters.is_empty() || !letters.bytes().all(|letter| letter.is_ascii_lowercase()) {
                words.left_out += 1;
            } else if seen.insert(letters.clone()) {
                words.add(letters.as_bytes(), score).map_err(|error| format!("line {number}: `{line}`: {error}"))?;
            }
        }
        words.sort();
        Ok(words)
    }

    /// Adds a word that the grid has already, if the list has it not.
    pub fn admit(&mut self, letters: &[u8]) -> Result<(), String> {
        if !self.of_length(letters.len()).iter().any(|word| word.letters == letters) {
            self.add(letters, "")?;
            self.sort();
        }
        Ok(())
    }

    fn sort(&mut self) {
        for list in self.lists.values_mut() {
            list.sort_by(|a, b| b.score.cmp(&a.score).then_with(|| a.letters.cmp(&b.letters)));
        }
    }

    fn add(&mut self, letters: &[u8], score: &str) -> Result<(), String> {
        let score = match score {
            "" => score_of(letters),
            number => number.parse().map_err(|_| format!("`{number}` is no score of at most 65535"))?,
        };
        let list = self.lists.entry(letters.len()).or_default();
        if list.len() == MOST {
            return Err(format!("there are more than {MOST} words of {} letters", letters.len()));
        }
        list.push(Word { letters: letters.into(), score });
        Ok(())
    }

    pub fn len(&self) -> usize {
        self.lists.values().map(Vec::len).sum()
    }

    /// Lines that are no words of the 26 letters.
    pub fn left_out(&self) -> usize {
        self.left_out
    }

    pub fn of_length(&self, length: usize) -> &[Word] {
        self.lists.get(&length).map_or(&[], Vec::as_slice)
    }
}

/// Ten times what its letters are worth on average, where a letter counts once: a word with rare letters, none of them
/// twice, is worth more.
fn score_of(letters: &[u8]) -> u16 {
    let worth = |letter: &u8| WORTH.iter().find(|(group, _)| group.contains(letter)).map_or(0, |(_, worth)| *worth);
    let distinct: HashSet<&u8> = letters.iter().collect();
    let sum: usize = distinct.into_iter().map(worth).sum();
    u16::try_from(10 * sum / letters.len()).expect("at most eight for each letter")
}
