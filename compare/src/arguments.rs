//! The words after the subcommand: `--name value`, each at most once.

use std::collections::BTreeMap;
use std::str::FromStr;

pub struct Arguments(BTreeMap<String, String>);

impl Arguments {
    /// Only the names in `known` are taken.
    pub fn read(words: &[String], known: &[&str]) -> Result<Arguments, String> {
        let mut values = BTreeMap::new();
        let mut words = words.iter();
        while let Some(word) = words.next() {
            let name = word.strip_prefix("--").filter(|name| known.contains(name));
            let name = name.ok_or_else(|| format!("{word} is not known here; known are {known:?}"))?;
            let value = words.next().ok_or_else(|| format!("--{name} has no value"))?;
            if values.insert(name.to_string(), value.clone()).is_some() {
                return Err(format!("--{name} stands twice"));
            }
        }
        Ok(Arguments(values))
    }

    pub fn text(&self, name: &str) -> Option<&str> {
        self.0.get(name).map(String::as_str)
    }

    pub fn number<T: FromStr>(&self, name: &str) -> Result<Option<T>, String> {
        match self.text(name) {
            None => Ok(None),
            Some(text) => text.replace('_', "").parse().map(Some).map_err(|_| format!("--{name} {text}: not a number")),
        }
    }

    /// Numbers with commas between them.
    pub fn numbers<T: FromStr>(&self, name: &str) -> Result<Vec<T>, String> {
        let text = self.text(name).unwrap_or("");
        let bad = |word: &str| format!("--{name} {word}: not a number");
        text.split(',').filter(|word| !word.is_empty()).map(|word| word.parse().map_err(|_| bad(word))).collect()
    }
}
