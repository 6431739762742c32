//! Finds what says nothing: every `pub` and `pub(crate)` function in crates/*/src, methods and exported ones too, has an `ensures`. Prints
//! each that has none and ends with 1 if there is any. It reads text, not the language.
use std::path::{Path, PathBuf};
use std::{env, fs, process};

fn main() {
    let root = env::args().nth(1).unwrap_or_else(|| ".".into());
    let mut paths = Vec::new();
    for entry in fs::read_dir(Path::new(&root).join("crates")).expect("crates/ can be read").flatten() {
        sources(&entry.path().join("src"), &mut paths);
    }
    paths.sort();
    let (mut all, mut silent) = (0, 0);
    for path in &paths {
        let text = fs::read_to_string(path).expect("a source is UTF-8");
        let place = path.strip_prefix(&root).unwrap_or(path).display().to_string();
        let lines: Vec<&str> = text.lines().collect();
        for (at, name) in lines.iter().enumerate().filter_map(|(at, line)| public(line).map(|name| (at, name))) {
            all += 1;
            if !ensures(&lines[at..].join("\n")) {
                println!("no ensures: {name} in {place}:{}", at + 1);
                silent += 1;
            }
        }
    }
    if silent > 0 {
        println!("{silent} of {all} public functions say nothing");
        process::exit(1);
    }
    println!("{all} public functions, each with an ensures");
}

fn sources(dir: &Path, into: &mut Vec<PathBuf>) {
    for entry in fs::read_dir(dir).into_iter().flatten().flatten() {
        let path = entry.path();
        if path.is_dir() {
            sources(&path, into);
        } else if path.extension().is_some_and(|e| e == "rt") {
            into.push(path);
        }
    }
}

/// The name of the public function whose head begins on this line.
fn public(line: &str) -> Option<String> {
    let line = line.trim_start();
    let rest = line.strip_prefix("pub ").or_else(|| line.strip_prefix("pub(crate) "))?;
    let rest = rest.strip_prefix("extern \"C\" ").unwrap_or(rest).strip_prefix("fn ")?;
    Some(rest.chars().take_while(|c| c.is_alphanumeric() || *c == '_').collect())
}

/// Whether one of the clauses between a function's head and its body is an `ensures`. A clause is its word, a name or
/// none, and braces; the first braces with no such word before them are the body.
fn ensures(text: &str) -> bool {
    let mut rest = text;
    while let Some(open) = rest.find('{') {
        let mut words = rest[..open].split_whitespace().rev();
        let last = [words.next(), words.next()];
        if last.contains(&Some("ensures")) {
            return true;
        }
        if !last.contains(&Some("requires")) {
            return false;
        }
        rest = &rest[open + closed(&rest[open..])..];
    }
    false
}

/// The length of what the brace at the start closes.
fn closed(text: &str) -> usize {
    let mut deep = 0;
    for (at, c) in text.char_indices() {
        match c {
            '{' => deep += 1,
            '}' => deep -= 1,
            _ => {}
        }
        if deep == 0 {
            return at + 1;
        }
    }
    text.len()
}
