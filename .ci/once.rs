//! Finds what stands twice in crates/ (.rt and .antt): definitions and lemmas with one text but for their own name, lemmas
//! with one statement but for the names that it binds, functions and constants with one body, and names that are
//! imported and not used. Prints each finding and ends with 1 if there is any. It reads text, not the language.
use std::collections::BTreeMap;
use std::path::{Path, PathBuf};
use std::{env, fs, process};

/// The files of a function's proof.
const PROOFS: [&str; 3] = ["Proof.antt", "Answers.antt", "Invariants.antt"];

/// A finding's key, and the places that share it.
type Places = BTreeMap<String, Vec<(String, String)>>;

fn main() {
    let root = env::args().nth(1).unwrap_or_else(|| ".".into());
    let mut paths = Vec::new();
    sources(&Path::new(&root).join("crates"), &mut paths);
    paths.sort();
    let (mut texts, mut statements, mut code) = (Places::new(), Places::new(), Places::new());
    let mut unused = 0;
    for path in &paths {
        let text = fs::read_to_string(path).expect("a source is UTF-8");
        let place = path.strip_prefix(&root).unwrap_or(path).display().to_string();
        if place.ends_with("_lut.rt") {
            continue; // the lookup tables: numbers alone
        }
        if place.ends_with(".antt") {
            // a function's proof answers goals that Rattle names, so only its longer parts count
            let least = if is_proof(&place) { 900 } else { 40 };
            for (top, name, head, body) in blocks(&text) {
                // a short fact within a module speaks of its parameters
                if body.len() > if top { least } else { least.max(120) } {
                    texts.entry(replace(&body, &name, "@")).or_default().push((name.clone(), place.clone()));
                }
                let said = unbound(&head);
                let top = top && least == 40 && !place.ends_with("Theorems.antt"); // which lists what other files prove
                if top && said.len() > 40 && said.contains('≡') && said.contains('→') {
                    statements.entry(said).or_default().push((name, place.clone()));
                }
            }
        } else {
            for (name, body) in items(&text) {
                let (key, shown) = if name.is_empty() { (body.clone(), body) } else { (replace(&body, &name, "@"), name) };
                code.entry(key).or_default().push((shown, place.clone()));
            }
        }
        for name in idle(&text) {
            println!("imported and not used: {name} in {place}");
            unused += 1;
        }
    }
    let found = unused + show("alike", &texts) + show("one statement", &statements) + show("one body", &code);
    if found > 0 {
        println!("{found} found twice or unused");
        process::exit(1);
    }
    println!("nothing stands twice in {} files", paths.len());
}

fn sources(dir: &Path, into: &mut Vec<PathBuf>) {
    for entry in fs::read_dir(dir).expect("crates/ can be read").flatten() {
        let path = entry.path();
        if path.is_dir() {
            // a check keeps copies in a crate's out/; a module may be called so too
            if !(path.ends_with("out") && path.with_file_name("src").exists()) {
                sources(&path, into);
            }
        } else if path.extension().is_some_and(|e| e == "rt" || e == "antt") {
            into.push(path);
        }
    }
}

/// Prints each key that stands in more than one file, and counts them.
fn show(what: &str, all: &Places) -> usize {
    let mut found = 0;
    for places in all.values() {
        if places.iter().any(|(_, place)| *place != places[0].1) {
            let list: Vec<String> = places.iter().map(|(name, place)| format!("{name} in {place}")).collect();
            println!("{what}: {}", list.join("; "));
            found += 1;
        }
    }
    found
}

/// Whether a file is of a function's proof, which has a folder of its own: crates/NAME/proofs/F/Answers.antt.
fn is_proof(place: &str) -> bool {
    let parts: Vec<&str> = place.split('/').collect();
    parts.len() > 4 && PROOFS.contains(&parts[parts.len() - 1])
}

fn is_comment(line: &str) -> bool {
    line.trim_start().starts_with("--") || line.trim_start().starts_with("//")
}

/// The definitions and lemmas of an .antt file: whether it stands in no module's parameters, its name, what stands behind the
/// colon, the whole text.
fn blocks(text: &str) -> Vec<(bool, String, String, String)> {
    let lines: Vec<&str> = text.lines().collect();
    let mut found = Vec::new();
    let mut at = 0;
    let mut record = None; // the indent of the record whose fields follow
    while at < lines.len() {
        let indent = lines[at].len() - lines[at].trim_start().len();
        if strip(lines[at]).starts_with("record ") || strip(lines[at]).starts_with("data ") {
            record = Some(indent);
        } else if !lines[at].trim().is_empty() && record.is_some_and(|r| indent <= r) {
            record = None;
        }
        let Some((indent, name, head)) = headed(lines[at]).filter(|_| record.is_none()) else {
            at += 1;
            continue;
        };
        let mut body = vec![strip(lines[at])];
        at += 1;
        while at < lines.len() && !lines[at].trim().is_empty() && !is_comment(lines[at]) {
            if headed(lines[at]).is_some_and(|(deep, ..)| deep <= indent) {
                break;
            }
            if !lines[at].trim_start().starts_with("unfolding ") {
                body.push(lines[at].trim().to_string());
            }
            at += 1;
        }
        found.push((indent == 0, name, head, body.join("\n")));
    }
    found
}

fn strip(line: &str) -> String {
    let mut rest = line.trim();
    for word in ["abbrev ", "unfoldable ", "pub "] {
        rest = rest.strip_prefix(word).unwrap_or(rest);
    }
    rest.to_string()
}

/// Takes `  pub name : type` apart: its indent, name and type.
fn headed(line: &str) -> Option<(usize, String, String)> {
    if is_comment(line) || line.contains("record ") || line.contains("data ") {
        return None;
    }
    let stripped = strip(line);
    let (name, head) = stripped.split_once(" : ")?;
    let plain = !name.is_empty() && !name.contains([' ', '(', ')', '{', '}', ':']);
    plain.then(|| (line.len() - line.trim_start().len(), name.to_string(), head.to_string()))
}

/// The text with the names that it binds, as `(a b : T)` or `{a : T}`, replaced by their order.
fn unbound(text: &str) -> String {
    let mut names: Vec<String> = Vec::new();
    for part in text.split(['(', '{']).skip(1) {
        if let Some((bound, _)) = part.split_once(" :") {
            if !bound.contains([')', '}']) {
                names.extend(bound.split_whitespace().map(String::from));
            }
        }
    }
    let mut said = text.to_string();
    for (order, name) in names.iter().enumerate() {
        said = replace(&said, name, &format!("v{order}"));
    }
    said
}

fn is_part(c: char) -> bool {
    c.is_alphanumeric() || matches!(c, '_' | '-' | '\'' | '₀'..='₉')
}

/// Puts `new` for each `old` that stands as a whole name.
fn replace(text: &str, old: &str, new: &str) -> String {
    let mut out = String::new();
    let mut rest = text;
    while let Some(at) = rest.find(old) {
        let before = rest[..at].chars().next_back().or_else(|| out.chars().next_back());
        let after = rest[at + old.len()..].chars().next();
        out.push_str(&rest[..at]);
        let whole = !before.is_some_and(is_part) && !after.is_some_and(is_part);
        out.push_str(if whole { new } else { old });
        rest = &rest[at + old.len()..];
    }
    out + rest
}

/// The functions of an .rt file, name and body without the contract; and its constants, with no name and `const NAME` for a body.
fn items(text: &str) -> Vec<(String, String)> {
    let lines: Vec<&str> = text.lines().collect();
    let mut found = Vec::new();
    for (at, line) in lines.iter().enumerate() {
        let line = line.strip_prefix("pub ").unwrap_or(line);
        let line = line.strip_prefix("extern \"C\" ").unwrap_or(line);
        if let Some(rest) = line.strip_prefix("const ") {
            // a constant is known by its name: two of one value may be two things
            if let Some((name, _)) = rest.split_once(':') {
                found.push((String::new(), format!("const {name}")));
            }
        } else if let Some(rest) = line.strip_prefix("fn ") {
            let name: String = rest.chars().take_while(|c| is_part(*c)).collect();
            let open = lines[at..].iter().position(|l| *l == "{" || l.ends_with(" {")).map(|k| at + k + 1);
            let close = lines[at..].iter().position(|l| *l == "}").map(|k| at + k);
            if let (Some(open), Some(close)) = (open, close) {
                if open + 2 < close {
                    found.push((name, lines[open..close].join("\n")));
                }
            }
        }
    }
    found
}

/// The names of `use` lines that the rest of the file does not have.
fn idle(text: &str) -> Vec<String> {
    let is_use = |l: &str| l.starts_with("use ") || l.starts_with("ghost use ");
    let body: String = text.lines().filter(|l| !is_use(l) && !is_comment(l)).map(|l| format!("{l}\n")).collect();
    let mut found = Vec::new();
    for line in text.lines().filter(|l| is_use(l)) {
        let Some((_, names)) = line.split_once(".{") else { continue };
        for name in names.trim_end_matches(['}', ';']).split(", ") {
            let name = name.rsplit(" as ").next().unwrap_or(name).trim();
            // an operator has a ◌ for each operand
            let core = name.trim_matches('◌');
            let there = if core.is_empty() || name == "tt" {
                true // an instance, or the unit's own element
            } else if core == name {
                replace(&body, name, "") != body
            } else {
                core.split('◌').all(|part| body.contains(part))
            };
            if !there {
                found.push(name.to_string());
            }
        }
    }
    found
}
