//! What a reader must believe: the definitions that the statements and the contracts of the exported functions reach by imports, and the examples. They stand
//! in crates/*/specs/, and what is only the way to a proof in crates/*/specs/way/. Fails where a believed file imports one of the way, or where a file
//! stands outside way/ that no statement reaches. Prints how many lines must be believed. It reads text, not the language.
use std::collections::{BTreeMap, BTreeSet};
use std::path::Path;
use std::{env, fs, process};

/// Crates of statements, and of the contracts of exported functions and of a program. Rows of examples, in files named so, are statements too.
const ROOTS: [&str; 4] = ["demands", "vigbuso", "witness", "mediumlist"];
/// They list modules, and define nothing.
const LISTS: [&str; 2] = ["Lib.antt", "way.antt"];

/// A crate, and a module below its specs/: `Word`, or `way.Pre`.
type Module = (String, String);

fn main() {
    let root = env::args().nth(1).unwrap_or_else(|| ".".into());
    let mut texts = BTreeMap::new();
    for entry in fs::read_dir(Path::new(&root).join("crates")).expect("crates/ can be read").flatten() {
        let name = entry.file_name().into_string().expect("a crate's name is UTF-8");
        read(&entry.path().join("specs"), &name, "", &mut texts);
        read(&entry.path().join("specs/way"), &name, "way.", &mut texts);
    }
    let mut faults = 0;
    let mut believed: BTreeSet<&Module> = texts.keys().filter(|module| is_root(module)).collect();
    let mut open: Vec<&Module> = believed.iter().copied().collect();
    while let Some(module) = open.pop() {
        for import in imports(&texts[module]) {
            let Some((other, _)) = texts.get_key_value(&import) else { continue };
            if is_way(other) {
                println!("{} is believed and imports {}", show(module), show(other));
                faults += 1;
            } else if believed.insert(other) {
                open.push(other);
            }
        }
    }
    for module in texts.keys().filter(|module| !is_way(module) && !believed.contains(module)) {
        println!("{} is reached by no statement: it belongs in specs/way/", show(module));
        faults += 1;
    }
    let lines: usize = believed.iter().map(|module| texts[*module].lines().count()).sum();
    println!("{lines} lines of definitions must be believed, in {} of {} files", believed.len(), texts.len());
    if faults > 0 {
        process::exit(1);
    }
}

fn read(folder: &Path, name: &str, prefix: &str, into: &mut BTreeMap<Module, String>) {
    for entry in fs::read_dir(folder).into_iter().flatten().flatten() {
        let file = entry.file_name().into_string().expect("a file's name is UTF-8");
        let Some(module) = file.strip_suffix(".antt").filter(|_| !LISTS.contains(&file.as_str())) else { continue };
        let text = fs::read_to_string(entry.path()).expect("a source is UTF-8");
        into.insert((name.to_string(), format!("{prefix}{module}")), text);
    }
}

fn is_root(module: &Module) -> bool {
    (ROOTS.contains(&module.0.as_str()) || module.1.ends_with("Examples")) && !is_way(module)
}

fn is_way(module: &Module) -> bool {
    module.1.starts_with("way.")
}

fn show((name, module): &Module) -> String {
    format!("crates/{name}/specs/{}.antt", module.replace('.', "/"))
}

/// The modules that a text names, as `Rattle.words.specs.Word`.
fn imports(text: &str) -> Vec<Module> {
    let mut found = Vec::new();
    for piece in text.split("Rattle.").skip(1) {
        let path: String = piece.chars().take_while(|&c| c.is_alphanumeric() || "._".contains(c)).collect();
        let Some((name, rest)) = path.split_once(".specs.") else { continue };
        let mut parts = rest.split('.');
        let first = parts.next().unwrap_or("");
        let module = if first == "way" { format!("way.{}", parts.next().unwrap_or("")) } else { first.to_string() };
        found.push((name.to_string(), module));
    }
    found
}
