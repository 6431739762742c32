//! A temporary repository with the model and a crate of equations, and the checker's verdict on it.

use std::fs;
use std::io;
use std::path::{Path, PathBuf};
use std::process::Command;

use super::{combed, equations, names, Case};
use crate::oracle::rules::Rules;

/// The crate of equations.
const OWN: &str = "as_answered";
/// What each crate of the repository may have.
const PARTS: [&str; 3] = ["src", "specs", "proofs"];

/// What the checker says of the histories.
pub struct Verdict {
    /// Those whose computation passes its limit of steps, so that it cannot tell.
    pub too_long: Vec<usize>,
    pub refused: Option<Refused>,
}

/// What the checker refuses, and where it can be seen again.
pub struct Refused {
    pub history: Option<usize>,
    pub said: String,
    pub folder: PathBuf,
}

/// Copies the model out of the repository at `root`, and has the checker compute the histories. Those that are too long
/// for it are left out, and the others computed again, so that the verdict is on all the others at once.
pub fn check(root: &Path, cases: &[Case], rules: Rules) -> Result<Verdict, String> {
    let folder = std::env::temp_dir().join(format!("vigbuso-model-test-{}", std::process::id()));
    let mut too_long: Vec<usize> = Vec::new();
    loop {
        let asked: Vec<usize> = (0..cases.len()).filter(|at| !too_long.contains(at)).collect();
        let built = build(root, &folder, &asked, cases, rules);
        built.map_err(|error| format!("{}: {error}", folder.display()))?;
        let (good, said) = run_checker(&folder)?;
        if good {
            let _ = fs::remove_dir_all(&folder);
            return Ok(Verdict { too_long, refused: None });
        }
        let errors: Vec<&str> = said.lines().filter(|line| line.contains(": error: ")).collect();
        let named = |line: &str| asked.iter().copied().find(|&at| line.contains(&file_name(at)));
        let passed: Vec<usize> =
            errors.iter().filter(|line| line.contains(STEP_LIMIT)).filter_map(|line| named(line)).collect();
        if passed.is_empty() || passed.len() < errors.len() {
            let others = errors.iter().filter(|line| !line.contains(STEP_LIMIT));
            let history = others.clone().find_map(|line| named(line));
            let said = if errors.is_empty() { said } else { errors.join("\n") };
            return Ok(Verdict { too_long, refused: Some(Refused { history, said, folder }) });
        }
        too_long.extend(passed);
    }
}

/// In the checker's words: one declaration took too many steps.
const STEP_LIMIT: &str = "stopped at the step limit";

fn run_checker(folder: &Path) -> Result<(bool, String), String> {
    let output = Command::new("rt")
        .arg("check")
        .current_dir(folder.join("crates").join(OWN))
        .output()
        .map_err(|error| format!("`rt check` cannot be run: {error}"))?;
    let said = String::from_utf8_lossy(&output.stdout).into_owned() + &String::from_utf8_lossy(&output.stderr);
    Ok((output.status.success(), said))
}

fn build(root: &Path, folder: &Path, asked: &[usize], cases: &[Case], rules: Rules) -> io::Result<()> {
    let list = fs::read_to_string(root.join("crates.txt"))?;
    let needed = closure(&list, names::CRATE);
    let mut crates = String::new();
    for (name, uses) in &needed {
        crates += &format!("{name}: {}\n", uses.join(" "));
        for part in PARTS {
            copy(&root.join("crates").join(name).join(part), &folder.join("crates").join(name).join(part))?;
        }
    }
    let all: Vec<&str> = needed.iter().map(|(name, _)| name.as_str()).collect();
    crates += &format!("{OWN}: {}\n", all.join(" "));
    fs::write(folder.join("crates.txt"), crates)?;

    let own = folder.join("crates").join(OWN);
    let _ = fs::remove_dir_all(&own);
    fs::create_dir_all(own.join("src"))?;
    fs::create_dir_all(own.join("proofs"))?;
    fs::write(
        own.join("src/lib.rt"),
        "// The equations are in proofs/.\n#![tactic(auto)]\n\npub fn keep(x: u32) -> u32 {\n    x\n}\n",
    )?;
    let mut modules = String::from("pub mod Answers\n");
    fs::write(own.join("proofs/Answers.antt"), equations::answers_module(&unfoldable(root, &all)?))?;
    if asked.iter().any(|&at| cases[at].start.is_some()) {
        modules += "pub mod Combed\n";
        fs::write(own.join("proofs/Combed.antt"), combed::module(OWN))?;
    }
    for &at in asked {
        let text = match &cases[at] {
            Case { history, .. } if rules == Rules::Plain => equations::module_original(OWN, history),
            Case { start: None, history } => equations::module(OWN, history),
            Case { start: Some(comb), history } => equations::module_from(OWN, history, &comb.term()),
        };
        modules += &format!("pub mod {}\n", module_name(at));
        fs::write(own.join("proofs").join(file_name(at)), text)?;
    }
    fs::write(own.join("proofs/Lib.antt"), modules)
}

fn module_name(at: usize) -> String {
    format!("History{at}")
}

fn file_name(at: usize) -> String {
    module_name(at) + ".antt"
}

/// A crate of `crates.txt` and those that it uses, each with its line's names.
fn closure(list: &str, name: &str) -> Vec<(String, Vec<String>)> {
    let lines: Vec<(String, Vec<String>)> = list
        .lines()
        .filter_map(|line| line.split('#').next().unwrap_or("").split_once(':'))
        .map(|(name, uses)| (name.trim().to_string(), uses.split_whitespace().map(String::from).collect()))
        .collect();
    let mut needed: Vec<String> = vec![name.to_string()];
    let mut at = 0;
    while let Some(name) = needed.get(at).cloned() {
        for other in lines.iter().filter(|(line, _)| *line == name).flat_map(|(_, uses)| uses) {
            if !needed.contains(other) {
                needed.push(other.clone());
            }
        }
        at += 1;
    }
    lines.into_iter().filter(|(name, _)| needed.contains(name)).collect()
}

/// Crate, module and names of the definitions that are shut unless they are named. Those in folders of the specs are the code's, and no
/// answer of the model needs them.
fn unfoldable(root: &Path, crates: &[&str]) -> io::Result<Vec<(String, String, Vec<String>)>> {
    let mut found = Vec::new();
    for name in crates {
        let folder = root.join("crates").join(name).join("specs");
        let mut files: Vec<PathBuf> = entries(&folder)?.into_iter().filter(|path| path.is_file()).collect();
        files.sort();
        for file in files {
            let text = fs::read_to_string(&file)?;
            let shut = text.lines().filter_map(|line| line.strip_prefix("unfoldable pub "));
            let names: Vec<String> = shut.filter_map(|rest| rest.split_whitespace().next()).map(String::from).collect();
            if let (false, Some(module)) = (names.is_empty(), file.file_stem().and_then(|stem| stem.to_str())) {
                found.push((name.to_string(), module.to_string(), names));
            }
        }
    }
    Ok(found)
}

fn entries(folder: &Path) -> io::Result<Vec<PathBuf>> {
    if !folder.exists() {
        return Ok(Vec::new());
    }
    fs::read_dir(folder)?.map(|entry| entry.map(|entry| entry.path())).collect()
}

fn copy(from: &Path, to: &Path) -> io::Result<()> {
    fs::create_dir_all(to)?;
    for path in entries(from)? {
        let target = to.join(path.file_name().unwrap_or_default());
        if path.is_dir() {
            copy(&path, &target)?;
        } else {
            fs::copy(&path, &target)?;
        }
    }
    Ok(())
}
