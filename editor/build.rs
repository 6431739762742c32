//! Links `libvigbuso.a`: the one in the folder that `VIGBUSO_STATICLIB_DIR` names; otherwise, in the repository, its own, which
//! `package/archive` makes anew here if it is not there or older than its sources; elsewhere the one in the package's `lib/`,
//! where a release has it. Documentation alone (`DOCS_RS` is set) needs none.

use std::io::Write;
use std::path::{Path, PathBuf};
use std::process::Command;
use std::time::{Instant, SystemTime};
use std::{env, fs};

const ARCHIVE: &str = "libvigbuso.a";
const NAMED: &str = "VIGBUSO_STATICLIB_DIR";

/// The repository's list of crates, and the command that makes the archive there.
const CRATES: &str = "crates.txt";
const MAKER: &str = "package/archive";

/// The name that only an archive with this crate's calls has. `src/ffi.rs` calls it, but the linker would say less plainly what is
/// wrong with another archive.
const ABI: &str = "vigbuso_abi_7";

fn main() {
    println!("cargo:rerun-if-changed=build.rs");
    println!("cargo:rerun-if-env-changed={NAMED}");
    println!("cargo:rerun-if-env-changed=DOCS_RS");
    if env::var_os("DOCS_RS").is_some() {
        return;
    }
    refuse_other_targets();
    let package = PathBuf::from(env::var("CARGO_MANIFEST_DIR").expect("CARGO_MANIFEST_DIR"));
    let root = package.parent().filter(|root| root.join(CRATES).exists());
    let folder = match (env::var_os(NAMED).filter(|name| !name.is_empty()), root) {
        (Some(name), _) => named_folder(&package, Path::new(&name)),
        (None, Some(root)) => own_folder(root),
        (None, None) => released_folder(&package),
    };
    let archive = folder.join(ARCHIVE);
    println!("cargo:rerun-if-changed={}", archive.display());
    refuse_other_archives(&archive);
    println!("cargo:rustc-link-search=native={}", folder.display());
    println!("cargo:rustc-link-lib=static=vigbuso");
    // The test of the C header links the same archive.
    println!("cargo:rustc-env=VIGBUSO_ARCHIVE={}", archive.display());
}

/// A relative name is seen from where cargo was called, which the shell says in `PWD`: cargo runs this program in the package's
/// folder. Where `PWD` is not set, it is seen from there.
fn named_folder(package: &Path, name: &Path) -> PathBuf {
    if name.is_relative() {
        println!("cargo:rerun-if-env-changed=PWD");
    }
    let stand = env::var_os("PWD").map_or_else(|| package.to_path_buf(), PathBuf::from);
    let folder = stand.join(name);
    assert!(
        folder.join(ARCHIVE).exists(),
        "there is no {ARCHIVE} in {}, the folder that {NAMED} names ({}, seen from {})",
        folder.display(),
        name.display(),
        stand.display()
    );
    folder
}

/// An archive of another version may have other parameters for the same name.
fn refuse_other_archives(archive: &Path) {
    let bytes = fs::read(archive).unwrap_or_else(|error| panic!("{}: {error}", archive.display()));
    let has = format!("{ABI}\0");
    assert!(
        bytes.windows(has.len()).any(|part| part == has.as_bytes()),
        "{} is not of version {}: it has no `{ABI}`, which this crate calls",
        archive.display(),
        env!("CARGO_PKG_VERSION")
    );
}

/// The archive's code is for one kind of machine. The linker would say so less plainly.
fn refuse_other_targets() {
    let of = |name: &str| env::var(name).unwrap_or_default();
    let target = of("TARGET");
    let fits = of("CARGO_CFG_TARGET_ARCH") == "x86_64" && of("CARGO_CFG_TARGET_OS") == "linux";
    assert!(fits, "{ARCHIVE} links only into programs for x86-64 Linux, and the target is {target}");
}

/// Where a release has the archive.
fn released_folder(package: &Path) -> PathBuf {
    let folder = package.join("lib");
    assert!(
        folder.join(ARCHIVE).exists(),
        "there is no {ARCHIVE} in {}, as a release has it, nor is this the repository that it is made in: name its folder in {NAMED}",
        folder.display()
    );
    folder
}

/// The repository's own archive, no older than what it is made of.
fn own_folder(root: &Path) -> PathBuf {
    let folder = root.join("target/staticlib");
    let sources = sources(root);
    for source in &sources {
        println!("cargo:rerun-if-changed={}", source.display());
    }
    let made = modified(&folder.join(ARCHIVE));
    let newest = sources.iter().filter_map(|source| newest(source)).max();
    if made.is_none() || made < newest {
        build(root, if made.is_none() { "is not there" } else { "is older than its sources" });
    }
    folder
}

/// The list of crates, and the sources of each crate in the archive: `vigbuso_c`, and what it uses directly or by others.
fn sources(root: &Path) -> Vec<PathBuf> {
    let list = root.join(CRATES);
    let text = fs::read_to_string(&list).unwrap_or_else(|error| panic!("{}: {error}", list.display()));
    let uses = |name: &str| {
        let of = |line| {
            let (head, uses): (&str, &str) = str::split_once(line, ':')?;
            (head.split_whitespace().next() == Some(name)).then_some(uses)
        };
        text.lines().find_map(of).unwrap_or("").split_whitespace()
    };
    let mut crates = vec!["vigbuso_c"];
    let mut at = 0;
    while let Some(name) = crates.get(at).copied() {
        crates.extend(uses(name).filter(|other| !crates.contains(other)).collect::<Vec<_>>());
        at += 1;
    }
    // Beside these a crate has what a check writes.
    let parts = crates
        .into_iter()
        .flat_map(|name| ["src", "specs", "proofs"].map(|part| root.join("crates").join(name).join(part)));
    parts.filter(|part| part.exists()).chain([list]).collect()
}

fn modified(path: &Path) -> Option<SystemTime> {
    fs::metadata(path).and_then(|found| found.modified()).ok()
}

/// When a file, or anything in a folder, was last changed. A folder changes too when a file of it goes.
fn newest(path: &Path) -> Option<SystemTime> {
    let inside = fs::read_dir(path).into_iter().flatten().flatten();
    inside.filter_map(|entry| newest(&entry.path())).max().max(modified(path))
}

/// Proves the library and makes the archive, and says so: it takes minutes.
fn build(root: &Path, why: &str) {
    let news = format!("{ARCHIVE} {why}: `{MAKER}` proves the library anew, which takes minutes");
    println!("cargo:warning={news}");
    // Cargo shows a warning when this program has ended, so whoever waits at a terminal is told now.
    if let Ok(mut terminal) = fs::OpenOptions::new().write(true).open("/dev/tty") {
        // A terminal that cannot be written to is no reason to stop.
        let _ = writeln!(terminal, "vigbuso: {news}");
    }
    let start = Instant::now();
    let status = Command::new(root.join(MAKER)).current_dir(root).status();
    let status = status.unwrap_or_else(|error| panic!("`{MAKER}` cannot be run ({error})"));
    assert!(
        status.success(),
        "`{MAKER}` failed ({status}): it needs `rt` on the path; or name a folder with {ARCHIVE} in {NAMED}"
    );
    println!("cargo:warning={ARCHIVE} was made in {} s", start.elapsed().as_secs());
}
