//! Reads the original's source, replaces the parts that `seams/parts.rs` lists, and writes it to `OUT_DIR/original`, to be
//! compiled as the module `oracle::original`. Nothing of it is kept in the repository.
//!
//! A part whose place is not found exactly once stops the build.

#[path = "seams/parts.rs"]
mod parts;

use std::env;
use std::fs;
use std::path::{Path, PathBuf};

use parts::{Part, PARTS};

/// The files that are read, in the original's own layout.
const FILES: [&str; 7] = ["arena.rs", "classes.rs", "counters.rs", "heap.rs", "page.rs", "sys/mod.rs", "sys/unix.rs"];

/// The modules that stand beside each other in the original's root.
const MODULES: [&str; 6] = ["arena", "classes", "counters", "heap", "page", "sys"];

/// Spellings that stand in many places: the root's path, and the features `std` (on) and `telemetry` (off).
const EVERYWHERE: [(&str, &str); 3] = [
    ("crate::", "crate::oracle::original::"),
    ("feature = \"std\"", "original_std"),
    ("feature = \"telemetry\"", "original_telemetry"),
];

fn main() {
    let package = PathBuf::from(env::var("CARGO_MANIFEST_DIR").expect("CARGO_MANIFEST_DIR"));
    let out = PathBuf::from(env::var("OUT_DIR").expect("OUT_DIR")).join("original");
    println!("cargo:rustc-check-cfg=cfg(original_std, original_telemetry)");
    println!("cargo:rustc-cfg=original_std");
    println!("cargo:rerun-if-changed={}", package.join("build.rs").display());
    println!("cargo:rerun-if-changed={}", package.join("seams").display());
    patched_original(&original_folder(&package), &package, &out);
    find_port(&package);
}

fn original_folder(package: &Path) -> PathBuf {
    println!("cargo:rerun-if-env-changed=VIGBUSO_ORIGINAL");
    match env::var_os("VIGBUSO_ORIGINAL") {
        Some(folder) => PathBuf::from(folder),
        None => package.join("../../shared/docs/src"),
    }
}

fn patched_original(from: &Path, package: &Path, out: &Path) {
    fs::create_dir_all(out.join("sys")).expect("a folder for the patched source");
    let mut seen = [0; EVERYWHERE.len()];
    for file in FILES {
        let path = from.join(file);
        println!("cargo:rerun-if-changed={}", path.display());
        let mut text = fs::read_to_string(&path).unwrap_or_else(|error| {
            panic!(
                "the original's {} cannot be read ({error}); set VIGBUSO_ORIGINAL to the folder of its source",
                path.display()
            )
        });
        for (count, (find, put)) in seen.iter_mut().zip(EVERYWHERE) {
            *count += text.matches(find).count();
            text = text.replace(find, put);
        }
        for part in PARTS.iter().filter(|part| part.file == file) {
            text = replaced(&text, part);
        }
        fs::write(out.join(file), text + &seam(package, file)).expect("the patched source is written");
    }
    for (count, (find, _)) in seen.iter().zip(EVERYWHERE) {
        assert!(*count > 0, "no file of the original has `{find}`: this is not the source that the parts are of");
    }
    for part in &PARTS {
        assert!(FILES.contains(&part.file), "a part is of {}, which is not read", part.file);
    }
    let root: String = MODULES.iter().map(|name| declaration(out, name)).collect();
    fs::write(out.join("root.rs"), root).expect("the patched root is written");
}

fn replaced(text: &str, part: &Part) -> String {
    let places = text.matches(part.from).count();
    let told = format!("the part of {} ({})", part.file, part.why);
    assert!(places == 1, "{told} has {places} places in this source, not 1. It begins with:\n{}", part.from);
    let (before, after) = text.split_once(part.from).expect("it has one place");
    let end = after.find(part.to).unwrap_or_else(|| panic!("{told} has no end. It ends with:\n{}", part.to));
    [before, part.put, &after[end + part.to.len()..]].concat()
}

/// What the comparison asks beyond the file's own functions, added at its end where `seams/` has it.
fn seam(package: &Path, file: &str) -> String {
    fs::read_to_string(package.join("seams").join(file)).map(|text| format!("\n{text}")).unwrap_or_default()
}

fn declaration(out: &Path, name: &str) -> String {
    let nested = out.join(name).join("mod.rs");
    let path = if nested.exists() { nested } else { out.join(format!("{name}.rs")) };
    format!("#[path = {path:?}]\npub(crate) mod {name};\n")
}

/// Where the archive is. It is linked where its functions are declared; the stand-in does without.
fn find_port(package: &Path) {
    println!("cargo:rerun-if-env-changed=VIGBUSO_STATICLIB_DIR");
    let folder = match env::var_os("VIGBUSO_STATICLIB_DIR") {
        Some(folder) => PathBuf::from(folder),
        None => package.join("../target/staticlib"),
    };
    println!("cargo:rerun-if-changed={}", folder.join("libvigbuso.a").display());
    println!("cargo:rustc-link-search=native={}", folder.display());
}
