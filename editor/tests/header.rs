//! `include/vigbuso.h` as a C or C++ program sees it: compiled without a warning, linked with the archive and run.

use std::io::ErrorKind;
use std::path::{Path, PathBuf};
use std::process::{Command, Output};

const HEADER: &str = include_str!("../../include/vigbuso.h");
const WARNINGS: [&str; 4] = ["-Wall", "-Wextra", "-pedantic", "-Werror"];
const C: (&str, &[&str]) = ("gcc", &["-std=c11"]);
const CPP: (&str, &[&str]) = ("g++", &["-std=c++11", "-x", "c++"]);

/// What a command answers. Where it is not there the test says so, and fails where the tests are a gate (`CI` is set).
fn run(command: &mut Command) -> Option<Output> {
    match command.output() {
        Err(error) if error.kind() == ErrorKind::NotFound => {
            let name = command.get_program().to_string_lossy().into_owned();
            assert!(std::env::var_os("CI").is_none(), "there is no {name} here, and `CI` is set");
            println!("skipped: there is no {name} here");
            None
        }
        other => Some(other.expect("the command is run")),
    }
}

fn scratch(name: &str) -> PathBuf {
    Path::new(env!("CARGO_TARGET_TMPDIR")).join(name)
}

/// Compiles a source of this package and links it with an archive.
fn compile((compiler, language): (&str, &[&str]), source: &str, archive: &Path, program: &Path) -> Option<Output> {
    let package = Path::new(env!("CARGO_MANIFEST_DIR"));
    let mut command = Command::new(compiler);
    command.args(WARNINGS).args(language).arg("-I").arg(package.join("../include"));
    run(command.arg(package.join(source)).args(["-x", "none"]).arg(archive).arg("-o").arg(program))
}

/// What a program prints that was compiled and linked; none where there is no compiler.
fn prints(language: (&str, &[&str]), source: &str, program: &str) -> Option<String> {
    let program = scratch(program);
    let compiled = compile(language, source, Path::new(env!("VIGBUSO_ARCHIVE")), &program)?;
    assert!(compiled.status.success(), "{}: {}", language.0, String::from_utf8_lossy(&compiled.stderr));
    let ran = Command::new(&program).output().expect("the program is run");
    let printed = String::from_utf8_lossy(&ran.stdout).into_owned();
    assert!(ran.status.success(), "{printed}{}", String::from_utf8_lossy(&ran.stderr));
    Some(printed)
}

#[test]
fn a_c_program_calls_every_function() {
    prints(C, "tests/header.c", "header-c");
}

#[test]
fn a_cpp_program_calls_every_function() {
    prints(CPP, "tests/header.c", "header-cpp");
}

/// The example, in both languages.
#[test]
fn a_c_program_stores_records() {
    let due = "Keeps bees (8): APIARIST\ndropped again: a block is not out in this class\n";
    for (language, program) in [(C, "records-c"), (CPP, "records-cpp")] {
        assert!(prints(language, "examples/records.c", program).is_none_or(|printed| printed == due));
    }
}

/// The same of the heap, the pool and pages by hand in one program.
#[test]
fn a_c_program_mixes_heap_and_pool() {
    let due = "released: a block is not out in this class\n\
        5 and 3 leave 4: 4+3 5+2 0+2 2+0 2+3 5+0\n\
        6 and 4 leave 5: never\n\
        9 and 4 leave 6: 6+4 9+1 0+1 1+0 1+4 5+0 5+4 9+0\n\
        11 and 7 leave 5: 5+7 11+1 0+1 1+0 1+7 8+0 8+7 11+4 0+4 4+0 4+7 11+0\n";
    for (language, program) in [(C, "mixed-c"), (CPP, "mixed-cpp")] {
        assert!(prints(language, "examples/mixed.c", program).is_none_or(|printed| printed == due));
    }
}

/// An archive with another number, which its name has: that of before, say.
#[test]
fn another_archive_does_not_link() {
    let (other, program) = (scratch("libother.a"), scratch("records-other"));
    let mut rename = Command::new("objcopy");
    rename.args(["--redefine-sym", "vigbuso_abi_7=vigbuso_abi_6", env!("VIGBUSO_ARCHIVE")]).arg(&other);
    let Some(renamed) = run(&mut rename) else { return };
    assert!(renamed.status.success(), "{}", String::from_utf8_lossy(&renamed.stderr));
    for language in [C, CPP] {
        let Some(compiled) = compile(language, "examples/records.c", &other, &program) else { return };
        let said = String::from_utf8_lossy(&compiled.stderr);
        assert!(!compiled.status.success() && said.contains("undefined reference to `vigbuso_abi_7'"), "{said}");
    }
}

#[test]
fn the_version_is_the_crates() {
    let version = format!("#define VIGBUSO_VERSION \"{}\"\n", env!("CARGO_PKG_VERSION"));
    assert!(HEADER.contains(&version), "the header has another version than {version}");
}

/// Every function that the header declares is called by `header.c`.
#[test]
fn no_function_is_left_out() {
    let program = include_str!("header.c");
    let names = HEADER.split("vigbuso_").skip(1).filter_map(|rest| rest.split_once('(')).map(|(name, _)| name);
    let is_name = |name: &&str| name.chars().all(|c| c.is_ascii_lowercase() || c.is_ascii_digit() || c == '_');
    for name in names.filter(is_name) {
        assert!(program.contains(&format!("vigbuso_{name}(")), "vigbuso_{name} is not called");
    }
}
