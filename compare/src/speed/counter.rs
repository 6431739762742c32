//! Valgrind's count of instructions (its tool callgrind), asked from within the process that it watches.
//!
//! Callgrind counts from where one of the named functions is entered until it returns. So the tool's own loops are left out,
//! and what is counted of a call is the function that is called, on either side. Where none is named, all is counted.

use std::arch::asm;
use std::cell::Cell;
use std::fmt::Display;
use std::fs;
use std::io::ErrorKind;
use std::path::PathBuf;
use std::process::Command;

/// The port's functions and the original's, by their names.
pub const COUNTED: [&str; 2] = ["vigbuso_*", "compare::oracle::asked::*"];

/// Requests to callgrind, by their numbers in its header `callgrind.h`.
const DUMP: u64 = u32::from_be_bytes(*b"CT\0\0") as u64;
const ZERO: u64 = DUMP + 1;

pub struct Counter {
    /// Each dump is a file of this name with its number behind.
    dumps: PathBuf,
    made: Cell<u32>,
}

impl Counter {
    pub fn new(dumps: &str) -> Counter {
        Counter { dumps: PathBuf::from(dumps), made: Cell::new(0) }
    }

    pub fn begin(&self) {
        request(ZERO);
    }

    /// Instructions since the beginning.
    pub fn end(&self) -> u64 {
        request(DUMP);
        self.made.set(self.made.get() + 1);
        let file = self.dumps.with_extension(self.made.get().to_string());
        let text = fs::read_to_string(&file).unwrap_or_else(|error| panic!("{}: {error}", file.display()));
        // Not its `totals`: these can have counts from before the beginning.
        let total = text.lines().find_map(|line| line.strip_prefix("summary: ")).and_then(|total| total.parse().ok());
        fs::remove_file(&file).unwrap_or_else(|error| panic!("{}: {error}", file.display()));
        match total {
            Some(0) | None => panic!("callgrind saw none of the functions that it counts"),
            Some(total) => total,
        }
    }
}

/// Valgrind knows a request by these instructions, which change nothing: turns by 128 bits in all, and an exchange of a register
/// with itself.
fn request(number: u64) {
    let arguments = [number, 0, 0, 0, 0, 0];
    // SAFETY: the instructions change no register; valgrind reads the arguments and answers in RDX.
    unsafe {
        asm!(
            "rol rdi, 3",
            "rol rdi, 13",
            "rol rdi, 61",
            "rol rdi, 51",
            "xchg rbx, rbx",
            in("rax") arguments.as_ptr(),
            inout("rdx") 0_u64 => _,
        );
    }
}

/// Instructions of some work.
pub fn counted(counter: &Counter, work: impl FnOnce()) -> f64 {
    counter.begin();
    work();
    counter.end() as f64
}

/// Runs this program's command under callgrind, which counts these functions, with `--worker` and the dumps' name behind, and with one
/// more of glibc's tunables. Whether it saw no difference.
pub fn watch(command: &str, words: &[String], functions: &[&str], tunable: Option<&str>) -> Result<bool, String> {
    let told = |error: &dyn Display| format!("valgrind: {error}");
    let program = std::env::current_exe().map_err(|error| told(&error))?;
    let folder = std::env::temp_dir().join(format!("vigbuso-{command}-{}", std::process::id()));
    fs::create_dir(&folder).map_err(|error| told(&error))?;
    let dumps = folder.join("dump");
    let mut valgrind = Command::new("valgrind");
    valgrind.args(["--quiet", "--tool=callgrind"]);
    valgrind.arg(format!("--collect-atstart={}", if functions.is_empty() { "yes" } else { "no" }));
    valgrind.args(functions.iter().map(|name| format!("--toggle-collect={name}")));
    valgrind.arg(format!("--callgrind-out-file={}", dumps.display()));
    // Valgrind would count each byte that a `rep stosb` of glibc's memset clears.
    let tunables: Vec<&str> = ["glibc.cpu.hwcaps=-ERMS"].into_iter().chain(tunable).collect();
    valgrind.env("GLIBC_TUNABLES", tunables.join(":"));
    let status = valgrind.arg(program).arg(command).args(words).arg("--worker").arg(&dumps).status();
    fs::remove_dir_all(&folder).map_err(|error| told(&error))?;
    match status {
        Ok(status) => match status.code() {
            Some(0) => Ok(true),
            Some(1) => Ok(false),
            _ => Err(told(&status)),
        },
        Err(error) if error.kind() == ErrorKind::NotFound => Err("count needs valgrind, which is not installed".into()),
        Err(error) => Err(told(&error)),
    }
}
