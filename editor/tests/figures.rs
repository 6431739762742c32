//! The example `figures`: its parts one by one, and the whole as a user runs it.

#[path = "../examples/figures/mod.rs"]
mod figures;

use std::path::{Path, PathBuf};
use std::process::{Command, Output};
use std::time::Duration;

use figures::arguments::Arguments;
use figures::room::{self, Unserved};
use figures::{input, plot, table, wait};
use vigbuso::{Heap, Trace};

const REPORT: u32 = 2 << 30;
const WORDS: [u32; 6] = [REPORT, 45, 1 << 30, REPORT, 64, REPORT];

const TABLE: &str = "       steps  blocks out           bytes  pages held        idle   highest bytes
           1           0               0           0          16               0
           4           2           32768           1          15           49152
           6          12          217088           4          12          217088
total: 6 of 6 steps, 13 blocks handed out, 3 reports
";

fn traced(words: &[u32]) -> (Trace, vigbuso::Traced) {
    let trace = Trace::from(words.to_vec());
    let traced = Heap::from_trace(16, &trace).expect("16 pages");
    (trace, traced)
}

fn text(words: &[u32]) -> String {
    let (trace, traced) = traced(words);
    let unserved = room::unserved(&trace, &traced).expect("the trace's own calls");
    table::text(&trace, &traced, unserved)
}

fn bytes(words: &[u32]) -> Vec<u8> {
    words.iter().flat_map(|word| word.to_le_bytes()).collect()
}

#[test]
fn a_table_has_a_line_for_each_report_and_a_total() {
    assert_eq!(text(&WORDS), TABLE);
    let stopped = text(&[45, REPORT, 1 << 30 | 9, REPORT]);
    assert!(stopped.ends_with(
        "total: 2 of 4 steps, 3 blocks handed out, 1 reports\n\
         stopped at step 3, 0x40000009: it releases block 9, counted from 0, which is not out\n"
    ));
    assert!(text(&[76]).ends_with("stopped at step 1, 0x0000004c: it is no take, release or report\n"));
    assert_eq!(text(&[]).lines().count(), 2);
}

#[test]
fn a_file_has_words_or_numbers() {
    let trace = Trace::from(WORDS.to_vec());
    let lines = WORDS.map(|word| word.to_string()).join("\n");
    assert_eq!(input::trace(&bytes(&WORDS)), Ok(trace.clone()));
    assert_eq!(input::trace(lines.as_bytes()), Ok(trace.clone()));
    assert_eq!(input::trace(format!("\r\n {lines}\r\n\n").as_bytes()), Ok(trace));
    assert_eq!(input::trace(b""), Ok(Trace::new()));
    assert_eq!(input::trace(b"1\n4294967296\n"), Err("line 2: `4294967296` is no word of 32 bits".into()));
    assert_eq!(input::trace(&[1, 2, 3, 4, 5]), Err("5 bytes are no whole words of 32 bits".into()));
}

/// Spans of eight pages, with 8 blocks: two in sixteen pages. The last take has the block that went back.
#[test]
fn too_few_pages_are_said_to_be() {
    let (trace, two) = traced(&[75, 75]);
    assert_eq!(room::unserved(&trace, &two).expect("its calls"), None);
    let words = [75, 75, 75, REPORT, 1 << 30, 75];
    let (trace, traced) = traced(&words);
    assert_eq!(traced.blocks.len(), 8 + 8 + 1);
    assert_eq!(room::unserved(&trace, &traced).expect("its calls"), Some(Unserved { takes: 1, first: 3 }));
    assert!(text(&words).ends_with("16 pages are too few: 1 take found no room, the first at step 3\n"));
    // What was not handed out cannot be released.
    let stopped = text(&[75, 75, 75, 75, 1 << 30 | 16]);
    assert!(stopped.contains("\n16 pages are too few: 2 takes found no room, the first at step 3\nstopped at step 5, "));
}

/// "Of 16" is the number that the panel goes up to, whatever was held; and the axis has steps, for a fill's words are others.
#[test]
fn a_scale_of_sixteen_goes_up_to_sixteen() {
    let (trace, traced) = traced(&WORDS);
    let svg = plot::svg(&trace, &traced);
    let panel = svg.split("pages held, of 16</text>").nth(1).expect("the second panel");
    let numbers: Vec<&str> =
        panel.split("class=\"left\">").skip(1).map(|rest| rest.split('<').next().expect("a number")).collect();
    assert_eq!(numbers, ["0", "5", "10", "16"]);
    // 4 of 16 pages are a quarter of the panel's 150 pixels, and the curve's highest point.
    let lines: Vec<usize> =
        panel.split("y1=\"").skip(1).map(|rest| rest.split('"').next().expect("y").parse().expect("y")).collect();
    let curve = panel.split("points=\"").nth(1).and_then(|rest| rest.split('"').next()).expect("a curve");
    let highest =
        curve.split(' ').map(|point| point.split_once(',').expect("x,y").1.parse::<usize>().expect("y")).min();
    assert_eq!(highest, Some(lines[0] - 4 * 150 / 16));
    assert!(svg.contains(">steps: takes, releases and reports</text>") && !svg.contains("words"));
}

#[test]
fn a_picture_has_two_curves() {
    for words in [&WORDS[..], &[], &[REPORT], &[45]] {
        let (trace, traced) = traced(words);
        let svg = plot::svg(&trace, &traced);
        assert!(svg.starts_with("<svg ") && svg.ends_with("</svg>\n"));
        assert_eq!(svg.matches("<polygon").count(), 2);
        assert!(svg.contains("KiB out") && svg.contains("pages held, of 16"));
    }
}

#[test]
fn options() {
    let parse = |words: &[&str]| Arguments::parse(words.iter().map(ToString::to_string));
    assert_eq!(parse(&["--help"]), Ok(None));
    let all = Arguments { file: "a".into(), pages: 7, svg: Some("b".into()) };
    assert_eq!(parse(&["--pages", "7", "a", "--svg", "b"]), Ok(Some(all)));
    for bad in [&[][..], &["a", "b"], &["--svg"], &["--no", "a"]] {
        assert!(parse(bad).is_err(), "{bad:?}");
    }
    for bad in ["x", "0", "1048577", "-1"] {
        let due = format!("--pages wants a number from 1 to 1048576, not `{bad}`");
        assert_eq!(parse(&["--pages", bad, "a"]), Err(due));
    }
}

#[test]
fn waiting_gives_the_result() {
    assert_eq!(wait::until_done(5, || 7), 7);
    assert_eq!(wait::text(10_000_000, Duration::from_millis(1_240)), "carrying out 10000000 steps: 1.2 s");
}

fn scratch(name: &str) -> PathBuf {
    Path::new(env!("CARGO_TARGET_TMPDIR")).join(name)
}

fn example(name: &str, words: &[&str]) -> Output {
    let mut cargo = Command::new(env!("CARGO"));
    cargo.args(["run", "--quiet", "--offline", "--example", name, "--"]).args(words);
    cargo.current_dir(env!("CARGO_MANIFEST_DIR")).output().expect("cargo is run")
}

#[test]
fn as_a_user_runs_it() {
    let (file, svg) = (scratch("words.trace"), scratch("figures.svg"));
    let (file, svg) = (file.to_str().expect("a path"), svg.to_str().expect("a path"));
    std::fs::write(file, bytes(&WORDS)).expect("a file");
    let output = example("figures", &[file, "--pages", "16", "--svg", svg]);
    assert!(output.status.success());
    assert_eq!(String::from_utf8_lossy(&output.stdout), format!("{TABLE}picture: {svg}\n"));
    assert!(std::fs::read_to_string(svg).expect("a picture").contains("<polygon"));
    let none = example("figures", &[file, "--pages", "0"]);
    assert!(!none.status.success());
    assert_eq!(String::from_utf8_lossy(&none.stderr), "figures: --pages wants a number from 1 to 1048576, not `0`\n");
    let few = example("figures", &[file, "--pages", "2"]);
    assert!(String::from_utf8_lossy(&few.stdout)
        .ends_with("\n2 pages are too few: 1 take found no room, the first at step 5\n"));
}

/// The fill's own trace is carried out to its end, and what its records used is back.
#[test]
fn a_fills_trace() {
    let file = scratch("fill.trace");
    let file = file.to_str().expect("a path");
    let output = example("fill", &["--turns", "2000", "--trace", file]);
    assert!(output.status.success(), "{}", String::from_utf8_lossy(&output.stderr));
    let trace = input::trace(&std::fs::read(file).expect("a trace")).expect("words");
    let traced = Heap::from_trace(32, &trace).expect("32 pages");
    assert!(!traced.stopped && traced.figures.len() >= 21, "{traced:?}");
    let (last, most) =
        (traced.figures.last().expect("a report"), traced.figures.iter().map(|figures| figures.out).max());
    assert!(last.out < most.expect("a report"), "{last}");
    assert_eq!(last.highest, traced.figures.iter().map(|figures| figures.highest).max().expect("a report"));
}
