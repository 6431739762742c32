//! The example `fill`: its parts one by one, and the whole as a user runs it.

#[allow(dead_code)]
#[path = "../examples/fill/mod.rs"]
mod fill;

use std::collections::{HashMap, HashSet};
use std::path::{Path, PathBuf};
use std::process::{Command, Output};

use fill::arguments::Arguments;
use fill::grid::Grid;
use fill::job::{Done, Job};
use fill::search::{Progress, Stop};
use fill::store::Store;
use fill::svg::Colour;
use fill::words::Words;
use fill::{picture, plot, progress};
use vigbuso::Rules;

const WORDS: &str = include_str!("../examples/words.txt");
const LARGE: &str = include_str!("../examples/fill/15x15.txt");
const README: &str = include_str!("../../README.md");
/// The README's pictures.
const ARENA: &str = include_str!("../arena.svg");
const SEARCH: &str = include_str!("../search.svg");

/// What the search finds in the small grid.
const SMALL_FILL: &str = "\
J A B # # # R I B
O R A L # # A D O
B E G I N # V O W
# # # L A B E L #
# # H A V E N # #
# L O C A L # # #
F A N # L O Y A L
E V E # # W A G E
W A Y # # # K E G
score 598: 30 words out of 12713
";

fn job(turns: usize, pages: usize) -> Job {
    Job::new(&Arguments { pages, turns, ..Arguments::default() }).expect("the default grid and words")
}

fn large(turns: usize) -> Job {
    Job { grid: Grid::parse(LARGE).expect("a grid"), ..job(turns, 32) }
}

fn run(job: &Job) -> Done {
    job.run(&mut |_| ()).expect("a search")
}

fn shown(job: &Job, done: &Done) -> String {
    job.grid.show(&done.best.as_ref().expect("a fill").letters)
}

/// The words in a grid's lines, and in its columns.
fn words_of(grid: &str) -> Vec<String> {
    let rows: Vec<Vec<char>> =
        grid.lines().map(|line| line.chars().filter(|letter| *letter != ' ').collect()).collect();
    let columns = (0..rows[0].len()).map(|column| rows.iter().map(|row| row[column]).collect());
    let lines: Vec<String> = rows.iter().map(|row| row.iter().collect()).chain(columns).collect();
    let words = lines.iter().flat_map(|line| line.split('#')).filter(|word| word.len() > 1);
    words.map(str::to_lowercase).collect()
}

/// The fill has so many words, all of the list, none twice, and their scores make its score.
fn assert_fill(job: &Job, done: &Done, count: usize) {
    let listed: HashSet<&str> = WORDS.lines().filter(|line| !line.starts_with('#')).collect();
    let words = words_of(&shown(job, done));
    assert_eq!(words.len(), count);
    assert_eq!(words.iter().collect::<HashSet<_>>().len(), count, "a word stands twice: {words:?}");
    let scores: HashMap<&[u8], u16> =
        (3..=15).flat_map(|length| job.words.of_length(length)).map(|word| (&word.letters[..], word.score)).collect();
    assert!(words.iter().all(|word| listed.contains(word.as_str())), "{words:?}");
    let score: u32 = words.iter().map(|word| u32::from(scores[word.as_bytes()])).sum();
    assert_eq!(done.best.as_ref().map(|best| best.score), Some(score));
}

#[test]
fn the_small_grid_is_filled() {
    let job = job(2_000, 32);
    let done = run(&job);
    assert_fill(&job, &done, 30);
    assert_eq!((done.stop, done.turns), (Stop::Turns, 2_000));
}

#[test]
fn the_large_grid_is_filled() {
    let squares: Vec<&str> = LARGE.split_whitespace().collect();
    assert_eq!(squares.len(), 15 * 15);
    assert!(squares.iter().eq(squares.iter().rev()), "half a turn gives the same pattern");
    let job = large(2_000);
    let done = run(&job);
    assert_fill(&job, &done, 32);
    assert_eq!(words_of(&shown(&job, &done)).iter().map(String::len).max(), Some(15));
}

#[test]
fn a_longer_search_is_no_worse() {
    let scores = [1_000, 4_000].map(|turns| run(&job(turns, 32)).best.expect("a fill").score);
    assert!(scores[0] <= scores[1], "{scores:?}");
}

#[test]
fn everything_is_tried_in_a_tiny_grid() {
    let grid = Grid::parse(". . .\n. # .\n. . .").expect("a grid");
    let words = Words::parse("cat 5\ncow 6\ntip 7\nwig 1\npat 90").expect("words");
    let job = Job { grid, words, ..job(1_000, 32) };
    let done = run(&job);
    assert_eq!((done.stop, done.best.is_none()), (Stop::Tried, true));
    let words = Words::parse("cat 5\ncow 6\ntip 7\nwig 1\nwip 2\ntop 3").expect("words");
    let job = Job { words, ..job };
    let done = run(&job);
    assert_eq!((done.stop, shown(&job, &done)), (Stop::Tried, "C A T\nO # I\nW I P\n".to_string()));
    assert_eq!(done.best.map(|best| best.score), Some(5 + 6 + 7 + 2));
}

/// Parking rules change where records stand, and never the fill.
#[test]
fn the_fill_is_the_same_with_parking_rules_of_its_own() {
    let plain = job(1_000, 32);
    let due = shown(&plain, &run(&plain));
    for keep in [0, 1, 256] {
        let job = Job { keep: Some(keep), ..job(1_000, 32) };
        let done = run(&job);
        assert_eq!(shown(&job, &done), due);
        assert!(done.report.overlap <= u64::from(keep), "{}", done.report);
    }
    let refused = Job { keep: Some(257), ..plain }.run(&mut |_| ()).err().expect("a limit above 256");
    assert!(refused.to_string().starts_with("refused as 19: "), "{refused}");
}

/// With few pages the search ends early, but a fill that it had found is still there.
#[test]
fn the_best_fill_is_kept_when_the_arena_is_full() {
    let mut kept = 0;
    for pages in 1..32 {
        let job = job(2_000, pages);
        let done = match job.run(&mut |_| ()) {
            Ok(done) => done,
            Err(error) => {
                assert_eq!(error.to_string(), format!("too few pages to begin with: {pages}"));
                continue;
            }
        };
        if done.stop != Stop::Full {
            break;
        }
        if done.best.is_some() {
            assert_fill(&job, &done, 30);
            assert!(job.text(&done).contains("until the arena was full\n"));
            kept += 1;
        }
    }
    assert!(kept > 0, "with no number of pages was the arena full after a fill");
}

#[test]
fn blocks_are_used_anew() {
    let (short, long) = (run(&job(1_000, 32)), run(&job(8_000, 32)));
    assert!(long.tally.records > 50 * long.tally.blocks(), "{} in {}", long.tally.records, long.tally.blocks());
    assert!(long.tally.records > 4 * short.tally.records);
    assert!(long.tally.blocks() < 2 * short.tally.blocks(), "the search's room does not grow with its turns");
    assert!(long.tally.most <= long.tally.blocks());
    assert!(long.report.held <= short.report.held + 8, "{} after {}", long.report, short.report);
}

#[test]
fn the_history_grows_no_longer_than_its_pages() {
    let done = run(&job(18_000, 32));
    let turns: Vec<u32> = done.history.iter().map(|sample| sample.turn).collect();
    assert!(turns.len() > 8_000 && turns.len() <= 4 * 65_536 / 16, "{} samples", turns.len());
    assert!(turns.is_sorted() && turns.last() == Some(&18_000));
    assert!(done.history.iter().all(|sample| u64::from(sample.pages_held) <= done.report.held));
}

#[test]
fn spans_are_one_field_and_neighbours_have_other_colours() {
    let done = run(&job(2_000, 32));
    let svg = picture::svg(&done.pages);
    let medium = ">29552</text>";
    assert_eq!(svg.matches(medium).count(), 1, "a span of four pages has one label");
    assert!(picture::text(&done.pages).contains('-'));
    let legend = svg.rsplit("class=\"size\"").next().expect("the legend comes last");
    let colours: Vec<&str> = legend.split(" fill=\"#").skip(1).map(|rest| &rest[..6]).collect();
    let parts = |colour: &str| [0, 2, 4].map(|at| i32::from_str_radix(&colour[at..at + 2], 16).expect("a colour"));
    for pair in colours.windows(2) {
        let apart: i32 = parts(pair[0]).iter().zip(parts(pair[1])).map(|(a, b)| (a - b).abs()).sum();
        assert!(apart > 60, "{pair:?} are too like each other");
    }
}

/// How far apart the eye sees two colours, by CIE 1976: 2 is just noticed.
fn apart(a: &str, b: &str) -> f64 {
    let lab = |colour: &str| {
        let part = |at: usize| f64::from(u8::from_str_radix(&colour[at..at + 2], 16).expect("a colour")) / 255.0;
        let linear = |part: f64| if part <= 0.04045 { part / 12.92 } else { ((part + 0.055) / 1.055).powf(2.4) };
        let [r, g, b] = [0, 2, 4].map(part).map(linear);
        let x = (0.4124 * r + 0.3576 * g + 0.1805 * b) / 0.95047;
        let (y, z) = (0.2126 * r + 0.7152 * g + 0.0722 * b, (0.0193 * r + 0.1192 * g + 0.9505 * b) / 1.08883);
        let [x, y, z] = [x, y, z].map(|t: f64| if t > 0.008_856 { t.cbrt() } else { 7.787 * t + 16.0 / 116.0 });
        [116.0 * y - 16.0, 500.0 * (x - y), 200.0 * (y - z)]
    };
    lab(a).iter().zip(lab(b)).map(|(a, b)| (a - b).powi(2)).sum::<f64>().sqrt()
}

/// Twenty classes, a hole, fresh pages and a run by hand: no two look alike in the legend.
#[test]
fn twenty_classes_have_twenty_colours() {
    let mut store = Store::open(64, Rules::every(0, 0)).expect("an arena");
    let put = |store: &mut Store, bytes| store.put(&vec![7; bytes]).expect("no refusal").expect("room");
    let hole = put(&mut store, 16_384);
    for number in 0..20 {
        put(&mut store, vigbuso::Class::small(number).expect("a class").bytes());
    }
    put(&mut store, 70_000);
    store.free(hole).expect("its place");
    store.flush().expect("its blocks");
    let svg = picture::svg(&store.pages().expect("what the heap says"));
    let legend = svg.rsplit("class=\"size\"").next().expect("the legend comes last");
    let colours: Vec<&str> = legend.split(" fill=\"#").skip(1).map(|rest| &rest[..6]).collect();
    assert_eq!(colours.len(), 20 + 3, "{legend}");
    // The run by hand comes first, hole and fresh pages last.
    let pale = |colour: &str| {
        let [r, g, b] = [0, 2, 4].map(|at| u8::from_str_radix(&colour[at..at + 2], 16).expect("a colour"));
        Colour(r, g, b).pale().code()[1..].to_string()
    };
    for (at, a) in colours.iter().enumerate() {
        for b in &colours[..at] {
            assert!(apart(a, b) > if at > 20 { 5.0 } else { 25.0 }, "#{a} and #{b} are too like each other");
            assert!(at > 20 || apart(&pale(a), &pale(b)) > 9.0, "#{a} and #{b} are too like each other, pale");
        }
    }
    // Each class's field has a stripe of it, however little is in use.
    assert!(colours[1..21].iter().all(|colour| svg.contains(&format!("height=\"8\" fill=\"#{colour}\""))));
}

#[test]
fn parked_pages_are_drawn_as_such() {
    let mut store = Store::open(32, Rules::default()).expect("an arena");
    let mut put = |bytes| store.put(&vec![7; bytes]).expect("no refusal").expect("room");
    let (_kept, records) = (put(100), [put(16), put(20_000), put(60_000)]);
    for record in records {
        store.free(record).expect("its place");
    }
    // As long as their blocks are in stock, the pages are in use.
    assert_eq!(store.report().expect("a reached book").overlap, 0);
    assert!(!picture::text(&store.pages().expect("what the heap says")).contains('~'));
    store.flush().expect("blocks that are out");
    let report = store.report().expect("a reached book");
    assert!(report.to_string().starts_with("13 pages held, 31 idle, 12 of them parked; "), "{report}");
    let pages = store.pages().expect("what the heap says");
    let rows: String = picture::text(&pages).lines().skip(1).take(2).collect();
    assert_eq!(rows.matches('~').count(), 12);
    assert!(picture::svg(&pages).contains("parked, medium class 11: 65472 bytes, 8 pages"));
}

#[test]
fn pictures_say_what_they_show() {
    let done = run(&job(500, 32));
    for svg in [picture::svg(&done.pages), plot::svg(&done.history, 32)] {
        assert!(svg.starts_with("<svg ") && svg.ends_with("</svg>\n"));
        assert_eq!((svg.matches("<title ").count(), svg.matches("<desc ").count()), (1, 1));
    }
}

/// The words of a list, with their scores.
fn listed(text: &str) -> Vec<(String, u16)> {
    let words = Words::parse(text).expect("words");
    let letters = |letters: &[u8]| String::from_utf8(letters.to_vec()).expect("letters");
    (0..16).flat_map(|length| words.of_length(length)).map(|word| (letters(&word.letters), word.score)).collect()
}

#[test]
fn words_have_scores_of_their_own_or_by_their_letters() {
    let words = Words::parse("# a remark\nbox\nbee 7\nit's\n\nbox\n").expect("words");
    let scores: Vec<u16> = words.of_length(3).iter().map(|word| word.score).collect();
    assert_eq!((scores, words.len(), words.left_out()), (vec![10 * (4 + 1 + 8) / 3, 7], 2, 1));
}

/// As crossword programs write them: in either case, with a semicolon before the score, for Windows or not.
#[test]
fn word_lists_are_taken_as_they_come() {
    let due = [("cat", 50), ("bee", 7)].map(|(word, score)| (word.to_string(), score));
    for text in ["cat 50\nbee 7", "CAT;50\nBEE;7\n", "Cat ; 50\r\nbEE\t7\r\n", "\u{feff}CAT;50\nbee 7\ncat;9\nCAT 8"] {
        assert_eq!(listed(text), due, "{text:?}");
    }
    let words = Words::parse("ICE CREAM;50\nCAF\u{c9};60\n;5\nmid-day;1").expect("words");
    assert_eq!((words.len(), words.left_out()), (0, 4));
}

#[test]
fn a_grid_has_spaces_or_none_and_letters_that_are_set() {
    let squares = |text: &str| {
        let grid = Grid::parse(text).expect("a grid");
        (grid.slots().to_vec(), grid.set())
    };
    assert_eq!(squares(". . #\n. c .\n# . ."), squares("..#\n.C.\n#..\n"));
    assert_eq!(squares("\n..#\r\n.C.\r\n#..\r\n\n").1, b"####c####");
}

/// Letters that are set stay, and what they make whole is a word.
#[test]
fn letters_that_are_set_stay() {
    let plain = Job { grid: Grid::parse("...\n.#.\n...").expect("a grid"), ..job(2_000, 32) };
    let set = Job { grid: Grid::parse(".AR\n.#.\nT..").expect("a grid"), ..job(2_000, 32) };
    let [free, bound] = [&plain, &set].map(|job| shown(job, &run(job)));
    assert_ne!(free, bound);
    assert_eq!((&bound[1..6], &bound[12..13]), (" A R\n", "T"));
    let best = run(&set).best.expect("a fill");
    assert!(run(&plain).best.is_some_and(|free| free.score >= best.score));

    let file = scratch("set.grid");
    std::fs::write(&file, "AQB\n.#.\n...\n").expect("a file");
    let arguments = Arguments { grid: Some(file.display().to_string()), turns: 2_000, ..Arguments::default() };
    let job = Job::new(&arguments).expect("a word that is set whole");
    assert_eq!(job.words.len(), 12_714);
    let done = run(&job);
    assert!(shown(&job, &done).starts_with("A Q B\n"));
}

/// What a user is told of a bad file: its name and the line.
#[test]
fn errors_name_the_file_and_the_line() {
    let refused = |option: &str, text: &[u8]| {
        let file = scratch(&format!("bad{option}"));
        std::fs::write(&file, text).expect("a file");
        let file = file.display().to_string();
        let words = [option.to_string(), file.clone()];
        let arguments = Arguments::parse(words.into_iter()).expect("an option");
        let error = Job::new(&arguments).err().expect("a bad file").to_string();
        error.strip_prefix(&format!("{file}: ")).expect("the file's name comes first").to_string()
    };
    let no_score = "line 3: `cat many`: `many` is no score of at most 65535";
    assert_eq!(refused("--words", b"# words\n\ncat many\n"), no_score);
    assert_eq!(refused("--words", b"bee;70000"), "line 1: `bee;70000`: `70000` is no score of at most 65535");
    let no_square = "line 2: `?` is no square: a dot is an open one, a letter is one that is set, # is a block";
    assert_eq!(refused("--grid", b"...\n.?.\n"), no_square);
    assert_eq!(refused("--grid", b"...\n\n..\n"), "line 3: the row has 2 squares, and the first has 3");
    assert_eq!(refused("--grid", b"#.\n.#\n"), "the grid has no room for a word");
    assert_eq!(refused("--grid", b"\n#####\nQ.Q.Z\n"), "line 3: no word of examples/words.txt fits `Q.Q.Z` across");
    assert_eq!(refused("--grid", b".#\nX#\nX#\nX#"), "line 1: no word of examples/words.txt fits `.XXX` down");
    let words = ["--words", "/nowhere/words"].map(String::from);
    let error = Job::new(&Arguments::parse(words.into_iter()).expect("an option")).err().expect("no file");
    assert!(error.to_string().starts_with("/nowhere/words: "), "{error}");
}

#[test]
fn bad_arguments_are_refused() {
    let parse = |words: &[&str]| Arguments::parse(words.iter().map(ToString::to_string));
    assert_eq!(parse(&[]), Ok(Arguments::default()));
    assert_eq!(parse(&["--turns", "7"]).map(|found| found.turns), Ok(7));
    assert_eq!(parse(&["--turns", "0"]), Err("--turns wants a number from 1 to 4294967295, not `0`".into()));
    assert_eq!(parse(&["--pages", "1048577"]), Err("--pages wants a number from 1 to 1048576, not `1048577`".into()));
    assert_eq!(parse(&["--pages"]), Err("--pages wants a value".into()));
    assert_eq!(parse(&["--keep", "0"]).map(|found| found.keep), Ok(Some(0)));
    for bad in ["all", "257", "300", "-1"] {
        assert_eq!(parse(&["--keep", bad]), Err(format!("--keep wants a number from 0 to 256, not `{bad}`")));
    }
    assert!(parse(&["--page", "1"]).is_err_and(|error| error.starts_with("`--page` is no option")));
}

#[test]
fn a_progress_line_says_how_far_it_is() {
    let progress = Progress { turns: 5, standing: 3, best: None, blocks_out: 9 };
    assert_eq!(progress::text(&progress), "turned back 5 times, 3 words standing, 9 blocks out, no fill yet");
}

fn scratch(name: &str) -> PathBuf {
    Path::new(env!("CARGO_TARGET_TMPDIR")).join(name)
}

fn cargo_fill(arguments: &[&Path]) -> Output {
    let mut cargo = Command::new(env!("CARGO"));
    cargo.args(["run", "--quiet", "--offline", "--example", "fill", "--"]).args(arguments);
    cargo.current_dir(env!("CARGO_MANIFEST_DIR")).output().expect("cargo is run")
}

/// What a user sees: the same at every run, in the README and its pictures too.
#[test]
fn the_readme_shows_the_output() {
    let (arena, search) = (scratch("arena.svg"), scratch("search.svg"));
    let arguments = ["--draw".as_ref(), "--svg".as_ref(), &*arena, "--plot".as_ref(), &*search];
    let run = cargo_fill(&arguments);
    assert!(run.status.success() && run.stderr.is_empty(), "{}", String::from_utf8_lossy(&run.stderr));
    let output = String::from_utf8(run.stdout.clone()).expect("plain text");
    assert!(output.starts_with(SMALL_FILL), "{output}");
    assert_drawn(&output);

    let read = |path: &Path| std::fs::read_to_string(path).expect("the picture is written");
    assert_eq!(read(&arena), ARENA, "arena.svg is to be drawn anew");
    assert_eq!(read(&search), SEARCH, "search.svg is to be drawn anew");
    assert_eq!(cargo_fill(&arguments).stdout, run.stdout, "every run is the same");
    let printed = output.split("\n\n").next().expect("some output");
    assert!(README.contains(printed), "the README has another output than\n{printed}");
}

/// As many pages are drawn as held, and as parked, as the status line says.
fn assert_drawn(output: &str) {
    let status = output.lines().find(|line| line.starts_with("heap: ")).expect("a status line");
    let numbers: Vec<usize> = status.split(' ').filter_map(|word| word.parse().ok()).collect();
    let (held, idle) = (numbers[0], numbers[1]);
    let parked = if status.contains(" of them parked") { numbers[2] } else { 0 };
    let drawn = output.split("by holder\n").nth(1).expect("the pages are drawn");
    let rows = drawn.lines().take((held + idle - parked).div_ceil(16));
    let symbols: String = rows.map(|row| row[6..].replace([' ', '-'], "")).collect();
    assert_eq!(symbols.len(), held + idle - parked);
    assert_eq!(symbols.replace(['_', '.'], "").len(), held);
    assert_eq!(symbols.matches('~').count(), parked);
}

#[test]
fn a_search_without_a_fill_fails() {
    let run = cargo_fill(&["--pages".as_ref(), "9".as_ref()]);
    assert!(!run.status.success());
    assert!(String::from_utf8_lossy(&run.stdout).starts_with("no fill: 30 words out of "));
    assert_eq!(String::from_utf8_lossy(&run.stderr), "fill: no fill was found\n");
}
