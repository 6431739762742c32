//! Random histories: on the original and the port (`histories`), on the original alone (`record`), and stored ones on
//! the port alone (`replay`). The original has document 02's parts in it (`oracle/rules.rs`): it is the judge.

use std::fs;

use crate::arguments::Arguments;
use crate::call::Kind;
use crate::generate::{self, SCENARIOS};
use crate::history::{self, History};
use crate::memory::{Fence, Fenced};
use crate::oracle::rules;
use crate::plan::Plan;
use crate::port::{self, Room};
use crate::progress::Progress;
use crate::random::Random;
use crate::run::{self, Book, Difference};
use crate::shrink::shrink;
use crate::tally::Tally;
use crate::words::{book_words, MAX_PAGES};

/// Where plans come from.
struct Source {
    random: Random,
    pages: Vec<u32>,
    scenario: Option<String>,
    asked: fn(Kind) -> bool,
}

impl Source {
    fn new(arguments: &Arguments, asked: fn(Kind) -> bool) -> Result<Source, String> {
        let scenario = arguments.text("scenario").map(String::from);
        if let Some(name) = scenario.as_ref().filter(|name| SCENARIOS.iter().all(|known| known.name != **name)) {
            let known: Vec<&str> = SCENARIOS.iter().map(|scenario| scenario.name).collect();
            return Err(format!("no scenario {name}; there are: {}", known.join(", ")));
        }
        let pages: Vec<u32> = arguments.numbers("pages")?;
        if let Some(bad) = pages.iter().find(|&&pages| pages == 0 || pages > MAX_PAGES) {
            return Err(format!("an arena has 1 to {MAX_PAGES} pages, not {bad}"));
        }
        let seed = arguments.number("seed")?.unwrap_or(1);
        Ok(Source { random: Random::new(seed), pages, scenario, asked })
    }

    fn plan(&mut self) -> Plan {
        let pages = (!self.pages.is_empty()).then(|| self.random.pick(&self.pages));
        generate::plan(&mut self.random, self.asked, self.scenario.as_deref(), pages)
    }
}

pub fn histories(words: &[String]) -> Result<bool, String> {
    let arguments = Arguments::read(words, &["calls", "seed", "pages", "scenario"])?;
    let calls: u64 = arguments.number("calls")?.unwrap_or(1_000_000);
    let mut source = Source::new(&arguments, |_| true)?;
    let mut book = Book::new();
    let mut tally = Tally::default();
    let mut progress = Progress::begin();
    let (mut plain, mut ruled) = (0, 0);
    let mut difference = None;
    while tally.calls() < calls && difference.is_none() {
        let plan = source.plan();
        tally.begin(plan.scenario);
        let mut history = Vec::new();
        let found = run::compare(&plan, &mut book, |call, due, reference| {
            tally.count(call, due);
            tally.count_holes(reference);
            history.push((call.clone(), due.clone()));
        });
        let (compared, other) = match plan.rows.is_empty() {
            true => run::compare_plain(plan.pages, &history),
            false => (0, None),
        };
        ruled += if plan.rows.is_empty() { 0 } else { history.len() };
        plain += compared;
        if let Some(other) = other {
            println!("the original as it is differs before document 02 lets it:");
            println!("{}", history::line(&other.call, &other.due));
            println!("# {}", history::line(&other.call, &other.got));
            return Ok(false);
        }
        difference = found.map(|difference| (plan, difference));
        progress.show(tally.calls(), calls, "calls");
    }
    println!("{tally}");
    rules::counted().for_each(|(give, times)| println!("  {give:<42} {times:>12}"));
    println!("  {plain} calls compared with the original as it is, those before two holes would touch or it chooses another equal one");
    println!("  {ruled} calls on heaps with parking rules of their own");
    println!("{:.1} s", progress.seconds());
    say_what_is_missing();
    match difference {
        None => println!("0 differences"),
        Some((plan, difference)) => {
            println!("1 difference, in a history of {} steps ({}):", plan.steps.len(), plan.scenario);
            print_smallest(&plan, difference, &mut book);
            return Ok(false);
        }
    }
    Ok(true)
}

fn say_what_is_missing() {
    println!(
        "not the original's, compared with the tool's own reading: refusals 3 to 12 and 15, the report's pages held"
    );
    println!("not compared here: refusals 1, 2 and 13, the book's words, counts that pass 2^64");
}

/// Prints the failing history, made as small as it goes, with the answers that are due and the port's last one.
fn print_smallest(plan: &Plan, found: Difference, book: &mut Book) {
    let small = shrink(plan, |plan| run::compare(plan, book, |_, _, _| {}).map(|difference| difference.step));
    let mut calls = Vec::new();
    book.clear();
    let last = run::compare(&small, book, |call, due, _| calls.push((call.clone(), due.clone())));
    if last.is_none() {
        println!("# it fails only on what an earlier history left in the book; on another book:");
    }
    let last = last.unwrap_or(found);
    calls.push((last.call.clone(), last.due));
    print!("{}", History { pages: small.pages, rows: small.rows, calls }.text());
    println!("# the port answers:");
    println!("# {}", history::line(&last.call, &last.got));
}

/// Writes histories with the judge's answers, random ones or those whose calls stand in a file.
pub fn record(words: &[String]) -> Result<bool, String> {
    let arguments = Arguments::read(words, &["calls", "seed", "pages", "scenario", "kinds", "given", "file"])?;
    let calls: u64 = arguments.number("calls")?.unwrap_or(1_000);
    let file = arguments.text("file").ok_or("record needs --file")?;
    if let Some(given) = arguments.text("given") {
        return record_given(given, file);
    }
    let asked: fn(Kind) -> bool = match arguments.text("kinds").unwrap_or("all") {
        "all" => |_| true,
        "arena" => is_arena,
        other => return Err(format!("--kinds is all or arena, not {other}")),
    };
    let mut source = Source::new(&arguments, asked)?;
    let mut tally = Tally::default();
    let mut text = String::from("# Histories with the judge's answers; compare/src/history.rs has the format.\n");
    while tally.calls() < calls {
        let plan = source.plan();
        tally.begin(plan.scenario);
        let calls = run::record(&plan, asked);
        calls.iter().for_each(|(call, answer)| tally.count(call, answer));
        text += &History { pages: plan.pages, rows: plan.rows, calls }.text();
    }
    fs::write(file, text).map_err(|error| format!("{file}: {error}"))?;
    println!("{tally}");
    Ok(true)
}

/// The calls of a file once more, with the answers that are due now; what is no call stays as it is.
fn record_given(given: &str, file: &str) -> Result<bool, String> {
    let old = fs::read_to_string(given).map_err(|error| format!("{given}: {error}"))?;
    let mut due = history::parse(&old)?.into_iter().flat_map(|History { pages, rows, calls }| {
        let calls = calls.into_iter().map(|(call, _)| call).collect();
        run::answered(pages, &rows, calls)
    });
    let (mut text, mut changed) = (String::new(), 0);
    for line in old.lines() {
        let call = !line.is_empty() && !line.starts_with('#') && !line.starts_with("open ");
        let new = if call { due.next().map(|(call, answer)| history::line(&call, &answer)) } else { None };
        let new = new.unwrap_or_else(|| line.into());
        changed += u64::from(new != line);
        text += &new;
        text.push('\n');
    }
    fs::write(file, text).map_err(|error| format!("{file}: {error}"))?;
    println!("{changed} answers are others than in {given}");
    Ok(true)
}

fn is_arena(kind: Kind) -> bool {
    matches!(kind, Kind::Commit | Kind::GrowFrontier | Kind::Release | Kind::Contains | Kind::Report)
}

/// Asks the port the calls of a file, and compares with the answers that stand there.
pub fn replay(words: &[String]) -> Result<bool, String> {
    let arguments = Arguments::read(words, &["file"])?;
    let file = arguments.text("file").ok_or("replay needs --file")?;
    let text = fs::read_to_string(file).map_err(|error| format!("{file}: {error}"))?;
    let mut compared = 0;
    let mut room = Room::new(Fence::Back);
    for history in history::parse(&text)? {
        let mut book = Fenced::new(book_words(history.pages), Fence::Back);
        let opened = port::open_with(book.words_mut(), u64::from(history.pages), &history.rows);
        if opened != 0 {
            return Err(format!("an opening of {} pages is refused as {opened}", history.pages));
        }
        for (call, due) in &history.calls {
            let got = port::ask(book.words_mut(), &mut room, call);
            if got != *due {
                println!("{}\n# the port answers:\n# {}", history::line(call, due), history::line(call, &got));
                return Ok(false);
            }
            compared += 1;
        }
    }
    println!("{compared} calls compared; 0 differences");
    Ok(true)
}
