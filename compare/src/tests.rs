//! Document 01's examples on the patched original, and the tool's own parts.

use std::sync::Mutex;

use crate::call::{Answer, Call, Due, Lent, Look, PoolRequest};
use crate::generate::{self, SCENARIOS};
use crate::history::{self, History};
use crate::oracle::asked;
use crate::oracle::rules::Rules;
use crate::plan::{Intent, Place, Plan, Step};
use crate::pool::{self, Apart};
use crate::random::Random;
use crate::reference::Reference;
use crate::run;
use crate::shrink::shrink;
use crate::sizes::size_class;
use crate::speed::{fill_kinds, Style};
use crate::stocks::stock_most;
use crate::trace_file::{self, Why};
use crate::words::{block_word, chunk_word, granule_of, page_of, Family, Word, HOST_ALL, HOST_COMMIT, MAX_PAGES};

/// The original has one arena for the process.
static ORIGINAL: Mutex<()> = Mutex::new(());

fn answers(calls: &[Call]) -> Vec<Answer> {
    answers_with(calls, Rules::Amended)
}

fn answers_with(calls: &[Call], rules: Rules) -> Vec<Answer> {
    let _alone = ORIGINAL.lock().unwrap_or_else(|poisoned| poisoned.into_inner());
    let mut reference = Reference::open_with(64, &[], rules);
    calls.iter().map(|call| reference.answer(call)).collect()
}

fn take(family: Family, class: u32) -> Call {
    Call::Take { family, class, host: HOST_ALL, lent: Lent { len: 64, fill: 0 } }
}

fn release(class: u32, granules: &[u64]) -> Call {
    Call::ReleaseBlocks { family: Family::Small, class, host: HOST_ALL, list: small(granules) }
}

fn small(granules: &[u64]) -> Vec<Word> {
    granules.iter().map(|&granule| block_word(Family::Small, granule)).collect()
}

fn taken(words: Vec<Word>, virgin: bool) -> Answer {
    Answer::Taken { virgin, words }
}

fn commit(host: u32, pages: u64) -> Call {
    Call::Commit { host, pages }
}

fn give(first: u64, pages: u64) -> Call {
    Call::Release { host: HOST_ALL, first, pages }
}

fn run_at(first: u32, fresh: bool) -> Answer {
    Answer::Run { first, fresh }
}

#[test]
fn sizes_p1_to_p5() {
    assert_eq!([0, 16_384, 16_385].map(asked::class_for_size), [0, 45, 63]);
    assert_eq!([18_432, 18_433, 65_472, 65_473].map(asked::medium_class_for_size), [0, 1, 11, 11]);
    // As document 02 restates them.
    let small = |class| Some((Family::Small, class));
    let medium = |class| Some((Family::Medium, class));
    assert_eq!([0, 16_384, 16_385].map(size_class), [small(0), small(45), medium(0)]);
    assert_eq!([18_432, 18_433, 65_472, 65_473].map(size_class), [medium(0), medium(1), medium(11), None]);
}

#[test]
fn blocks_p6_to_p10() {
    let down = |from: u64, to: u64| (to..=from).rev().collect::<Vec<u64>>();
    let p7 = [down(129, 67), vec![10]].concat();
    assert_eq!(small(&[66]), [4_611_686_018_427_387_970]);
    assert_eq!(
        answers(&[take(Family::Small, 0), release(0, &[10]), take(Family::Small, 0)]),
        [taken(small(&down(66, 3)), true), Answer::Fate(0), taken(small(&p7), false)]
    );
    let (three, back) = (small(&[2051, 1027, 3]), small(&[3, 1027, 2051]));
    assert_eq!(
        answers(&[take(Family::Small, 45), release(45, &[2051, 1027, 3]), take(Family::Small, 45)]),
        [taken(three.clone(), true), Answer::Fate(0), taken(back, false)]
    );
    let chunks = Call::ReleaseChunks {
        class: 45,
        host: HOST_ALL,
        list: three.clone(),
        chunks: vec![chunk_word(3, 0)],
        lent: Lent { len: 1, fill: 9 },
    };
    assert_eq!(
        answers(&[take(Family::Small, 45), chunks, take(Family::Small, 45)]),
        [taken(three.clone(), true), Answer::Fates(vec![4]), taken(three, false)]
    );
    let spans = (0..10).map(|block| block_word(Family::Medium, 4 + block * 1_152)).collect();
    assert_eq!(answers(&[take(Family::Medium, 0)]), [taken(spans, true)]);
}

#[test]
fn runs_p11_and_p12() {
    let (grants, refuses) = (HOST_ALL, 13);
    let calls = [commit(grants, 10), give(0, 2), give(4, 2), give(8, 2)];
    let again = [commit(grants, 2), commit(grants, 2), commit(grants, 2)];
    let p11 = [&calls[..], &again].concat();
    assert_eq!(answers(&p11)[4..], [run_at(0, false), run_at(4, false), run_at(8, false)]);
    assert_eq!(answers_with(&p11, Rules::Plain)[4..], [run_at(8, false), run_at(0, false), run_at(4, false)]);
    let calls = [commit(grants, 4), give(0, 4), commit(refuses, 2), commit(grants, 3), commit(grants, 1)];
    assert_eq!(answers(&calls)[2..], [Answer::NoRun, run_at(0, false), run_at(3, false)]);
    let two_holes = [Answer::NoRun, run_at(4, true), run_at(2, false)];
    assert_eq!(answers_with(&calls, Rules::Plain)[2..], two_holes);
    assert_eq!(answers_with(&calls, Rules::Apart)[2..], [Answer::NoRun, run_at(4, true), run_at(0, false)]);
}

/// The original as it is agrees up to its first choice of another equal hole, and no further is asked of it.
#[test]
fn the_original_departs_at_another_equal_hole() {
    let calls = [commit(HOST_ALL, 10), give(0, 2), give(4, 2), commit(HOST_ALL, 3), commit(HOST_ALL, 2)];
    let answers = answers(&calls);
    let due: Vec<Due> = calls.into_iter().zip(answers).collect();
    let _alone = ORIGINAL.lock().unwrap_or_else(|poisoned| poisoned.into_inner());
    let (compared, difference) = run::compare_plain(64, &due);
    assert!(compared == 4 && difference.is_none());
}

/// Nor past a give that touches a hole, whatever it answers.
#[test]
fn the_original_departs_where_two_holes_would_touch() {
    let calls = [commit(HOST_ALL, 10), give(0, 2), give(4, 2), give(2, 1), commit(HOST_ALL, 20)];
    let answers = answers(&calls);
    let due: Vec<Due> = calls.into_iter().zip(answers).collect();
    let _alone = ORIGINAL.lock().unwrap_or_else(|poisoned| poisoned.into_inner());
    let (compared, difference) = run::compare_plain(64, &due);
    assert!(compared == 3 && difference.is_none());
}

/// Spans and pages at the end of the longest arena: the original finds each block's run there too.
#[test]
fn the_last_pages_of_the_longest_arena() {
    let _alone = ORIGINAL.lock().unwrap_or_else(|poisoned| poisoned.into_inner());
    let mut reference = Reference::open(MAX_PAGES, &[]);
    let ahead = u64::from(MAX_PAGES) - 4;
    assert_eq!(reference.answer(&commit(HOST_ALL - HOST_COMMIT, ahead)), Answer::NoRun);
    for (family, class, pages) in [(Family::Small, 0, 1), (Family::Medium, 0, 3)] {
        let Answer::Taken { words, .. } = reference.answer(&take(family, class)) else {
            panic!("a take answers blocks")
        };
        assert!(words.iter().all(|&word| (ahead..ahead + 4).contains(&page_of(word))));
        assert!(granule_of(words[0]) > u64::from(u32::MAX) - 5 * 4_096);
        let first = words.iter().map(|&word| page_of(word)).min().expect("a page or a span");
        assert_eq!(first + pages, if family == Family::Small { ahead + 1 } else { ahead + 4 });
        let list = words;
        let back = Call::ReleaseBlocks { family, class, host: HOST_ALL, list };
        assert_eq!(reference.answer(&back), Answer::Fate(0));
        assert_eq!(reference.answer(&back), Answer::Refused(10));
    }
}

/// A history of every scenario, read back from its text.
#[test]
fn text_is_read_back() {
    let _alone = ORIGINAL.lock().unwrap_or_else(|poisoned| poisoned.into_inner());
    let mut random = Random::new(5);
    for scenario in &SCENARIOS {
        let plan = generate::plan(&mut random, |_| true, Some(scenario.name), None);
        let history = History { pages: plan.pages, rows: plan.rows.clone(), calls: run::record(&plan, |_| true) };
        assert!(!history.calls.is_empty(), "{} makes no call", scenario.name);
        assert_eq!(history::parse(&history.text()), Ok(vec![history]));
    }
    assert!(history::parse("open 4\ncommit 15 = 0 0 1\n").is_err());
    assert!(history::parse("open 4\ncommit 15 1 = 0 0 1 7\n").is_err());
}

/// Of many steps just the two that matter are left, with the plain host word.
#[test]
fn shrinks_to_what_fails() {
    let step = |intent| Step { intent, host: 7, chance: 1 };
    let (needed, last) = (Intent::Commit { pages: 3 }, Intent::Grow { place: Place::Frontier, by: 1 });
    let mut steps: Vec<Step> = (0..100).map(|_| step(Intent::Report)).collect();
    steps[40] = step(needed.clone());
    steps[90] = step(last.clone());
    let fails = |plan: &Plan| {
        let at = plan.steps.iter().position(|step| step.intent == needed)?;
        let after = plan.steps[at..].iter().position(|step| step.intent == last)?;
        Some(at + after)
    };
    let small = shrink(&Plan { scenario: "", pages: 9, rows: Vec::new(), steps }, fails);
    assert_eq!(
        small.steps.iter().map(|step| (&step.intent, step.host)).collect::<Vec<_>>(),
        [(&needed, HOST_ALL), (&last, HOST_ALL)]
    );
}

fn alloc(class: u32) -> Call {
    Call::Pool { request: PoolRequest::Alloc, class, host: HOST_ALL }
}

fn free(class: u32, block: Word) -> Call {
    Call::Pool { request: PoolRequest::Free(block), class, host: HOST_ALL }
}

fn trim(class: u32) -> Call {
    Call::Pool { request: PoolRequest::Trim, class, host: HOST_ALL }
}

/// A page of class 45 has three blocks, which a take lists from the last: the first one is granted first.
#[test]
fn the_plain_pool() {
    let [low, middle, high] = [3, 1_027, 2_051].map(|granule| block_word(Family::Small, granule));
    let medium = block_word(Family::Medium, 3);
    let calls = [
        alloc(45),
        Call::Look(Look::ClassOf(low)),
        Call::Look(Look::Granted { class: 45, block: low }),
        Call::Look(Look::Granted { class: 45, block: high }),
        Call::Look(Look::Stocked { class: 45 }),
        free(45, high),   // in stock, never granted
        free(44, low),    // another class's
        free(45, medium), // another kind
        free(76, low),
        free(45, low),
        free(45, low), // twice
        alloc(45),
        alloc(45),
        trim(45),
        trim(45),
        free(45, high), // back at the heap
    ];
    let refused = Answer::Refused;
    let due = [
        Answer::Block(low),
        Answer::Told(45),
        Answer::Told(1),
        Answer::Told(0),
        Answer::Told(2),
        refused(10),
        refused(10),
        refused(9),
        refused(4),
        Answer::Freed,
        refused(10),
        Answer::Block(low),
        Answer::Block(middle),
        Answer::Block(high),
        Answer::Block(0),
        refused(10),
    ];
    assert_eq!(answers(&calls), due);
}

/// 256 KiB of blocks, but 8 at least and 255 at most; the next one freed goes back to the heap.
#[test]
fn a_full_stock() {
    assert_eq!([0, 22, 45, 64, 75].map(stock_most), [255, 252, 16, 14, 8]);
    let _alone = ORIGINAL.lock().unwrap_or_else(|poisoned| poisoned.into_inner());
    let mut reference = Reference::open(64, &[]);
    let granted: Vec<Word> = (0..30)
        .map(|_| match reference.answer(&alloc(45)) {
            Answer::Block(word) => word,
            other => panic!("an alloc answers {other:?}"),
        })
        .collect();
    for (at, &word) in granted.iter().enumerate() {
        assert_eq!(reference.answer(&free(45, word)), Answer::Freed);
        assert_eq!(reference.heap.is_some(), at >= stock_most(45), "free {at}");
    }
}

#[test]
fn blocks_that_share_a_byte_are_told() {
    let block = |granule| Answer::Block(block_word(Family::Small, granule));
    let mut apart = Apart::new(8);
    assert!(apart.note(&commit(HOST_ALL, 1), &run_at(2, true)).is_ok());
    // Class 1 has blocks of 32 bytes.
    assert!(apart.note(&alloc(1), &block(3)).is_ok());
    assert!(apart.note(&alloc(1), &block(5)).is_ok());
    assert!(apart.note(&alloc(1), &block(4)).is_err());
    assert!(apart.note(&alloc(0), &block(6)).is_err());
    assert!(apart.note(&alloc(0), &block(2 * 4_096 + 7)).is_err());
    assert!(apart.note(&alloc(0), &block(8 * 4_096)).is_err());
    assert!(apart.note(&take(Family::Small, 0), &taken(small(&[7, 8]), true)).is_ok());
    assert!(apart.note(&take(Family::Small, 1), &taken(small(&[9, 5]), true)).is_err());
    assert!(apart.note(&alloc(0), &block(8)).is_err());
    assert!(apart.note(&commit(HOST_ALL, 1), &run_at(0, true)).is_err());
    assert!(apart.note(&commit(HOST_ALL, 2), &run_at(1, true)).is_err());
    assert!(apart.note(&give(2, 1), &Answer::Released).is_ok());
    assert!(apart.note(&give(2, 1), &Answer::Released).is_err());
    assert!(apart.note(&release(0, &[8, 7]), &Answer::Fate(0)).is_ok());
    assert!(apart.note(&release(0, &[8]), &Answer::Fate(0)).is_err());
    assert!(apart.note(&alloc(0), &block(8)).is_ok());
}

/// Heap and pool have pages of their own, and refuse each other's blocks: class 45 has three a page.
#[test]
fn heap_and_pool_side_by_side() {
    let words = |page: u64| [2_051, 1_027, 3].map(|granule| block_word(Family::Small, 4_096 * page + granule));
    let ([_, of_heap, _], [high, middle, low]) = (words(0), words(1));
    let list = |block| Call::ReleaseBlocks { family: Family::Small, class: 45, host: HOST_ALL, list: vec![block] };
    let calls = [
        take(Family::Small, 45),
        alloc(45),
        list(low),  // granted
        list(high), // in stock
        free(45, of_heap),
        Call::Look(Look::ClassOf(of_heap)),
        Call::Look(Look::ClassOf(low)),
        Call::Look(Look::Granted { class: 45, block: of_heap }),
        list(of_heap),
        free(45, of_heap),
        free(45, low),
        list(low),
        give(1, 1),
        take(Family::Small, 45),
        alloc(45),
        alloc(45),
    ];
    let refused = Answer::Refused;
    let due = [
        taken(words(0).to_vec(), true),
        Answer::Block(low),
        refused(10),
        refused(10),
        refused(10),
        Answer::Told(45),
        Answer::Told(45),
        Answer::Told(0),
        Answer::Fate(0),
        refused(10),
        Answer::Freed,
        refused(10),
        refused(12),
        taken(vec![of_heap], false),
        Answer::Block(low),
        Answer::Block(middle),
    ];
    assert_eq!(answers(&calls), due);
}

/// Some calls of each scenario of the pool's and of the mixed ones, compared with the port and read back from their text.
#[test]
fn the_pools_scenarios() {
    let _alone = ORIGINAL.lock().unwrap_or_else(|poisoned| poisoned.into_inner());
    let mut random = Random::new(7);
    for scenarios in [&pool::SCENARIOS[..], &pool::mixed::SCENARIOS[..]] {
        for scenario in scenarios {
            let plan = pool::plan(&mut random, scenarios, Some(scenario.name));
            let history = History { pages: plan.pages, rows: plan.rows.clone(), calls: run::record(&plan, |_| true) };
            assert_eq!(history::parse(&history.text()), Ok(vec![history]));
            let words = ["--calls", "3000", "--scenario", scenario.name].map(String::from);
            assert_eq!(pool::run(&words, scenarios), Ok(true), "{}", scenario.name);
        }
    }
}

/// Pages of class 45, three blocks each, so many that its stores are full once those below the last few are released. The last ones
/// then go to the arena, in the order that is asked.
fn given_pages(pages: &[u32], then: &[u32]) -> Vec<u32> {
    const PAGES: u32 = 272;
    const PARKED: u32 = 260;
    let release = |page: u32| (3 * page..3 * page + 3).map(|place| 1 << 30 | place);
    let takes = (0..PAGES).map(|_| 45);
    let parked = (0..PARKED).flat_map(release);
    let given = pages.iter().flat_map(|&page| release(page));
    takes.chain(parked).chain(given).chain(then.iter().copied()).collect()
}

fn first_and_why(trace: &[u32]) -> (Option<usize>, Option<Why>) {
    let _alone = ORIGINAL.lock().unwrap_or_else(|poisoned| poisoned.into_inner());
    let compared = trace_file::compare(trace, 300).unwrap_or_else(|stop| panic!("{}", stop.told(trace)));
    assert_eq!(compared.is_explained(), compared.why != Some(Why::None));
    (compared.first, compared.why)
}

/// Of two holes of a page the original takes the one that was given last, and A.8 the lowest.
#[test]
fn a_trace_that_equal_holes_part() {
    let trace = given_pages(&[262, 266], &[44, 2 << 30]);
    assert_eq!(first_and_why(&trace), (Some(trace.len() - 2), Some(Why::A8)));
}

/// Three pages side by side are a span's by A.4; the original has three holes of a page, and its span comes from the frontier.
#[test]
fn a_trace_that_touching_holes_part() {
    let trace = given_pages(&[263, 264, 265], &[64]);
    assert_eq!(first_and_why(&trace), (Some(trace.len() - 1), Some(Why::A4)));
    // The lowest of three is the joined one's first page as well.
    assert_eq!(first_and_why(&given_pages(&[263, 264, 265], &[44])).1, Some(Why::Either));
    // Two holes of three pages: they are there by A.4, and the lower one is taken by A.8.
    let trace = given_pages(&[263, 264, 265, 267, 268, 269], &[64]);
    assert_eq!(first_and_why(&trace).1, Some(Why::Both));
}

#[test]
fn a_trace_without_a_difference() {
    assert_eq!(first_and_why(&[0, 45, 64, 1 << 30, 1 << 30 | 70, 2 << 30, 0, 64]), (None, None));
    assert_eq!(first_and_why(&given_pages(&[262], &[44])), (None, None));
}

#[test]
fn a_malformed_trace_is_named() {
    let _alone = ORIGINAL.lock().unwrap_or_else(|poisoned| poisoned.into_inner());
    let told = |trace: &[u32]| trace_file::compare(trace, 4).map(|_| ()).unwrap_err().told(trace);
    assert_eq!(told(&[45, 3 << 30]), "word 1 (0xc0000000) stops the trace: its kind is 3");
    assert_eq!(told(&[76]), "word 0 (0x0000004c) stops the trace: class 76 is above 75");
    assert_eq!(told(&[2 << 30 | 9]), "word 0 (0x80000009) stops the trace: a report with 9 below its kind");
    let early = "word 1 (0x40000003) stops the trace: it releases place 3, which is not handed out yet";
    assert_eq!(told(&[45, 1 << 30 | 3]), early);
    let twice = "word 2 (0x40000000) stops the trace: it releases place 0, which was released before";
    assert_eq!(told(&[45, 1 << 30, 1 << 30]), twice);
    assert_eq!(trace_file::read(&[1, 0, 0, 0, 0, 0, 0, 64]), Ok(vec![1, 1 << 30]));
    assert_eq!(trace_file::read(b"45\n1073741824\n"), Ok(vec![45, 1 << 30]));
    assert!(trace_file::read(&[1, 0, 0, 0, 7]).is_err());
}

/// A program's fill gives back single blocks, whole takes, and groups; the other just whole takes.
#[test]
fn what_the_fills_give_back() {
    let [takes, singles, lists, groups, runs] = fill_kinds(Style::Mixed);
    assert!(takes > 200 && singles > 80 && lists > 80 && groups > 10 && runs > 10, "{:?}", fill_kinds(Style::Mixed));
    let [_, singles, _, _, _] = fill_kinds(Style::Takes);
    assert_eq!(singles, 0);
}
