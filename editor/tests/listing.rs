//! Every short history of the direct calls, carried out on a heap.

use vigbuso::{short_histories, DirectCall, Heap, Refusal, Run};

/// A heap, and the run from each call so far while it is held.
#[derive(Clone)]
struct Play {
    heap: Heap,
    runs: Vec<Option<Run>>,
}

impl Play {
    fn new(pages: u64) -> Play {
        Play { heap: Heap::open(pages).expect("1 to 3 pages"), runs: Vec::new() }
    }

    /// Makes a call; it is never refused.
    fn make(&mut self, call: DirectCall) {
        let run = match call {
            DirectCall::Commit(pages) => self.heap.commit(pages).expect("at least a page").map(|answer| answer.run),
            DirectCall::Release(earlier) => {
                let run = self.runs[earlier].take().expect("a run that is held");
                self.heap.release_run(run).expect("a run that is held");
                None
            }
        };
        self.runs.push(run);
    }

    /// What may be called next, by the heap's own answers.
    fn next_calls(&self) -> Vec<DirectCall> {
        let commits = (1..=self.heap.pages()).map(DirectCall::Commit);
        let held = (0..self.runs.len()).filter(|&earlier| self.runs[earlier].is_some());
        commits.chain(held.map(DirectCall::Release)).collect()
    }

    /// The histories that go on from here by so many calls.
    fn go_on(&self, length: usize) -> Vec<Vec<DirectCall>> {
        if length == 0 {
            return vec![Vec::new()];
        }
        let goes_on = |call| {
            let mut next = self.clone();
            next.make(call);
            next.go_on(length - 1).into_iter().map(move |rest| [vec![call], rest].concat())
        };
        self.next_calls().into_iter().flat_map(goes_on).collect()
    }

    /// The runs that are held lie in the arena, no page in two of them, and the report counts just them.
    fn is_sound(&self) {
        let held: Vec<u64> = self.runs.iter().flatten().flat_map(|run| run.first..run.first + run.pages).collect();
        let mut pages = held.clone();
        pages.sort_unstable();
        pages.dedup();
        assert_eq!(pages.len(), held.len(), "a page in two runs: {:?}", self.runs);
        assert!(pages.iter().all(|&page| page < self.heap.pages()), "a page beyond the arena: {:?}", self.runs);
        let report = self.heap.report().expect("an open book");
        assert_eq!((report.held, report.idle), (held.len() as u64, self.heap.pages() - held.len() as u64));
    }
}

#[test]
fn all_are_carried_out() {
    for (pages, length) in (1..=3).flat_map(|pages| (0..=4).map(move |length| (pages, length))) {
        for history in short_histories(pages, length).expect("within the bounds") {
            assert_eq!(history.len() as u64, length);
            let mut play = Play::new(pages);
            for call in history {
                play.make(call);
                play.is_sound();
            }
        }
    }
}

#[test]
fn what_a_heap_allows_is_what_is_listed() {
    for (pages, length) in (1..=3).flat_map(|pages| (0..=4).map(move |length| (pages, length))) {
        let listed: Vec<_> = short_histories(pages, length as u64).expect("within the bounds").collect();
        assert_eq!(listed, Play::new(pages).go_on(length), "{pages} pages, {length} calls");
        assert!(listed.is_sorted() && listed.windows(2).all(|two| two[0] != two[1]));
    }
}

#[test]
fn numbers_outside_are_refused() {
    for (pages, length) in [(0, 0), (0, 4), (4, 0), (4, 4), (1, 5), (3, 5), (u64::MAX, 0), (1, u64::MAX)] {
        assert_eq!(short_histories(pages, length).map(|all| all.len()), Err(Refusal::Listing), "{pages} {length}");
    }
}
