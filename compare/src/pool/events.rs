//! What happened at a call: how a refused one was wrong, and what a call of the pool made its classes do.

use crate::call::{Answer, Call, Look, PoolRequest};
use crate::ledger::Ledger;
use crate::planned::{family, CLASSES};
use crate::reference::Reference;
use crate::words::{chunk_page, granule_of, kind_of, page_of, Owner, Word, CHUNK_KIND, PAGE_GRANULES};

/// How a call that is refused is wrong, where a block or a page is at fault.
pub fn fault(ledger: &Ledger, call: &Call, number: u32) -> Option<&'static str> {
    match (call, number) {
        (Call::Pool { request: PoolRequest::Free(0), .. }, 9) => Some("wrong free: none"),
        (Call::Pool { request: PoolRequest::Free(word), .. }, 9) if kind_of(*word) == CHUNK_KIND => {
            Some("wrong free: a group's word")
        }
        (Call::Pool { request: PoolRequest::Free(_), .. }, 9) => Some("wrong free: another kind"),
        (Call::Pool { request: PoolRequest::Free(word), class, .. }, 10) => Some(not_granted(ledger, *class, *word)),
        (Call::ReleaseBlocks { list, .. }, 10 | 11 | 15) => pools(ledger, list).map(|kind| match kind {
            Pools::Granted => "wrong release: with a granted block",
            Pools::Stocked => "wrong release: with a stocked block",
            Pools::Gone => "wrong release: with one that was freed",
            Pools::Page => "wrong release: on a page of the pool",
        }),
        (Call::ReleaseChunks { list, chunks, .. }, 10 | 11 | 15) => match pools(ledger, list) {
            Some(Pools::Granted) => Some("wrong groups: with a granted block"),
            Some(Pools::Stocked) => Some("wrong groups: with a stocked block"),
            Some(Pools::Gone) => Some("wrong groups: with one that was freed"),
            Some(Pools::Page) => Some("wrong groups: with a block on a page of the pool"),
            None if chunks.iter().any(|&chunk| is_pools(ledger, chunk_page(chunk))) => {
                Some("wrong groups: a page of the pool")
            }
            None => None,
        },
        (Call::Release { first, pages, .. } | Call::Grow { first, old: pages, .. }, 12) => {
            let held = (*first..first.saturating_add(*pages)).take(8).find_map(|page| ledger.class_at(page));
            held.map(|(owner, _)| match owner {
                Owner::Heap => "wrong run: a page of a class of the heap",
                Owner::Pool => "wrong run: a page of a class of the pool",
            })
        }
        _ => None,
    }
}

/// The kind is the class's, and the block is not granted in it.
fn not_granted(ledger: &Ledger, class: u32, word: Word) -> &'static str {
    let stocks = &ledger.stocks;
    if granule_of(word) >= u64::from(ledger.pages()) * PAGE_GRANULES {
        return "wrong free: beyond the arena";
    }
    if let Some(stocked) = stocks.stock(class).iter().find(|stocked| stocked.word == word) {
        return if stocked.freed { "wrong free: freed twice" } else { "wrong free: in stock, never granted" };
    }
    if (0..CLASSES).any(|other| stocks.granted(other).contains(&word)) {
        return "wrong free: granted in another class";
    }
    match ledger.entry_class(word) {
        Some(number) if number == class => return "wrong free: an entry of a take of its class",
        Some(_) => return "wrong free: an entry of another class",
        None => {}
    }
    let page = ledger.class_at(page_of(word));
    let own = page == Some((Owner::Pool, class));
    match (stocks.gone().contains(&(class, word)), page) {
        (true, _) if own => "wrong free: back in its class",
        (true, None) => "wrong free: its page was given back",
        (true, Some(_)) => "wrong free: its page is another class's",
        (false, _) if own => "wrong free: no block, or inside one",
        (false, _) if ledger.back().contains(&(class, word)) => "wrong free: an entry that was released",
        (false, _) => "wrong free: no page of the class",
    }
}

/// What the pool has to do with a block.
enum Pools {
    Granted,
    Stocked,
    Gone,
    Page,
}

/// The first block of a list that the pool has, or had and the heap has not.
fn pools(ledger: &Ledger, list: &[Word]) -> Option<Pools> {
    list.iter().find_map(|&word| {
        let stocks = &ledger.stocks;
        let gone = || stocks.gone().iter().any(|&(_, gone)| gone == word) && ledger.entry_class(word).is_none();
        match ledger.class_at(page_of(word)) {
            Some((Owner::Pool, number)) if stocks.granted(number).contains(&word) => Some(Pools::Granted),
            Some((Owner::Pool, number)) if stocks.has(number, word) => Some(Pools::Stocked),
            _ if gone() => Some(Pools::Gone),
            Some((Owner::Pool, _)) => Some(Pools::Page),
            _ => None,
        }
    })
}

fn is_pools(ledger: &Ledger, page: u64) -> bool {
    matches!(ledger.class_at(page), Some((Owner::Pool, _)))
}

/// What a call that was carried out came to.
pub fn happened(call: &Call, answer: &Answer, reference: &Reference) -> Option<&'static str> {
    let Call::Pool { request, .. } = call else { return None };
    Some(match (request, answer, &reference.heap) {
        (_, Answer::Refused(_), _) => return None,
        (PoolRequest::Alloc, Answer::Block(0), _) => return None,
        (PoolRequest::Alloc, _, None) => "alloc from the stock",
        (PoolRequest::Alloc, _, Some(Answer::Taken { words, .. })) if words.len() == 1 => "alloc by a take of just one",
        (PoolRequest::Alloc, ..) => "alloc that refills the stock",
        (PoolRequest::Free(_), _, None) => "free into the stock",
        (PoolRequest::Free(_), _, Some(Answer::Fate(2))) => "free, stock full: its page to the arena",
        (PoolRequest::Free(_), _, Some(Answer::Fate(1))) => "free, stock full: its page cold",
        (PoolRequest::Free(_), ..) => "free, stock full: its page kept",
        (PoolRequest::Trim, Answer::Block(0), _) => return None,
        (PoolRequest::Trim, _, Some(Answer::Fate(2))) => "trim: its page to the arena",
        (PoolRequest::Trim, _, Some(Answer::Fate(1))) => "trim: its page cold",
        (PoolRequest::Trim, ..) => "trim: its page kept",
    })
}

/// What a look told: whether a class was found, and whether it is of the block's own kind; whether a block is granted.
pub fn found(call: &Call, answer: &Answer, ledger: &Ledger) -> Option<&'static str> {
    match (call, answer) {
        (Call::Look(Look::ClassOf(_)), Answer::Told(CLASSES)) => Some("class_of: none"),
        (Call::Look(Look::ClassOf(block)), Answer::Told(class)) if family(*class).0.kind() == kind_of(*block) => {
            match ledger.class_at(page_of(*block)) {
                Some((Owner::Heap, _)) => Some("class_of: a class of the heap"),
                _ => Some("class_of: a class of the pool"),
            }
        }
        (Call::Look(Look::ClassOf(_)), _) => Some("class_of: a class of another kind"),
        (Call::Look(Look::Granted { .. }), Answer::Told(1)) => Some("granted: yes"),
        (Call::Look(Look::Granted { block, .. }), _) if ledger.entry_class(*block).is_some() => {
            Some("granted: no, an entry of a take")
        }
        (Call::Look(Look::Granted { .. }), _) => Some("granted: no"),
        (Call::Look(Look::Stocked { .. }), Answer::Told(0)) => Some("stocked: none"),
        (Call::Look(Look::Stocked { .. }), _) => Some("stocked: some"),
        _ => None,
    }
}
