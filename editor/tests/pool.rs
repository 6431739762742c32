//! Pools: records keep their bytes, and an arena is full only if its pages are in use. `misuse.rs` has the blocks that are not out.

use vigbuso::{book_words, AllocError, Block, Class, Heap, Pool, Refusal, Run, PAGE_BYTES};

/// The next number of a sequence, below a limit.
fn below(random: &mut u64, limit: usize) -> usize {
    *random = random.wrapping_mul(6_364_136_223_846_793_005).wrapping_add(1_442_695_040_888_963_407);
    (*random >> 33) as usize % limit
}

/// Records of all sizes come and go, and each is found as it was written.
#[test]
fn records_keep_their_bytes() {
    let mut random: u64 = 7;
    let mut below = |limit: usize| below(&mut random, limit);
    let mut arena = vec![0; 2_048 * PAGE_BYTES];
    let mut pool = Pool::open(2_048).expect("2,048 pages");
    let mut records: Vec<(Block, usize, u8)> = Vec::new();
    for turn in 0..20_000 {
        if below(20) < 11 && records.len() < 1_000 {
            let most = [64, 64, 64, 64, 1_000, 1_000, 16_385, 65_473][below(8)];
            let bytes = below(most);
            let block = pool.alloc(bytes).expect("there is room");
            let mark = u8::try_from(below(256)).expect("a byte");
            arena[block.range(bytes)].fill(mark);
            records.push((block, bytes, mark));
        } else if !records.is_empty() {
            let (block, bytes, mark) = records.swap_remove(below(records.len()));
            assert!(arena[block.range(bytes)].iter().all(|&byte| byte == mark), "{block:?} was overwritten");
            pool.free(block).expect("it is out");
        }
        if turn % 5_000 == 0 {
            pool.flush().expect("all that was freed was out");
        }
    }
    let report = pool.report().expect("an opened book");
    assert_eq!(report.used, records.len());
    for (block, ..) in records {
        pool.free(block).expect("it is out");
    }
    pool.flush().expect("all that was freed was out");
    let report = pool.report().expect("an opened book");
    assert_eq!((report.used, report.used_bytes, report.stocked), (0, 0, 0));
}

#[test]
fn too_large_and_full() {
    let mut pool = Pool::open(2).expect("two pages");
    assert_eq!(pool.alloc(Class::MAX_BYTES + 1), Err(AllocError::TooLarge));
    assert_eq!(pool.alloc(Class::MAX_BYTES), Err(AllocError::Full));
    let blocks: Vec<Block> = std::iter::from_fn(|| pool.alloc(16_384).ok()).collect();
    assert_eq!(blocks.len(), 6);
    assert_eq!(pool.alloc(16_384), Err(AllocError::Full));
    pool.free(blocks[3]).expect("it is out");
    assert_eq!(pool.alloc(16_384), Ok(blocks[3]));
}

/// Neither a stock nor a class that once had the page keeps it from others.
#[test]
fn pages_without_a_block_in_use_serve_every_class() {
    for flush in [false, true] {
        let mut pool = Pool::open(1).expect("a page");
        for bytes in [16, 32, 16_384, 100] {
            let block = pool.alloc(bytes).expect("nothing is in use");
            pool.free(block).expect("it is out");
            if flush {
                pool.flush().expect("all that was freed was out");
            }
        }
        let mut pool = Pool::open(8).expect("eight pages");
        let blocks = [16, 32, 48, 64, 80, 96, 112, 128].map(|bytes| pool.alloc(bytes).expect("a page for each"));
        assert_eq!(pool.alloc(Class::MAX_BYTES), Err(AllocError::Full));
        assert_eq!(pool.report().expect("an opened book").stocked, 0, "it was flushed");
        for block in blocks {
            pool.free(block).expect("it is out");
        }
        let span = pool.alloc(Class::MAX_BYTES).expect("nothing is in use");
        assert_eq!(pool.commit(1), Ok(None));
        pool.free(span).expect("it is out");
        assert_eq!(pool.commit(8).map(|answer| answer.map(|answer| answer.run.pages)), Ok(Some(8)));
    }
}

/// A span has up to 8 pages, and they come all from a hole or all from the fresh pages.
#[test]
fn a_pool_with_nothing_in_use_has_a_span_from_15_pages_on() {
    let span_after = |used: usize, pages: u64| {
        let mut pool = Pool::open(pages).expect("a length");
        let blocks: Vec<Block> = (0..3 * used).map(|_| pool.alloc(16_384).expect("three to a page")).collect();
        for block in blocks {
            pool.free(block).expect("it is out");
        }
        pool.alloc(Class::MAX_BYTES).is_ok()
    };
    assert!((15..24).all(|pages| (0..=pages as usize).all(|used| span_after(used, pages))));
    assert!(!span_after(7, 14), "a hole of 7 pages, 7 fresh ones");
}

/// A record of a server, with its number in its first and in its last bytes.
struct Kept {
    block: Block,
    bytes: usize,
    number: u64,
}

impl Kept {
    fn write(&self, arena: &mut [u8]) {
        let bytes = &mut arena[self.block.range(self.bytes)];
        bytes[..8].copy_from_slice(&self.number.to_le_bytes());
        bytes[self.bytes - 8..].copy_from_slice(&self.number.to_le_bytes());
    }

    fn free(self, arena: &[u8], pool: &mut Pool) {
        let (bytes, number) = (&arena[self.block.range(self.bytes)], self.number.to_le_bytes());
        assert!(bytes.starts_with(&number) && bytes.ends_with(&number), "{:?} was overwritten", self.block);
        pool.free(self.block).expect("it is out");
    }
}

/// A server with records of all sizes throws everything away when it is refused. Then it must not be refused again.
#[test]
fn a_server_can_always_go_on() {
    let steps = if cfg!(debug_assertions) { 200_000 } else { 2_000_000 };
    for pages in [16, 64, 256] {
        let mut random: u64 = 3;
        let mut below = |limit: usize| below(&mut random, limit);
        let (mut pool, mut arena) = (Pool::open(pages as u64).expect("a length"), vec![0; pages * PAGE_BYTES]);
        let (mut records, mut emptied): (Vec<Kept>, usize) = (Vec::new(), 0);
        for number in 0..steps {
            if !records.is_empty() && below(16) < 7 {
                records.swap_remove(below(records.len())).free(&arena, &mut pool);
                continue;
            }
            let most = [64, 64, 256, 256, 1_024, 4_096, 16_384, 65_472][below(8)];
            let bytes = 16 + below(most - 15);
            let block = pool.alloc(bytes).or_else(|error| {
                assert_eq!(error, AllocError::Full);
                emptied += 1;
                records.drain(..).for_each(|record| record.free(&arena, &mut pool));
                pool.alloc(bytes)
            });
            let record = Kept { block: block.expect("nothing is in use"), bytes, number };
            record.write(&mut arena);
            records.push(record);
        }
        assert!(emptied >= 10, "{emptied} times on {pages} pages");
        assert_eq!(pool.report().expect("an opened book").used, records.len());
        for record in records {
            record.free(&arena, &mut pool);
        }
        pool.flush().expect("all that was freed was out");
        assert_eq!(pool.report().expect("an opened book").arena.held, 0);
    }
}

/// The direct calls beside the blocks: neither can give back what the other has.
#[test]
fn runs_beside_blocks() {
    let mut pool = Pool::open(8).expect("eight pages");
    let block = pool.alloc(100).expect("there is room");
    let run = pool.commit(2).expect("a length").expect("there is room").run;
    assert_eq!(run, Run { first: 1, pages: 2 });
    let run = pool.grow_frontier(run, 7).expect("it is held").expect("it ends at the frontier");
    assert_eq!((pool.grow_frontier(run, 8), pool.commit(1)), (Ok(None), Ok(None)));
    assert_eq!(pool.release_run(Run { first: 0, pages: 8 }), Err(Refusal::NotHeld));
    assert!(Block::small(4_096 + 3).is_some_and(|inside| pool.free(inside).is_err()));
    pool.release_run(run).expect("it is held");
    assert_eq!(pool.release_run(run), Err(Refusal::NotHeld));
    pool.free(block).expect("it is out");
}

#[test]
fn a_pool_on_a_lent_book() {
    let mut book = vec![7; book_words(8)];
    let mut pool = Pool::on(&mut book[..], 8).expect("eight pages");
    let block = pool.alloc(100).expect("there is room");
    let class = pool.class_of(block).expect("the pool's");
    pool.into_heap().expect("an opened book");
    let mut heap = Heap::resume(&mut book[..]).expect("as the pool left it");
    assert!(heap.release(class, &[block]).is_err(), "it is the pool's still");
    let mut pool = Pool::from(heap);
    pool.free(block).expect("it is out still");
    assert!(pool.free(block).is_err());
}

/// A pool is all in its book: its clone, and one resumed on a copy of the book, go on as it does.
#[test]
fn a_pool_is_a_value() {
    let mut random: u64 = 5;
    let mut below = |limit: usize| below(&mut random, limit);
    let mut pools = [Pool::open(40).expect("40 pages"), Pool::open(40).expect("40 pages")];
    let mut blocks: Vec<Block> = Vec::new();
    for turn in 0..30_000 {
        let [one, two] = &mut pools;
        if blocks.is_empty() || below(8) < 5 {
            let bytes = [16, 24, 100, 1_000, 16_384, 30_000][below(6)];
            let answer = one.alloc(bytes);
            assert_eq!(two.alloc(bytes), answer, "turn {turn}");
            blocks.extend(answer);
        } else {
            let block = blocks.swap_remove(below(blocks.len()));
            assert_eq!([one.free(block), two.free(block)], [Ok(()); 2]);
        }
        if turn % 1_000 == 0 {
            assert_eq!(one, two);
            assert_eq!(one.report(), two.report());
            let again = Pool::resume(one.book().to_vec()).expect("as the pool left it");
            assert_eq!(again.report(), one.report(), "what is in use is counted");
            let mut granted: Vec<Block> = again.blocks().map(|(block, _)| block).collect();
            granted.sort_unstable();
            blocks.sort_unstable();
            assert_eq!(granted, blocks);
            pools = [again.clone(), again];
        }
    }
    let mut other = pools[0].clone();
    other.flush().expect("an opened book");
    assert_ne!(pools[0], other);
    assert_eq!(pools[0].report().map(|report| report.used), other.report().map(|report| report.used));
}

/// Also with a book in a box, and with words that nobody has used.
#[test]
fn clones_of_given_books() {
    let mut heap = Heap::on(vec![7; book_words(8)].into_boxed_slice(), 8).expect("eight pages");
    let class = Class::for_size(100).expect("a class");
    let blocks = heap.take(class).expect("an opened book");
    let mut clone = heap.clone();
    assert_eq!(clone, heap);
    assert_eq!(clone.release(class, &blocks[..5]), heap.release(class, &blocks[..5]));
    assert_eq!(clone, heap);
    let pool = Pool::on(vec![7; book_words(8)], 8).expect("eight pages");
    assert_eq!(pool.clone(), pool);
    assert_ne!(pool, Pool::open(8).expect("eight pages"), "its words are others, though it answers the same");
}

/// A heap that goes on with a pool's book has what is in stock back. What was granted stays out and is the pool's, until a pool goes on.
#[test]
fn a_heap_on_a_pools_book() {
    let mut pool = Pool::open(8).expect("eight pages");
    let blocks = [16, 100, 20_000].map(|bytes| pool.alloc(bytes).expect("there is room"));
    let stock: Vec<Block> = pool.stock().collect();
    assert_eq!(stock.len(), pool.report().expect("an opened book").stocked);
    let resumed = Heap::resume(pool.book().to_vec()).expect("as the pool left it");
    for mut heap in [resumed, pool.clone().into_heap().expect("an opened book")] {
        let before = heap.clone();
        for block in blocks.iter().chain(&stock).copied() {
            for class in Class::all().filter(|class| class.first_page(block).is_some()) {
                let error = heap.release(class, &[block]).expect_err("it is the pool's");
                assert_eq!((error.refusal(), error.block()), (Refusal::NotOut, Some((0, block))));
            }
        }
        assert_eq!(heap, before);
        assert_eq!(heap.report().map(|report| report.held), Ok(1 + 1 + 3));
        let from = Pool::from(heap.clone());
        for mut pool in [from, Pool::resume(heap.into_book()).expect("as the heap left it")] {
            assert_eq!(pool.report().map(|report| (report.used, report.stocked)), Ok((3, 0)));
            for block in blocks {
                pool.free(block).expect("it is out still");
            }
            pool.flush().expect("all that was freed was out");
            assert_eq!(pool.report().map(|report| (report.used, report.arena.held)), Ok((0, 0)));
        }
    }
}

/// Whatever is done with the heap that is lent, the pool counts what it has granted there.
#[test]
fn a_heap_that_was_lent() {
    let used = |pool: &Pool| {
        let report = pool.report().expect("an opened book");
        assert_eq!(pool.blocks().count(), report.used);
        assert_eq!(pool.blocks().map(|(_, class)| class.bytes()).sum::<usize>(), report.used_bytes);
        (report.used, report.stocked)
    };
    let mut pool = Pool::open(8).expect("eight pages");
    let class = Class::for_size(100).expect("a class");
    let blocks = [pool.alloc(100), pool.alloc(100), pool.alloc(20_000)].map(|block| block.expect("there is room"));
    let taken = pool.heap_mut().take(class).expect("an opened book");
    assert_eq!((taken.len(), used(&pool)), (64, (3, 62 + 8)));
    // Another heap in its place.
    let mut other = Heap::open(8).expect("eight pages");
    std::mem::swap(pool.heap_mut(), &mut other);
    assert_eq!(used(&pool), (0, 0));
    assert!(blocks.iter().all(|&block| pool.free(block).is_err()));
    let mut before = Pool::from(other);
    assert_eq!(used(&before), (3, 62 + 8));
    before.free(blocks[2]).expect("it is out");
    assert_eq!(used(&before), (2, 62 + 9));
    // Opened anew, and refused to be.
    assert_eq!(before.heap_mut().reopen(9), Err(Refusal::BookTooShort));
    assert_eq!(used(&before), (2, 62 + 9));
    before.heap_mut().reopen(8).expect("the book is long enough");
    assert_eq!(used(&before), (0, 0));
    assert_eq!(before.alloc(100), Ok(blocks[0]));
    assert_eq!(used(&before), (1, 63));
}

/// A take asks for no stock. Where it has none, a flush may help.
#[test]
fn a_take_beside_stocks() {
    let mut pool = Pool::open(1).expect("a page");
    let block = pool.alloc(16).expect("there is room");
    pool.free(block).expect("it is out");
    for bytes in [16, 32] {
        let class = Class::for_size(bytes).expect("a class");
        let mut take = || pool.heap_mut().take(class).expect("an opened book").len();
        assert_eq!(take(), 0, "the page is the pool's");
    }
    pool.flush().expect("all that was freed was out");
    let class = Class::for_size(16).expect("a class");
    let taken = pool.heap_mut().take(class).expect("an opened book");
    assert_eq!(taken.len(), 64);
    assert_eq!(pool.alloc_in(class), Err(AllocError::Full), "the page is the heap's");
}
