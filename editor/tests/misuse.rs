//! Blocks that a pool has not granted, or has had back, are refused at once and named, in debug and in release builds.

use std::collections::HashMap;

use vigbuso::{Block, Chunk, Class, Fate, Heap, Kind, Pool, Refusal, Rules, Trace};

/// Frees a block that is not out: it is named, and nothing changes.
#[track_caller]
fn refused(pool: &mut Pool, block: Block) {
    let before = pool.report();
    assert_eq!(pool.class_of(block), None);
    let error = pool.free(block).expect_err("it is not out");
    assert!([Refusal::NotOut, Refusal::WrongKind].contains(&error.refusal()), "{error}");
    assert_eq!(error.block(), block);
    assert_eq!(pool.report(), before);
}

/// Releases blocks that are not out in the heap's class, by list and by chunk: each is named, and no word of the book changes.
#[track_caller]
fn release_refused(pool: &mut Pool, class: Class, blocks: &[Block]) {
    let before = pool.clone();
    let heap = pool.heap_mut();
    for &block in blocks {
        let mut errors =
            vec![heap.release(class, &[block]), heap.release_all(class, &mut [block]).map(|()| Fate::Kept)];
        if class.kind() == Kind::Small {
            errors.push(heap.release_chunks(class, &[block], &Chunk::of(&[block])).map(|fates| fates[0]));
        }
        for error in errors {
            let error = error.expect_err("it is not out");
            assert_eq!((error.refusal(), error.block()), (Refusal::NotOut, Some((0, block))));
        }
    }
    assert_eq!(*pool, before);
}

/// No two blocks of a class share a byte.
#[track_caller]
fn disjoint(class: Class, blocks: impl IntoIterator<Item = Block>) {
    let mut starts: Vec<u64> = blocks.into_iter().map(Block::byte_offset).collect();
    starts.sort_unstable();
    assert!(starts.windows(2).all(|pair| pair[0] + class.bytes() as u64 <= pair[1]), "{class}: {starts:?}");
}

#[track_caller]
fn alloc(pool: &mut Pool, bytes: usize) -> Block {
    pool.alloc(bytes).expect("there is room")
}

/// As many blocks as there is room for.
fn alloc_all(pool: &mut Pool, bytes: usize) -> Vec<Block> {
    std::iter::from_fn(|| pool.alloc(bytes).ok()).collect()
}

fn free_all(pool: &mut Pool, blocks: &[Block]) {
    for &block in blocks {
        pool.free(block).expect("it is out");
    }
}

/// Were the second `free` done, the next two records would stand in one block.
#[test]
fn a_block_freed_twice() {
    let mut pool = Pool::open(64).expect("64 pages");
    let block = alloc(&mut pool, 100);
    pool.free(block).expect("it is out");
    refused(&mut pool, block);
    assert_ne!(alloc(&mut pool, 100), alloc(&mut pool, 100));
    pool.free(block).expect("it is out again");
    pool.flush().expect("all that was freed was out");
    refused(&mut pool, block);
}

/// Were the stale block taken back, the page's last granule would be handed out for a record of 16,384 bytes.
#[test]
fn stale_blocks_of_a_page_that_another_class_has() {
    let mut pool = Pool::open_with(1, &Rules::every(0, 0)).expect("a page");
    let stale = alloc_all(&mut pool, 16);
    assert_eq!(stale.len(), 4_093);
    free_all(&mut pool, &stale);
    pool.flush().expect("all that was freed was out");
    let large = alloc(&mut pool, 16_384);
    let last = Block::small(4_095).expect("62 bits");
    assert!(stale.contains(&last) && stale.contains(&large));
    refused(&mut pool, last);
    for &block in stale.iter().filter(|&&block| block != large) {
        refused(&mut pool, block);
    }
    let granules = alloc_all(&mut pool, 16_384).into_iter().map(Block::granule);
    let mut granules: Vec<u64> = granules.chain([large.granule()]).collect();
    granules.sort_unstable();
    assert_eq!(granules, [3, 1_027, 2_051], "the page has three, and no other");
}

/// Also where no block of the span begins on a page of it, and where one begins at the very granule.
#[test]
fn stale_blocks_of_pages_that_a_span_has() {
    for small in [16, 1_000, 16_384] {
        for medium in [20_000, 65_472] {
            let pages = Class::for_size(medium).expect("a class").pages();
            let mut pool = Pool::open(pages as u64).expect("a span");
            let stale = alloc_all(&mut pool, small);
            free_all(&mut pool, &stale);
            let spans = alloc_all(&mut pool, medium);
            assert!(spans.len() >= 8, "the stock of the small class was flushed");
            for &block in &stale {
                refused(&mut pool, block);
            }
            let began = |block: &Block| stale.contains(&Block::small(block.granule()).expect("62 bits"));
            assert!(small != 16 || spans.iter().any(began));
            free_all(&mut pool, &spans);
            assert_eq!(alloc_all(&mut pool, small).len(), stale.len());
            for &block in &spans {
                refused(&mut pool, block);
            }
        }
    }
}

#[test]
fn blocks_inside_and_beside_others() {
    for bytes in [1_000, 20_000] {
        let mut pool = Pool::open(64).expect("64 pages");
        let [one, two] = [bytes; 2].map(|bytes| alloc(&mut pool, bytes));
        let kinds = [Block::small, Block::medium];
        for granule in 0..3 * 4_096 {
            for block in kinds.into_iter().filter_map(|kind| kind(granule)).filter(|block| ![one, two].contains(block))
            {
                refused(&mut pool, block);
            }
        }
        free_all(&mut pool, &[one, two]);
    }
}

/// The heap has them out, but nobody has had them of the pool.
#[test]
fn blocks_in_stock() {
    let mut pool = Pool::open(64).expect("64 pages");
    alloc(&mut pool, 100);
    let stock: Vec<Block> = pool.stock().collect();
    assert_eq!(stock.len(), 63);
    for block in stock {
        refused(&mut pool, block);
    }
}

#[test]
fn foreign_blocks() {
    let mut pool = Pool::open(64).expect("64 pages");
    let block = alloc(&mut pool, 100);
    let mut other = Pool::open(64).expect("64 pages");
    for foreign in alloc_all(&mut other, 16_000).into_iter().filter(|&foreign| foreign != block) {
        refused(&mut pool, foreign);
    }
    let granules = [4_096 + 3, 64 * 4_096, (1 << 32) + block.granule(), (1 << 62) - 1];
    for foreign in granules.into_iter().flat_map(|granule| [Block::small(granule), Block::medium(granule)]).flatten() {
        refused(&mut pool, foreign);
    }
    pool.free(block).expect("it is out");
}

/// A class that is named must be the block's.
#[test]
fn blocks_of_another_class() {
    let mut pool = Pool::open(64).expect("64 pages");
    for bytes in [16, 1_000, 20_000] {
        let block = alloc(&mut pool, bytes);
        let own = pool.class_of(block).expect("it is out");
        let before = pool.clone();
        for class in Class::all().filter(|&class| class != own) {
            let error = pool.free_in(class, block).expect_err("it is out in another class");
            let number = if class.kind() == own.kind() { Refusal::NotOut } else { Refusal::WrongKind };
            assert_eq!((error.refusal(), error.block()), (number, block));
        }
        assert_eq!(pool, before);
        pool.free_in(own, block).expect("it is out");
        assert_eq!(pool.free_in(own, block).expect_err("twice").refusal(), Refusal::NotOut);
    }
}

/// What a heap handed out is the heap's once its book is a pool's: no free takes it back, and a release does, each block once.
#[test]
fn blocks_of_the_heap_before() {
    let mut heap = Heap::open(64).expect("64 pages");
    let class = Class::for_size(100).expect("a class");
    let before = heap.take(class).expect("an opened book");
    let mut pool = Pool::resume(heap.into_book()).expect("as the heap left it");
    assert_eq!(pool.report().expect("an opened book").used, 0);
    let block = alloc(&mut pool, 100);
    assert!(!before.contains(&block));
    for &other in &before {
        refused(&mut pool, other);
    }
    pool.heap_mut().release_all(class, &mut before.to_vec()).expect("they are out");
    for &other in &before {
        refused(&mut pool, other);
    }
    release_refused(&mut pool, class, &before);
    pool.free(block).expect("it is out");
}

/// Were the release done, the take would get the granted block, and the next alloc might too.
#[test]
fn a_granted_block_that_is_released() {
    for class in Class::all() {
        let mut pool = Pool::from(Heap::open(64).expect("64 pages"));
        let block = pool.alloc_in(class).expect("there is room");
        assert!(class.kind() == Kind::Medium || block.granule() == 3);
        let pools: Vec<Block> = pool.stock().chain([block]).collect();
        release_refused(&mut pool, class, &pools);
        let taken = pool.heap_mut().take(class).expect("an opened book");
        let other = pool.alloc_in(class).expect("there is room");
        disjoint(class, taken.iter().copied().chain([block, other]));
        release_refused(&mut pool, class, &[block, other]);
        pool.heap_mut().release_all(class, &mut taken.to_vec()).expect("they are out");
        disjoint(class, pool.heap_mut().take(class).expect("an opened book").iter().copied().chain([block, other]));
        free_all(&mut pool, &[block, other]);
    }
}

/// Were the release done, the block would be in stock and on the page's free list: handed out twice.
#[test]
fn a_freed_block_that_is_released() {
    for class in Class::all() {
        let mut pool = Pool::from(Heap::open(64).expect("64 pages"));
        let block = pool.alloc_in(class).expect("there is room");
        pool.free(block).expect("it is out");
        release_refused(&mut pool, class, &[block]);
        let again = pool.alloc_in(class).expect("there is room");
        let taken = pool.heap_mut().take(class).expect("an opened book");
        disjoint(class, taken.iter().copied().chain([again]));
        pool.free(again).expect("it is out");
        pool.flush().expect("all that was freed was out");
        release_refused(&mut pool, class, &[again]);
    }
}

/// Were the free done, the pool would grant what the heap's take has handed out. A trace's takes are the heap's.
#[test]
fn a_taken_block_that_is_freed() {
    for class in Class::all() {
        let mut heap = Heap::open(64).expect("64 pages");
        let taken = heap.take(class).expect("an opened book").to_vec();
        let mut trace = Trace::new();
        trace.take(class);
        let traced = Heap::from_trace(64, &trace).expect("64 pages");
        for (heap, taken) in [(heap, taken), (traced.heap, traced.blocks)] {
            let mut pool = Pool::from(heap);
            let before = pool.clone();
            for &block in &taken {
                refused(&mut pool, block);
                assert_eq!(pool.free_in(class, block).expect_err("it is the heap's").refusal(), Refusal::NotOut);
            }
            assert_eq!(pool, before);
            let granted = [pool.alloc_in(class), pool.alloc_in(class)].map(|block| block.expect("there is room"));
            disjoint(class, taken.iter().copied().chain(granted));
            pool.heap_mut().release_all(class, &mut taken.clone()).expect("they are out");
            free_all(&mut pool, &granted);
        }
    }
}

/// Right and wrong frees mixed, beside the heap's takes and releases, against lists of what is in use.
#[test]
fn just_the_blocks_in_use_can_be_freed() {
    let mut random: u64 = 11;
    let mut below = |limit: usize| {
        random = random.wrapping_mul(6_364_136_223_846_793_005).wrapping_add(1_442_695_040_888_963_407);
        (random >> 33) as usize % limit
    };
    let mut pool = Pool::open(24).expect("24 pages");
    let (mut used, mut classes): (Vec<Block>, HashMap<Block, Class>) = Default::default();
    let mut taken: Vec<(Class, Vec<Block>)> = Vec::new();
    let (mut seen, mut wrong, mut full) = (Vec::new(), 0, 0);
    for _ in 0..100_000 {
        let bytes = [16, 16, 32, 100, 1_000, 16_384, 20_000, 65_472][below(8)];
        let class = Class::for_size(bytes).expect("a class");
        match below(9) {
            0..=2 => {
                if let Ok(block) = pool.alloc(bytes) {
                    assert_eq!(classes.insert(block, class), None, "{block:?} was in use");
                    used.push(block);
                    seen.push(block);
                    continue;
                }
                full += 1;
                free_all(&mut pool, &used);
                used.clear();
                classes.clear();
                for (class, mut blocks) in taken.drain(..) {
                    pool.heap_mut().release_all(class, &mut blocks).expect("they are out");
                }
            }
            3..=4 if !used.is_empty() => {
                let block = used.swap_remove(below(used.len()));
                pool.free(block).expect("it is in use");
                classes.remove(&block);
            }
            5 if taken.len() > 6 => {
                let (class, mut blocks) = taken.swap_remove(below(taken.len()));
                pool.heap_mut().release_all(class, &mut blocks).expect("they are out");
                assert!(blocks.iter().all(|&block| pool.heap_mut().release(class, &[block]).is_err()));
            }
            5 => {
                let blocks = pool.heap_mut().take(class).expect("an opened book").to_vec();
                assert!(!blocks.iter().any(|block| classes.contains_key(block)), "it was in use");
                seen.extend(&blocks);
                taken.push((class, blocks));
            }
            way if !seen.is_empty() => {
                let stale = seen[below(seen.len())];
                let granule = stale.granule() + [0, 0, 1, 64, 4_096][below(5)];
                let kind = if way == 8 { [Block::small, Block::medium][below(2)] } else { Block::small };
                let block = if way == 6 { stale } else { kind(granule).expect("62 bits") };
                let granted = classes.get(&block).copied();
                assert_eq!(pool.class_of(block), granted, "{block:?}");
                if let Some(class) = granted {
                    let error = pool.heap_mut().release(class, &[block]).expect_err("it is the pool's");
                    assert_eq!((error.refusal(), error.block()), (Refusal::NotOut, Some((0, block))));
                } else {
                    refused(&mut pool, block);
                    wrong += 1;
                }
            }
            _ => {}
        }
    }
    assert!(wrong > 20_000 && full > 20, "{wrong} wrong frees, {full} times full");
    assert_eq!(pool.report().expect("an opened book").used, used.len());
}

/// A book whose words were changed: calls answer or are refused, and none reads or writes anything else.
#[test]
fn damaged_books() {
    let mut random: u64 = 13;
    let mut below = |limit: usize| {
        random = random.wrapping_mul(6_364_136_223_846_793_005).wrapping_add(1_442_695_040_888_963_407);
        (random >> 33) as usize % limit
    };
    let mut pool = Pool::open(8).expect("eight pages");
    let sound: Vec<Block> = [16, 16, 100, 1_000, 16_384, 20_000].map(|bytes| alloc(&mut pool, bytes)).into();
    let (mut resumed, mut refused) = (0, 0);
    for _ in 0..2_000 {
        let mut book = pool.book().to_vec();
        for _ in 0..4 {
            // Among the first words of the arena, the classes' rows and the entries of the stocks, or in a page's record.
            let word = [below(13), 160 + below(1_216), 10_240 + below(19_456), 40_000 + below(4_112)][below(4)];
            book[word] = [0, 1, 255, 256, 4_096, u32::MAX][below(6)];
        }
        let Ok(mut damaged) = Pool::resume(book) else { continue };
        resumed += 1;
        for &block in &sound {
            refused += usize::from(damaged.free(block).is_err());
            refused += usize::from(damaged.alloc([16, 100, 16_384, 30_000][below(4)]).is_err());
        }
        let _ = (damaged.flush(), damaged.report(), damaged.stock().count());
    }
    assert!(resumed > 1_000 && refused > 100, "{resumed} resumed, {refused} calls refused");
}
