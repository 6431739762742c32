//! Saves: what was saved goes on as it was, and what was cut, changed or is something else is refused by name.
#![allow(clippy::cast_possible_truncation, clippy::large_stack_arrays)] // patterns of bytes

use vigbuso::{Block, Class, Error, Handle, Heap, Host, LoadError, Pool, Region, Rules};

/// A region with records of all kinds, and handles that are stale.
fn region() -> (Region, Vec<Handle>, Vec<Handle>) {
    let mut region = Region::open(64).expect("64 pages");
    let records = [0, 3, 16, 100, 5_000, 20_000, 100_000].into_iter().cycle().take(28).enumerate();
    let handles: Vec<Handle> =
        records.map(|(at, len)| region.alloc(&vec![at as u8; len]).expect("there is room")).collect();
    let (stale, live) = handles.split_at(14);
    for &handle in stale {
        region.free(handle).expect("it is there");
    }
    (region, live.to_vec(), stale.to_vec())
}

#[test]
fn a_heap_goes_on() {
    let rules = Rules::every(3, 1);
    let mut heap = Heap::open_with(64, &rules).expect("64 pages");
    heap.set_host(Host::ALL);
    let classes = [24, 16_384, 20_000].map(|bytes| Class::for_size(bytes).expect("a class"));
    let mut blocks = classes.map(|class| heap.take(class).expect("an opened book"));
    let run = heap.commit(5).expect("a length").expect("there is room").run;
    let mut again = Heap::load(&heap.save()).expect("as it was saved");
    assert_eq!(again, heap);
    for heap in [&mut heap, &mut again] {
        for (class, blocks) in classes.into_iter().zip(&mut blocks) {
            heap.release_all(class, blocks).expect("they are out");
        }
        heap.release_run(run).expect("it is held");
        assert_eq!(heap.take(classes[0]).expect("an opened book").len(), 64);
    }
    assert_eq!(again, heap, "its rules and its host word were saved too");
}

/// Blocks of the heap's takes, the pool's and pages by hand, all in one save.
#[test]
fn a_mixture_goes_on() {
    let mut pool = Pool::open(64).expect("64 pages");
    let class = Class::for_size(100).expect("a class");
    let block = pool.alloc_in(class).expect("there is room");
    let mut taken = pool.heap_mut().take(class).expect("an opened book");
    let run = pool.commit(2).expect("a length").expect("there is room").run;
    let mut again = Pool::load(&pool.save()).expect("as it was saved");
    assert_eq!((&again, again.report()), (&pool, pool.report()));
    assert!(again.free(taken[0]).is_err() && again.heap_mut().release(class, &[block]).is_err());
    // Of the heap's own save the stocks go back.
    let heap = Heap::load(&pool.heap().save()).expect("as it was saved");
    let mut flushed = Pool::from(heap);
    assert_eq!(flushed.report().map(|report| (report.used, report.stocked)), Ok((1, 0)));
    for pool in [&mut again, &mut flushed] {
        pool.free(block).expect("it is out");
        pool.heap_mut().release_all(class, &mut taken).expect("they are out");
        pool.release_run(run).expect("it is held");
        pool.flush().expect("an opened book");
        assert_eq!(pool.report().map(|report| (report.used, report.arena.held)), Ok((0, 0)));
    }
}

/// All 500 blocks that were granted can be freed, and none of the others.
#[test]
fn a_pool_goes_on() {
    let mut pool = Pool::open(64).expect("64 pages");
    let blocks: Vec<Block> = (0..500).map(|at| pool.alloc(16 + at * 7).expect("there is room")).collect();
    for &block in blocks.iter().step_by(3) {
        pool.free(block).expect("it is out");
    }
    let mut again = Pool::load(&pool.save()).expect("as it was saved");
    assert_eq!((&again, again.report()), (&pool, pool.report()));
    for (at, &block) in blocks.iter().enumerate() {
        assert_eq!(again.free(block).is_ok(), at % 3 != 0, "{block:?}");
    }
    assert_eq!(again.report().map(|report| report.used), Ok(0));
    assert!(again.blocks().next().is_none());
}

#[test]
fn a_region_goes_on() {
    let (mut region, live, stale) = region();
    let mut again = Region::load(&region.save()).expect("as it was saved");
    assert_eq!((&again, again.len(), again.bytes()), (&region, region.len(), region.bytes()));
    for region in [&mut region, &mut again] {
        for &handle in &stale {
            assert_eq!(region.free(handle), Err(Error::Stale(handle)), "it was stale before");
        }
        for &handle in &live {
            let moved = region.resize(handle, 40_000).expect("there is room");
            region.free(moved).expect("it is there");
        }
        region.alloc(b"HERON").expect("there is room");
    }
    assert_eq!(again, region);
}

/// Only what is used is there: 64 pages are 4 MiB, their book 1.2 MB.
#[test]
fn a_save_is_small() {
    assert!(Heap::open(64).expect("64 pages").save().len() < 10_000);
    let mut region = Region::open(64).expect("64 pages");
    for number in 0..1_000_u32 {
        region.alloc(&number.to_le_bytes()).expect("there is room");
    }
    let bytes = region.save().len();
    assert!(bytes < 40_000, "{bytes} bytes for 1,000 records of 4");
}

/// Every load of these bytes as whatever they could be.
fn load(bytes: &[u8]) -> [Option<LoadError>; 3] {
    [Heap::load(bytes).err(), Pool::load(bytes).err(), Region::load(bytes).err()]
}

#[test]
fn saves_of_something_else() {
    let saves = [
        Heap::open(8).expect("a length").save(),
        Pool::open(8).expect("a length").save(),
        Region::open(8).expect("a length").save(),
    ];
    for (own, save) in saves.iter().enumerate() {
        for (asked, error) in load(save).into_iter().enumerate() {
            assert_eq!(error, (asked != own).then_some(LoadError::Content));
        }
    }
    for other in [&b"a text"[..], b"vigbus0\x1a and more", &[0; 1_000]] {
        assert_eq!(load(other), [Some(LoadError::NotASave); 3]);
    }
}

/// Of an older version, whose book had other places, or of a newer one: refused by name, whatever else is in it.
#[test]
fn saves_of_another_format() {
    let mut save = Heap::open(8).expect("a length").save();
    assert_eq!(save[8..12], 2_u32.to_le_bytes());
    for format in [0, 1, 3, u32::MAX] {
        save[8..12].copy_from_slice(&format.to_le_bytes());
        assert_eq!(load(&save), [Some(LoadError::Format(format)); 3]);
        assert_eq!(load(&save[..20]), [Some(LoadError::Format(format)); 3]);
    }
    let error = LoadError::Format(1).to_string();
    assert_eq!(error, "the save has format 1, which this version does not read");
}

#[test]
fn cut_anywhere() {
    let (region, ..) = region();
    let save = region.save();
    for end in (0..200).chain((200..save.len()).step_by(997)).chain(save.len() - 20..save.len()) {
        assert_eq!(Region::load(&save[..end]), Err(LoadError::Cut), "{end} of {} bytes", save.len());
    }
    assert_eq!(Region::load(&[&save[..], &[0]].concat()), Err(LoadError::Changed), "a byte too many");
}

/// Each of the first 200 bytes and many others, in each bit.
#[test]
fn changed_anywhere() {
    let mut region = Region::open(2).expect("two pages");
    region.alloc(b"HERON").expect("there is room");
    region.alloc(&[7; 3_000]).expect("there is room");
    let mut save = region.save();
    let places = (0..200).chain((200..save.len()).step_by(61)).chain(save.len() - 20..save.len());
    for place in places.collect::<Vec<_>>() {
        for bit in 0..8 {
            save[place] ^= 1 << bit;
            let error = Region::load(&save).expect_err("a bit was changed");
            match place {
                0..8 => assert_eq!(error, LoadError::NotASave),
                8..12 => assert!(matches!(error, LoadError::Format(_))),
                // Its length: it seems to be cut, or to have too much.
                16..24 => assert!(matches!(error, LoadError::Cut | LoadError::Changed)),
                _ => assert_eq!(error, LoadError::Changed, "bit {bit} of byte {place}"),
            }
            save[place] ^= 1 << bit;
        }
    }
    assert_eq!(Region::load(&save), Ok(region));
}

/// The checksum as `save.rs` has it, for saves that are forged.
fn seal(save: &mut [u8]) {
    let (body, sum) = save.split_at_mut(save.len() - 8);
    let mut state = body.len() as u64;
    let whole = body.len() / 8 * 8;
    let mut last = [0; 8];
    last[..body.len() - whole].copy_from_slice(&body[whole..]);
    for word in body[..whole].chunks(8).chain([&last[..]]) {
        let mixed = (state ^ u64::from_le_bytes(word.try_into().expect("8 bytes"))).wrapping_mul(0x9e37_79b9_7f4a_7c15);
        state = mixed ^ mixed >> 32;
    }
    sum.copy_from_slice(&state.to_le_bytes());
}

/// Forged saves, their checksum right: whatever is loaded has records that share no byte, and no call does harm.
#[test]
fn forged_saves() {
    let mut region = Region::open(8).expect("eight pages");
    for len in [5, 5, 40, 100, 20_000, 70_000] {
        region.alloc(&vec![len as u8; len]).expect("there is room");
    }
    let save = region.save();
    let mut random: u64 = 17;
    let mut below = |limit: usize| {
        random = random.wrapping_mul(6_364_136_223_846_793_005).wrapping_add(1_442_695_040_888_963_407);
        (random >> 33) as usize % limit
    };
    let (mut loaded, mut refused) = (0, 0);
    let words = save.len() - 90_145; // before the records' bytes
    let turns = if cfg!(debug_assertions) { 150 } else { 5_000 };
    for _ in 0..turns {
        let mut forged = save.clone();
        for _ in 0..=below(3) {
            forged[24 + below(words - 24)] = [0, 1, 2, 3, 16, 77, 153, 255][below(8)];
        }
        seal(&mut forged);
        let Ok(mut region) = Region::load(&forged) else {
            refused += 1;
            continue;
        };
        loaded += 1;
        let mut places: Vec<(usize, usize)> = Vec::new();
        let base = region.iter().map(|(_, record)| record.as_ptr() as usize).min().unwrap_or(0);
        for (_, record) in &region {
            places.push((record.as_ptr() as usize - base, record.len()));
        }
        assert!(places.windows(2).all(|pair| pair[0].0 + pair[0].1 <= pair[1].0), "{places:?}");
        for handle in region.iter().map(|(handle, _)| handle).collect::<Vec<_>>() {
            region[handle].fill(1);
            let _ = region.resize(handle, below(70_000));
        }
        for _ in 0..20 {
            let _ = region.alloc(&vec![1; below(70_000)]);
        }
        let _ = Region::load(&region.save());
    }
    assert!(loaded > turns / 10 && refused > turns / 10, "{loaded} loaded, {refused} refused");
}
