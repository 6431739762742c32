//! Regions: records of every length keep their bytes, no neighbour is reached, and a handle is refused once its record was freed.
#![allow(clippy::cast_possible_truncation, clippy::large_stack_arrays)] // patterns of bytes

use std::collections::HashMap;

use vigbuso::{AllocError, Class, Error, Handle, Region, Rules, MAX_PAGES, PAGE_BYTES};

/// The next number of a sequence, below a limit.
fn below(random: &mut u64, limit: usize) -> usize {
    *random = random.wrapping_mul(6_364_136_223_846_793_005).wrapping_add(1_442_695_040_888_963_407);
    (*random >> 33) as usize % limit
}

fn open(pages: u64) -> Region {
    Region::open(pages).expect("so many pages")
}

/// Every use of a handle that is stale is refused, and changes nothing.
#[track_caller]
fn refused(region: &mut Region, stale: Handle) {
    let before = (region.len(), region.bytes(), region.report());
    assert!(region.get(stale).is_none() && region.get_mut(stale).is_none() && !region.contains(stale));
    assert_eq!(region.free(stale), Err(Error::Stale(stale)));
    assert_eq!(region.resize(stale, 5), Err(Error::Stale(stale)));
    assert_eq!((region.len(), region.bytes(), region.report()), before);
}

/// Records come, go, grow and shrink, against a plain map; every stale handle is tried.
#[test]
fn as_a_map_does() {
    let mut random: u64 = 9;
    let mut below = |limit: usize| below(&mut random, limit);
    let mut region = open(64);
    let mut plain: HashMap<Handle, (Vec<u8>, usize)> = HashMap::new();
    let (mut stale, mut full) = (Vec::new(), 0);
    let turns: usize = if cfg!(debug_assertions) { 3_000 } else { 30_000 };
    for turn in 0..turns {
        let most = [64, 64, 64, 1_000, 1_000, 16_385, 65_600, 300_000][below(8)];
        let (len, align) = (below(most), 1 << below(17));
        let some = plain.keys().nth(below(plain.len().max(1))).copied();
        match (below(10), some) {
            (0..=4, _) => {
                let record: Vec<u8> = (0..len).map(|at| (turn + at) as u8).collect();
                let answer = if below(4) == 0 { region.alloc_aligned(&record, align) } else { region.alloc(&record) };
                match answer {
                    Ok(handle) => assert!(plain.insert(handle, (record, align)).is_none(), "{handle:?} is used"),
                    Err(error) => {
                        assert_eq!(error, AllocError::Full);
                        full += 1;
                        for (handle, _) in plain.drain() {
                            region.free(handle).expect("it is there");
                            stale.push(handle);
                        }
                    }
                }
            }
            (5..=6, Some(handle)) => {
                let (mut record, _) = plain.remove(&handle).expect("it is there");
                match region.resize(handle, len) {
                    Ok(moved) => {
                        record.resize(len, 0);
                        plain.insert(moved, (record, 1));
                        if moved != handle {
                            stale.push(handle);
                        }
                    }
                    Err(error) => {
                        assert_eq!(error, AllocError::Full.into());
                        assert!(len > record.len(), "a record can get shorter");
                        plain.insert(handle, (record, 1));
                    }
                }
            }
            (7, Some(handle)) => {
                let (record, _) = plain.get_mut(&handle).expect("it is there");
                record.reverse();
                region.get_mut(handle).expect("it is there").reverse();
            }
            (8, Some(handle)) => {
                plain.remove(&handle);
                region.free(handle).expect("it is there");
                stale.push(handle);
            }
            _ if !stale.is_empty() => refused(&mut region, stale[below(stale.len())]),
            _ => {}
        }
        if let Some((handle, (record, _))) = plain.iter().nth(below(plain.len().max(1))) {
            assert_eq!(region.get(*handle), Some(&record[..]), "turn {turn}");
        }
    }
    assert!(full > 5, "{full} times full");
    let found: HashMap<Handle, Vec<u8>> = region.iter().map(|(handle, record)| (handle, record.to_vec())).collect();
    assert_eq!((found.len(), region.len()), (plain.len(), plain.len()));
    assert!(plain.iter().all(|(handle, (record, _))| found[handle] == *record));
    assert_eq!(region.bytes(), plain.values().map(|(record, _)| record.len() as u64).sum::<u64>());
    for handle in stale.into_iter().take(2_000) {
        refused(&mut region, handle);
    }
    for handle in found.into_keys() {
        region.free(handle).expect("it is there");
    }
    assert_eq!((region.len(), region.bytes(), region.iter().count()), (0, 0, 0));
    assert_eq!(region.report().expect("an opened book").used, 0);
}

/// The bytes around a record are others': writing all of one changes none of them.
#[test]
fn no_neighbour_is_reached() {
    let mut region = open(64);
    let lens = [0, 1, 15, 16, 17, 100, 4_000, 16_384, 16_385, 65_472, 65_473, 65_536, 65_537, 131_072];
    let handles: Vec<Handle> = lens.iter().cycle().take(42).map(|&len| region.alloc(&vec![1; len]).unwrap()).collect();
    for (place, &handle) in handles.iter().enumerate() {
        region[handle].fill(2);
        assert_eq!(region[handle].len(), lens[place % lens.len()]);
        assert!(handles[place + 1..].iter().all(|&other| region[other].iter().all(|&byte| byte == 1)), "{place}");
        assert!(handles[..place].iter().all(|&other| region[other].iter().all(|&byte| byte == 2)), "{place}");
    }
}

#[test]
fn alignment() {
    let mut region = open(600);
    let mut handles = Vec::new();
    for align in (0..=16).map(|bits| 1_usize << bits) {
        for len in [0, 1, 100, 12_288, 12_289, 16_384, 50_000, 70_000] {
            let record = vec![align.trailing_zeros() as u8; len];
            let handle = region.alloc_aligned(&record, align).expect("there is room");
            let longer = region.resize_aligned(handle, len + 3_000, align).expect("there is room");
            assert_eq!((region[longer].as_ptr() as usize) % align, 0, "{len} bytes at {align}");
            assert!(region[longer][..len] == record && region[longer][len..].iter().all(|&byte| byte == 0));
            handles.push((longer, align));
        }
    }
    let copy = region.clone();
    for (handle, align) in handles {
        assert_eq!((copy[handle].as_ptr() as usize) % align, 0, "in a clone");
        region.free(handle).expect("it is there");
    }
    for align in [0, 3, 48, 131_072] {
        assert_eq!(region.alloc_aligned(b"", align), Err(AllocError::Alignment));
    }
    let handle = region.alloc(b"HERON").expect("there is room");
    assert_eq!(region.resize_aligned(handle, 9, 3), Err(AllocError::Alignment.into()));
    assert_eq!(&region[handle], b"HERON");
}

/// A run of pages grows and shrinks where it stands if it can, and its pages are given back.
#[test]
fn long_records() {
    let mut region = open(16);
    let held = |region: &Region| region.report().expect("an opened book").arena.held;
    let long = region.alloc_zeroed(4 * PAGE_BYTES).expect("four pages");
    assert_eq!((held(&region), region[long].len()), (4, 4 * PAGE_BYTES));
    assert_eq!(region.resize(long, 7 * PAGE_BYTES + 1), Ok(long), "it ends at the frontier");
    assert_eq!(held(&region), 8);
    assert_eq!(region.resize(long, 2 * PAGE_BYTES), Ok(long));
    assert_eq!(held(&region), 2);
    let behind = region.alloc(&[1; 70_000]).expect("two pages");
    let moved = region.resize(long, 7 * PAGE_BYTES).expect("seven pages");
    assert!(moved != long && region.get(long).is_none());
    assert_eq!(held(&region), 9);
    assert_eq!(region.resize(moved, 15 * PAGE_BYTES), Err(AllocError::Full.into()));
    assert_eq!(region[moved].len(), 7 * PAGE_BYTES);
    let short = region.resize(moved, 10).expect("a page for its class");
    assert_eq!((held(&region), &region[short]), (3, &[0; 10][..]));
    region.free(behind).expect("it is there");
    region.free(short).expect("it is there");
    assert_eq!(region.alloc_zeroed(1 << 31), Err(AllocError::TooLarge));
    assert_eq!(region.alloc_zeroed((1 << 31) - 1), Err(AllocError::Full));
}

/// There is no smaller block: a record gets shorter where it stands.
#[test]
fn a_record_can_always_get_shorter() {
    for len in [1_000, 65_536] {
        let mut region = open(1);
        let handle = region.alloc(&vec![7; len]).expect("a page");
        let others: Vec<Handle> = std::iter::from_fn(|| region.alloc(&vec![8; len]).ok()).collect();
        assert_eq!(region.resize(handle, 3), Ok(handle), "every page is another class's");
        assert_eq!(region[handle], [7; 3]);
        assert_eq!(region.resize(handle, 6), Ok(handle));
        assert_eq!(region[handle], [7, 7, 7, 0, 0, 0]);
        assert!(others.iter().all(|&other| region[other] == vec![8; len]));
    }
}

/// The page of stale records goes to another class and to records with pages of their own.
#[test]
fn stale_handles_of_pages_that_others_have() {
    let mut region = open(1);
    let mut stale: Vec<Handle> = Vec::new();
    for len in [16, 1_000, 16_384, 65_536, 16, 65_000] {
        let records: Vec<Handle> = std::iter::from_fn(|| region.alloc(&vec![1; len]).ok()).collect();
        assert!(len == 65_000 || !records.is_empty(), "nothing was in use");
        for &handle in stale.iter().step_by(7) {
            refused(&mut region, handle);
        }
        for &handle in &records {
            region.free(handle).expect("it is there");
        }
        stale.extend(records);
    }
    assert!(stale.iter().all(|&handle| !region.contains(handle)));
}

#[test]
#[should_panic(expected = "the record of Handle(3 use 1) was freed")]
fn an_index_names_the_stale_handle() {
    let mut region = open(1);
    let handle = region.alloc(b"HERON").expect("there is room");
    region.free(handle).expect("it is there");
    let _ = &region[handle];
}

/// A clone goes its own way, and equal regions answer equally.
#[test]
fn a_region_is_a_value() {
    let mut region = open(64);
    let handles = [5, 500, 50_000, 500_000].map(|len| region.alloc(&vec![3; len]).expect("there is room"));
    let mut clone = region.clone();
    assert_eq!(clone, region);
    assert_eq!(clone.alloc(b"HERON"), region.alloc(b"HERON"));
    assert_eq!(clone, region);
    clone[handles[2]][49_999] = 4;
    assert_ne!(clone, region);
    assert_eq!(region[handles[2]], [3; 50_000]);
    assert_eq!(format!("{region:?}"), "Region { pages: 64, records: 5, bytes: 550510, .. }");
    assert_eq!(format!("{:?}", open(1).iter()), "{}");
}

fn resident() -> usize {
    let pages = std::fs::read_to_string("/proc/self/statm").expect("this is Linux");
    pages.split(' ').nth(1).and_then(|pages| pages.parse().ok()).expect("a number of pages")
}

/// An arena of 4 GiB, its book and its marks have memory only where they are used, and so has a clone.
#[test]
fn opening_and_cloning_touch_what_is_used() {
    let before = resident();
    let mut region = open(65_536);
    let handles = [10, 100_000].map(|len| region.alloc(&vec![9; len]).expect("there is room"));
    let clone = region.clone();
    assert_eq!(clone[handles[1]], [9; 100_000]);
    let heap = vigbuso::Heap::open(65_536).expect("4 GiB").clone();
    assert_eq!(heap.pages(), 65_536);
    let touched = resident().saturating_sub(before) * 4;
    assert!(touched < 64 * 1024, "{touched} KiB");
    assert!(Region::open(0).is_err() && Region::open(MAX_PAGES + 1).is_err());
    assert!(Region::open_with(1, &Rules::every(257, 0)).is_err());
}

#[test]
fn a_record_of_each_class_and_its_length() {
    let mut region = open(200);
    for class in Class::all() {
        for len in [class.bytes() - 1, class.bytes()] {
            let handle = region.alloc(&vec![1; len]).expect("there is room");
            assert_eq!(region[handle].len(), len);
        }
    }
    assert_eq!(region.report().expect("an opened book").used, 2 * Class::COUNT);
}

/// Regions and stores can pass to another thread; handles name records of any type.
#[test]
fn between_threads() {
    fn passes<T: Send + Sync + Unpin + std::panic::UnwindSafe>() {}
    passes::<Region>();
    passes::<vigbuso::Pool>();
    passes::<vigbuso::Heap>();
    passes::<vigbuso::Store<u32>>();
    passes::<Handle<std::rc::Rc<u32>>>();
    passes::<Error>();
}
