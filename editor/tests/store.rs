//! Stores: values of one type by typed handles, in regions that are owned, borrowed and shared.
#![allow(clippy::large_stack_arrays)]

use std::cell::RefCell;
use std::collections::HashMap;
use std::rc::Rc;

use vigbuso::{AllocError, Error, Handle, KeepMut, Record, Region, Store};

type Word = [u8; 20];

fn open<T: Record>() -> Store<T> {
    Store::open(8).expect("eight pages")
}

#[test]
fn a_store_of_values() {
    let mut words: Store<Word> = Store::open(64).expect("64 pages");
    let mut plain = HashMap::new();
    for number in 0..200_u8 {
        plain.insert(words.put(&[number; 20]).expect("there is room"), number);
    }
    for (&handle, number) in &mut plain {
        assert_eq!(words.get(handle), Some([*number; 20]));
        assert_eq!(words.replace(handle, &[*number + 1; 20]), Some([*number; 20]));
        assert!(words.update(handle, |word| word[0] += 1));
        *number += 1;
    }
    let found: HashMap<Handle<Word>, u8> = words.iter().map(|(handle, word)| (handle, word[1])).collect();
    assert_eq!(found, plain);
    assert!(words.iter().all(|(_, word)| word[0] == word[1] + 1));
    for (&handle, &number) in &plain {
        assert_eq!(words.remove(handle).map(|word| word[19]), Ok(number));
    }
    assert_eq!((words.region().len(), words.handles()), (0, vec![]));
}

/// There is no such value in the store: it is not read, not written and not removed, in debug and in release builds.
#[track_caller]
fn has_none<T: Record, R: KeepMut>(store: &mut Store<T, R>, handle: Handle<T>, value: &T) {
    assert!(store.get(handle).is_none() && store.replace(handle, value).is_none() && !store.contains(handle));
    assert!(!store.update(handle, |_| panic!("there is none")) && store.get_many([handle]).is_none());
    assert_eq!(store.remove(handle).err(), Some(Error::Stale(handle.erase())));
}

/// A value that was removed, also where another of the same type, of another or of no store stands now.
#[test]
fn stale_handles() {
    let mut words = open::<Word>();
    let stale = words.put(&[1; 20]).expect("there is room");
    words.remove(stale).expect("it is there");
    has_none(&mut words, stale, &[3; 20]);
    let next = words.put(&[2; 20]).expect("there is room");
    assert_eq!(next.granule(), stale.granule());
    has_none(&mut words, stale, &[3; 20]);
    assert_eq!(words.get(next), Some([2; 20]));
    let (mut region, before) = (words.into_region(), next);
    region.free(next.erase()).expect("it is there");
    for record in [&[4; 20][..], &[4; 20_000]] {
        let other = region.alloc(record).expect("there is room");
        let mut words = Store::<Word, _>::on(&mut region, 0);
        for handle in [stale, before, other_type(other)] {
            has_none(&mut words, handle, &[3; 20]);
        }
        assert_eq!(&region[other], record);
    }
}

/// Handles of other stores, which only their number can tell as such.
fn other_type<T>(handle: Handle) -> Handle<T> {
    Handle::from_bits(handle.bits()).expect("a handle's number")
}

/// Stores of one type in one region, and one of another type with the same number: each has its own values alone.
#[test]
fn stores_that_share_a_region() {
    let region = Rc::new(RefCell::new(Region::open(8).expect("eight pages")));
    let store = |number| Store::<u32, _>::on(Rc::clone(&region), number);
    let (mut one, mut two) = (store(1), store(2));
    let mut pairs = Store::<(u32, u32), _>::on(Rc::clone(&region), 1);
    let handles = [one.put(&10).expect("room"), two.put(&20).expect("room")];
    let pair = pairs.put(&(30, 40)).expect("room");
    let raw = region.borrow_mut().alloc(&50_u32.to_le_bytes()).expect("room");
    has_none(&mut one, handles[1], &0);
    has_none(&mut two, handles[0], &0);
    has_none(&mut one, other_type(pair.erase()), &0);
    has_none(&mut one, other_type(raw), &0);
    assert_eq!((one.handles(), two.handles(), pairs.handles()), (vec![handles[0]], vec![handles[1]], vec![pair]));
    assert_eq!((one.get(handles[0]), two.get(handles[1]), pairs.get(pair)), (Some(10), Some(20), Some((30, 40))));
    assert_eq!(region.borrow().len(), 4);
    let saved = region.borrow().save();
    let mut again = Store::<u32, _>::on(Region::load(&saved).expect("as it was saved"), 2);
    assert!(Store::<u32, _>::on(again.region(), 1).iter().eq([(handles[0], 10)]), "a store to be read");
    assert_eq!(again.remove(handles[1]), Ok(20));
    has_none(&mut again, handles[0], &0);
}

#[test]
fn sizes() {
    let mut units = open::<()>();
    let handles = [units.put(&()).expect("there is room"), units.put(&()).expect("there is room")];
    assert_eq!((units.get_many(handles), units.iter().count()), (Some([(), ()]), 2));
    let mut large = open::<[u8; 65_472]>();
    let handle = large.put(&[9; 65_472]).expect("a span");
    assert_eq!(large.get(handle), Some([9; 65_472]));
    assert_eq!(open::<[u8; 65_473]>().put(&[9; 65_473]), Err(AllocError::TooLarge));
    let mut region = Region::open(1).expect("a page");
    let last = Store::<i8, _>::on(&mut region, Region::STORES - 1).put(&-9).expect("there is room");
    assert_eq!(Store::<i8, _>::on(&mut region, Region::STORES - 1).get(last), Some(-9));
    assert!(!Store::<i8, _>::on(&mut region, 0).contains(last));
}

/// As bytes a value can be resized and aligned; it is the store's as long as it has its length and place.
#[test]
fn values_as_records() {
    fn store(region: &mut Region) -> Store<u32, &mut Region> {
        Store::on(region, 3)
    }
    let mut region = Region::open(8).expect("eight pages");
    let handle = store(&mut region).put(&0x0102_0304).expect("there is room");
    let longer = region.resize(handle.erase(), 9).expect("there is room");
    assert_eq!((longer, store(&mut region).get(handle)), (handle.erase(), None));
    assert_eq!(region[longer], [4, 3, 2, 1, 0, 0, 0, 0, 0]);
    let back = region.resize(longer, 4).expect("there is room");
    assert_eq!(store(&mut region).get(other_type(back)), Some(0x0102_0304));
    let aligned = region.resize_aligned(back, 4, 4_096).expect("there is room");
    assert_eq!((region[aligned].as_ptr() as usize % 4_096, &region[aligned]), (0, &[4, 3, 2, 1][..]));
    assert!(!store(&mut region).contains(other_type(aligned)) && store(&mut region).handles().is_empty());
}

#[test]
#[should_panic(expected = "store 16384 of a region")]
fn a_number_that_no_store_has() {
    let _ = Store::<u8, _>::on(Region::open(1).expect("a page"), Region::STORES);
}
