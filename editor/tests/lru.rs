//! The example `lru` against a plain list, and its length.

#[path = "../examples/lru.rs"]
#[allow(dead_code)] // its `main`
mod lru;

use lru::Lru;

#[test]
fn it_keeps_the_latest_used() {
    let mut random: u64 = 1;
    let mut below = |limit: u32| {
        random = random.wrapping_mul(6_364_136_223_846_793_005).wrapping_add(1_442_695_040_888_963_407);
        u32::try_from(random >> 33).expect("31 bits") % limit
    };
    let mut lru = Lru::open(512, 200).expect("512 pages");
    let mut plain: Vec<(u64, Vec<u8>)> = Vec::new(); // the latest used last
    let mut gone = 0;
    for turn in 0..20_000_u32 {
        let key = u64::from(below(400));
        let place = plain.iter().position(|(other, _)| *other == key);
        match below(10) {
            0..=5 => {
                let value = turn.to_le_bytes().repeat(below(2_000) as usize);
                lru.put(key, &value).expect("there is room");
                place.map(|place| plain.remove(place));
                plain.push((key, value));
                if plain.len() > 200 {
                    plain.remove(0);
                    gone += 1;
                }
            }
            6..=8 => {
                let found = place.map(|place| plain.remove(place));
                assert_eq!(lru.get(key), found.as_ref().map(|(_, value)| &value[..]));
                plain.extend(found);
            }
            _ => {
                lru.remove(key).expect("its blocks are out");
                place.map(|place| plain.remove(place));
            }
        }
    }
    assert!(gone > 1_000, "{gone} values had to go");
    for (key, value) in &plain {
        assert_eq!(lru.get(*key), Some(&value[..]));
    }
}

#[test]
fn it_is_short() {
    assert!(include_str!("../examples/lru.rs").lines().count() <= 90);
}
