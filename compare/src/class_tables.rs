//! Class tables from a growth rate, against a reading of document 02 (A.13). The original has none.

use std::iter::successors;

use crate::port;

/// What stands in a lent list before a call.
const UNTOUCHED: u32 = 0xDEAD_BEEF;
const TOPS: [u64; 12] = [0, 15, 16, 17, 32, 48, 1_024, 16_384, 65_456, 65_472, 65_473, 65_488];
const MOST: u64 = 1_000;

/// The sizes without end, or why there are none.
fn sizes(a: u64, b: u64, top: u64) -> Result<impl Iterator<Item = u64>, u32> {
    if b == 0 || a <= b || a > MOST || b > MOST {
        return Err(22);
    }
    if top % 16 != 0 || !(16..=65_472).contains(&top) {
        return Err(23);
    }
    Ok(successors(Some(16), move |size: &u64| Some((size * a).div_ceil(b).next_multiple_of(16).min(top))))
}

/// The number that is due and the list afterwards, of a lent list that is untouched.
fn due(a: u64, b: u64, top: u64, slots: u64, room: usize) -> (u32, Vec<u32>) {
    let mut list = vec![UNTOUCHED; room];
    let sizes = match sizes(a, b, top) {
        Err(number) => return (number, list),
        Ok(_) if slots == 0 || slots > room as u64 => return (24, list),
        Ok(sizes) => sizes,
    };
    let table: Vec<u64> = sizes.take(slots as usize).collect();
    if table.last() != Some(&top) {
        return (24, list);
    }
    for (entry, size) in list.iter_mut().zip(table) {
        *entry = size as u32;
    }
    (0, list)
}

/// Calls by the number that they answered, and those that differ.
#[derive(Default)]
struct Count {
    carried_out: u64,
    refused: [u64; 3],
    differences: u64,
}

impl Count {
    fn compare(&mut self, [a, b, top, slots]: [u64; 4], room: usize) {
        let mut list = vec![UNTOUCHED; room];
        let number = port::class_table(a, b, top, slots, &mut list);
        match number {
            0 => self.carried_out += 1,
            22..=24 => self.refused[number as usize - 22] += 1,
            _ => self.differences += 1,
        }
        if (number, list) != due(a, b, top, slots, room) {
            println!(
                "class_table({a}, {b}, {top}, {slots}) on {room}: the port answers {number}, or writes another list"
            );
            self.differences += 1;
        }
    }
}

/// Every growth with a top, the slots around just enough; then every top; then any numbers.
pub fn run() -> bool {
    let mut count = Count::default();
    for a in 0..=MOST + 1 {
        for b in 0..=MOST + 1 {
            let top = TOPS[(a * 7 + b) as usize % TOPS.len()];
            let enough = match sizes(a, b, top) {
                Ok(sizes) => sizes.take_while(|&size| size < top).count() + 1,
                Err(_) => 1,
            };
            for (slots, room) in [(enough, enough + 3), (enough - 1, enough), (enough + 1, enough)] {
                count.compare([a, b, top, slots as u64], room);
            }
        }
    }
    for top in 0..=65_600 {
        count.compare([9, 8, top, 70], 72);
    }
    for any in [0, 1, 9, 64, 1 << 32, u64::MAX] {
        for numbers in [[any, 8, 16_384, 64], [9, any, 16_384, 64], [9, 8, any, 64], [9, 8, 16_384, any], [any; 4]] {
            count.compare(numbers, 64);
        }
    }
    let [rates, tops, slots] = count.refused;
    println!("class_table: {} tables compared; refused as 22 {rates}, as 23 {tops}, as 24 {slots}", count.carried_out);
    println!("{} differences", count.differences);
    count.differences == 0
}
