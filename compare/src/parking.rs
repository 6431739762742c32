//! Parking rules (document 02, A.9), read from the paper: which rows an opening refuses, and the limits that they give each class.

use crate::random::Random;

/// Small classes, then medium ones.
const CLASSES: u32 = 76;
/// First class, last class, empty limit, cold limit.
pub const ROW: usize = 4;
pub const MOST: u32 = 256;

/// 19, 18 or 17, if the rows are refused.
pub fn refusal(rows: &[u32]) -> Option<u32> {
    let bad = |row: &[u32]| row[2] > MOST || row[3] > MOST || row[1] < row[0] || row[1] >= CLASSES;
    let of = |class: u32| rows.chunks(ROW).filter(move |row| row[0] <= class && class <= row[1]).count();
    if rows.len() % ROW != 0 || rows.chunks(ROW).any(bad) {
        Some(19)
    } else if (0..CLASSES).any(|class| of(class) > 1) {
        Some(18)
    } else if !rows.is_empty() && (0..CLASSES).any(|class| of(class) == 0) {
        Some(17)
    } else {
        None
    }
}

/// The empty and the cold limit of a class, by rows that are not refused; none where there are no rows.
pub fn limits(rows: &[u32], class: u32) -> Option<[u32; 2]> {
    rows.chunks(ROW).find(|row| row[0] <= class && class <= row[1]).map(|row| [row[2], row[3]])
}

/// Rows that cover all classes, in any order.
pub fn any_rows(random: &mut Random) -> Vec<u32> {
    let mut cuts: Vec<u32> =
        (0..random.weighted(&[(2, 0), (4, 3), (2, 12)])).map(|_| random.below(76) as u32).collect();
    cuts.extend([0, CLASSES]);
    cuts.sort_unstable();
    cuts.dedup();
    let mut rows: Vec<[u32; ROW]> =
        cuts.windows(2).map(|pair| [pair[0], pair[1] - 1, limit(random), limit(random)]).collect();
    random.shuffle(&mut rows);
    rows.concat()
}

fn limit(random: &mut Random) -> u32 {
    match random.below(4) {
        0 => 0,
        1 => random.between(1, 6) as u32,
        2 => random.pick(&[1, 31, 32, 33, 255, 256]),
        _ => random.below(257) as u32,
    }
}

/// Rows with a fault or two, or with none after all.
pub fn wrong_rows(random: &mut Random) -> Vec<u32> {
    let mut rows = any_rows(random);
    for _ in 0..random.between(1, 2) {
        let at = ROW * random.index(rows.len() / ROW + 1);
        let row = at.min(rows.len().saturating_sub(ROW));
        let class = random.below(78) as u32;
        match random.below(8) {
            0 => rows.truncate(random.index(rows.len() + 1)),
            1 => rows.push(class),
            2 if !rows.is_empty() => drop(rows.drain(row..(row + ROW).min(rows.len()))),
            3 => rows.extend([class, class, limit(random), limit(random)]),
            4 => rows.extend([class, random.below(78) as u32, random.pick(&[0, 256, 257]), 0]),
            5 if !rows.is_empty() => {
                let word = random.index(rows.len());
                let other = rows[word] ^ 1 << random.below(32);
                rows[word] = random.pick(&[0, 1, 75, 76, 77, 256, 257, u32::MAX, other]);
            }
            6 => rows = (0..random.below(20)).map(|_| random.word() as u32).collect(),
            _ => {}
        }
    }
    rows
}
