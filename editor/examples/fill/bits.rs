//! Sets of numbers, a bit each, as they stand in records.

const WORD: usize = 8;

/// A set of numbers below some limit.
#[derive(Clone)]
pub struct Bits(Vec<u64>);

impl Bits {
    /// Bytes of a record with such a set.
    pub fn bytes_for(limit: usize) -> usize {
        WORD * limit.div_ceil(64)
    }

    /// All numbers below a limit.
    pub fn below(limit: usize) -> Bits {
        let mut bits = vec![u64::MAX; limit / 64];
        match limit % 64 {
            0 => {}
            rest => bits.push((1 << rest) - 1),
        }
        Bits(bits)
    }

    pub fn from_bytes(bytes: &[u8]) -> Bits {
        Bits(words(bytes).collect())
    }

    pub fn to_bytes(&self) -> Vec<u8> {
        self.0.iter().flat_map(|bits| bits.to_le_bytes()).collect()
    }

    /// Keeps those that a record has too.
    pub fn keep(&mut self, record: &[u8]) {
        for (bits, other) in self.0.iter_mut().zip(words(record)) {
            *bits &= other;
        }
    }

    /// The least number that a record has too.
    pub fn first_in(&self, record: &[u8]) -> Option<usize> {
        let common = self.0.iter().zip(words(record)).map(|(bits, other)| bits & other);
        common.enumerate().find(|(_, bits)| *bits != 0).map(|(at, bits)| 64 * at + bits.trailing_zeros() as usize)
    }

    pub fn count(&self) -> usize {
        self.0.iter().map(|bits| bits.count_ones() as usize).sum()
    }

    /// The numbers, the least first.
    pub fn numbers(&self) -> impl Iterator<Item = usize> + '_ {
        let bits_of =
            |at: usize, bits: u64| (0..64).filter(move |bit| bits >> bit & 1 == 1).map(move |bit| 64 * at + bit);
        let words = self.0.iter().enumerate().filter(|(_, &bits)| bits != 0);
        words.flat_map(move |(at, &bits)| bits_of(at, bits))
    }
}

fn words(bytes: &[u8]) -> impl Iterator<Item = u64> + '_ {
    bytes.chunks_exact(WORD).map(|bytes| u64::from_le_bytes(bytes.try_into().expect("eight bytes")))
}
