//! The record of a choice: the words that fit into a slot, each with the score that a fill with it could reach at most.

use std::cmp::Reverse;

/// Bytes of a candidate: its number and its score.
const ENTRY: usize = 8;

#[derive(Clone, Copy)]
pub struct Candidate {
    /// The word's number among those of its length.
    pub number: usize,
    pub at_most: u32,
}

/// The record, the best candidates first.
pub fn to_bytes(mut candidates: Vec<Candidate>) -> Vec<u8> {
    candidates.sort_by_key(|candidate| (Reverse(candidate.at_most), candidate.number));
    let numbers = candidates.iter().flat_map(|candidate| [candidate.number as u32, candidate.at_most]);
    numbers.flat_map(u32::to_le_bytes).collect()
}

/// Where each candidate of a record of so many bytes stands.
pub fn places(bytes: usize) -> impl Iterator<Item = std::ops::Range<usize>> {
    (0..bytes).step_by(ENTRY).map(|at| at..at + ENTRY)
}

pub fn from_bytes(bytes: &[u8]) -> Candidate {
    let number = |at: usize| u32::from_le_bytes(bytes[at..at + 4].try_into().expect("four bytes"));
    Candidate { number: number(0) as usize, at_most: number(4) }
}
