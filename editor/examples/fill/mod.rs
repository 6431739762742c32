//! The parts of the fill example. `fill.rs` runs them from the command line, `tests/fill.rs` one by one.

// Pages, bytes and turns of an arena that is in memory are far below the limits of `usize` and `u32`.
#![allow(clippy::cast_possible_truncation)]
#![allow(clippy::similar_names)]

pub mod arguments;
pub mod bits;
pub mod blocks;
pub mod candidates;
pub mod grid;
pub mod history;
pub mod index;
pub mod job;
pub mod number;
pub mod pages;
pub mod panels;
pub mod picture;
pub mod plot;
pub mod progress;
pub mod recorder;
pub mod search;
pub mod store;
pub mod svg;
pub mod words;

/// What a step of the example gives, or why it could not.
pub type Outcome<T> = Result<T, Box<dyn std::error::Error>>;
