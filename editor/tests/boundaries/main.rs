//! Document 01's rules, and 02's, where they turn: at their limits, and where a rule that is only a little different would answer
//! something else. Every expected value is the paper's, written down; docs/DEMANDS.md says which rule each test holds.

mod blocks;
mod chunks;
mod format;
mod heap;
mod holes;
mod idle;
mod joins;
mod marks;
mod mixed;
mod parks;
mod ranges;
mod repeats;
mod rules;
mod runs;
mod wide;
