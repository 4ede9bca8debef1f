//! What the programs `compare` and `bench` share: the entries, calls of them, random
//! inputs and those that are measured. Records are written by `bikuvoa::layout`, which
//! checks nothing, so that they may be faulty. None of it is proved.

pub mod answer;
pub mod call;
pub mod draw;
pub mod entries;
pub mod inputs;
pub mod proved;

pub use prng;

/// The number as a word. What these programs write is far below the limit.
pub fn word(number: usize) -> u16 {
    u16::try_from(number).expect("a number that fits in a word")
}
