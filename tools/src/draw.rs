//! Random inputs, each from the numbers of a `Prng`.

use crate::prng::Prng;

pub mod attribute;
pub mod catalogue;
pub mod damage;
pub mod state;
pub mod triple;
pub mod wide;

mod concept;
mod repair;
mod schema;
mod sketch;
mod witness;

#[cfg(test)]
mod tests;

/// How far the parts of a triple go towards the limits.
#[derive(Clone, Copy, PartialEq, Eq)]
enum Scale {
    Small,
    Large,
}

impl Scale {
    /// Mostly small, where axioms, query and view meet often.
    fn draw(prng: &mut Prng) -> Self {
        if prng.chance(92) {
            Scale::Small
        } else {
            Scale::Large
        }
    }
}
