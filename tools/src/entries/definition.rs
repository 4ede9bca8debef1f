//! What the programs know of an entry.

use crate::answer::Out;
use crate::call::{Call, Place};
use crate::inputs::Size;
use reference::calculus::Verdict;

pub struct Definition {
    pub name: &'static str,
    /// What is passed, in the order in which it is checked. Each of them is damaged.
    pub places: &'static [Place],
    /// Whether a query that is passed may have marks, and a state facts of them.
    pub takes_marks: bool,
    /// How many words must be lent, over a state of so many objects.
    pub least_lent: fn(usize) -> usize,
    /// How many words must be lent for an order.
    pub least_order: usize,
    /// Has the proved code answer: 0 or the refusal's number.
    pub proved: fn(&Call, Out) -> u16,
    /// Has the reference answer. It writes all that must be written but the out values,
    /// which it says; `Err` has the refusal's number.
    pub reference: fn(&Call, Out) -> Result<Said, u16>,
    /// Alters the input that all entries have in that size, where measuring it would
    /// say little of this one.
    pub adapt: fn(Size, &mut Call),
}

impl Definition {
    pub fn takes(&self, place: Place) -> bool {
        self.places.contains(&place)
    }
}

/// What the reference says of the out values.
pub enum Said {
    /// The first; there is no second.
    Value(u64),
    /// Those of the verdict. With held, the papers say nothing of the second; with open,
    /// they leave the state and both of its numbers free.
    Verdict(Verdict),
}
