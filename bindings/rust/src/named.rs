//! What a concept names.

use crate::schema::{Attribute, Class};

/// The classes and attributes that the tokens of a concept name. "Everything"
/// names nothing, constants and marks are no names, and what axioms mention does
/// not count.
#[derive(Clone, Copy, Debug, Default, PartialEq, Eq)]
pub struct Named {
    /// Bit A, counted from the lowest, is 1 exactly if class A is named.
    pub class_set: u32,
    /// Bit P is 1 exactly if a step, forward or backward, names attribute P.
    pub attribute_set: u32,
    /// How many classes are named, each counted once.
    pub count: u64,
}

impl Named {
    /// The named classes, ascending.
    pub fn classes(self) -> impl Iterator<Item = Class> {
        numbers(self.class_set).map(Class)
    }

    /// The named attributes, ascending.
    pub fn attributes(self) -> impl Iterator<Item = Attribute> {
        numbers(self.attribute_set).map(Attribute)
    }
}

/// The places of the bits that are 1, ascending.
pub(crate) fn numbers(set: u32) -> impl Iterator<Item = u16> {
    (0..u32::BITS as u16).filter(move |&place| set >> place & 1 == 1)
}
