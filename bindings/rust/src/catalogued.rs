//! What a catalogue of views says.

use crate::layout::MAX_VIEWS;
use crate::named::numbers;

/// Which views of a catalogue are held by which, and their groups in order. Views
/// that are held by each other have the same objects in every legal state: they
/// are a group.
#[derive(Clone, Copy, Debug, Default, PartialEq, Eq)]
pub struct Catalogued {
    /// Bit j of row i, counted from the lowest, is 1 exactly if view i is held by
    /// view j.
    pub rows: [u16; MAX_VIEWS],
    /// Bit j of word k is 1 exactly if view j is in group k. A narrower group
    /// always comes before a wider one; where that leaves a choice, the group with
    /// the lowest view comes first.
    pub order: [u16; MAX_VIEWS],
    /// How many groups there are.
    pub groups: u64,
}

impl Catalogued {
    /// Whether each object of the first view is in the second, in every legal
    /// state; not so of a view that is not in the catalogue.
    pub fn is_held(&self, first: usize, second: usize) -> bool {
        let row = self.rows.get(first).copied().unwrap_or(0);
        numbers(row.into()).any(|view| usize::from(view) == second)
    }

    /// The groups, narrower ones first, each as its views, ascending.
    pub fn in_order(&self) -> impl Iterator<Item = Vec<usize>> + '_ {
        let groups = self.order.iter().take_while(|&&group| group != 0);
        groups.map(|&group| numbers(group.into()).map(usize::from).collect())
    }
}
