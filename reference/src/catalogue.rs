//! Views in order. Each ordered pair is decided by itself, and groups and their
//! order follow the definitions, over sets of view numbers.

use crate::calculus::{self, Verdict};
use crate::syntax::{Concept, Schema};
use std::collections::BTreeSet;

/// The pairs of which the first view is held by the second.
pub type Held = BTreeSet<(usize, usize)>;

/// Views that are held by each other.
pub type Group = BTreeSet<usize>;

/// Decides each ordered pair, that of a view with itself as well.
pub fn held(schema: &Schema, views: &[Concept]) -> Held {
    let mut held = Held::new();
    for (first, query) in views.iter().enumerate() {
        for (second, view) in views.iter().enumerate() {
            if calculus::decide(schema, query, view) == Verdict::Held {
                held.insert((first, second));
            }
        }
    }
    held
}

/// The groups of so many views. The next is always, of those with no narrower
/// group still to come, the one with the lowest view in it.
pub fn order(views: usize, held: &Held) -> Vec<Group> {
    let mut to_come = groups(views, held);
    let mut order = Vec::new();
    while !to_come.is_empty() {
        let waits = |group: &Group| to_come.iter().any(|other| is_narrower(held, other, group));
        let ready = to_come.iter().filter(|group| !waits(group));
        let next = ready.min_by_key(|group| group.first());
        let next = next.expect("of finitely many groups one is narrowest");
        order.push(next.clone());
        to_come.remove(&order[order.len() - 1]);
    }
    order
}

pub(crate) fn groups(views: usize, held: &Held) -> BTreeSet<Group> {
    let is_same = |one, other| held.contains(&(one, other)) && held.contains(&(other, one));
    let group = |one| (0..views).filter(|&other| is_same(one, other)).collect();
    (0..views).map(group).collect()
}

/// Whether each view of the one group is held by each of the other, which is
/// another group.
pub(crate) fn is_narrower(held: &Held, one: &Group, other: &Group) -> bool {
    let is_held = |&first: &usize| other.iter().all(|&second| held.contains(&(first, second)));
    one != other && one.iter().all(is_held)
}
