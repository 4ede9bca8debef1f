//! Counts of links. A link is a pair of an attribute: a first object with a
//! second as its value. Those that count are taken as a set, which is then
//! grouped by one of the two objects.

use super::selected;
use crate::syntax::{Concept, State};
use std::collections::{BTreeMap, BTreeSet};

/// How many values of the attribute each selected object has, summed.
pub fn links_by_first(state: &State, concept: &Concept, attribute: usize) -> usize {
    let links = links(state, concept, attribute);
    grouped(links.into_iter())
}

/// How many selected objects have each object as a value, summed.
pub fn links_by_second(state: &State, concept: &Concept, attribute: usize) -> usize {
    let links = links(state, concept, attribute);
    grouped(links.into_iter().map(|(first, second)| (second, first)))
}

/// The links of the attribute whose first object the concept selects.
fn links(state: &State, concept: &Concept, attribute: usize) -> BTreeSet<(usize, usize)> {
    let inside = selected(state, concept);
    let pairs = state.attributes[attribute].iter().copied();
    pairs.filter(|&(first, _)| inside[first]).collect()
}

/// The sizes of the groups, each of what goes with one left object, summed.
fn grouped(links: impl Iterator<Item = (usize, usize)>) -> usize {
    let mut groups: BTreeMap<usize, BTreeSet<usize>> = BTreeMap::new();
    for (left, right) in links {
        groups.entry(left).or_default().insert(right);
    }
    groups.values().map(BTreeSet::len).sum()
}
