//! States judged by the set semantics of table 1.

mod legality;
mod links;
mod selection;

pub use legality::first_broken;
pub use links::{links_by_first, links_by_second};
pub use selection::selected;

use crate::syntax::{Concept, Schema, State};

/// The lowest object in the query and outside the view. An illegal state
/// disproves nothing and so has none.
pub fn counterexample(
    schema: &Schema,
    query: &Concept,
    view: &Concept,
    state: &State,
) -> Option<usize> {
    if first_broken(schema, state).is_some() {
        return None;
    }
    separating(query, view, state)
}

/// The lowest object in the query and outside the view, legal or not.
pub fn separating(query: &Concept, view: &Concept, state: &State) -> Option<usize> {
    let inside = selected(state, query);
    let covered = selected(state, view);
    (0..state.objects).find(|&object| inside[object] && !covered[object])
}
