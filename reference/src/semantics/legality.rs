//! Which axioms a state satisfies.

use crate::syntax::{Axiom, Schema, State};

/// The place of the first broken axiom, or nothing if the state is legal.
pub fn first_broken(schema: &Schema, state: &State) -> Option<usize> {
    schema
        .axioms
        .iter()
        .position(|axiom| !satisfied(axiom, state))
}

fn satisfied(axiom: &Axiom, state: &State) -> bool {
    match *axiom {
        Axiom::Includes { class, superclass } => {
            state.classes[class].is_subset(&state.classes[superclass])
        }
        Axiom::Types {
            class,
            attribute,
            values,
        } => state.attributes[attribute].iter().all(|(first, second)| {
            !state.classes[class].contains(first) || state.classes[values].contains(second)
        }),
        Axiom::Needs { class, attribute } => state.classes[class]
            .iter()
            .all(|&object| values(state, attribute, object) >= 1),
        Axiom::Single { class, attribute } => state.classes[class]
            .iter()
            .all(|&object| values(state, attribute, object) <= 1),
        Axiom::Relates {
            attribute,
            domain,
            range,
        } => state.attributes[attribute].iter().all(|(first, second)| {
            state.classes[domain].contains(first) && state.classes[range].contains(second)
        }),
    }
}

/// How many values the attribute has at the object.
fn values(state: &State, attribute: usize, object: usize) -> usize {
    state.attributes[attribute]
        .range((object, 0)..=(object, usize::MAX))
        .count()
}
