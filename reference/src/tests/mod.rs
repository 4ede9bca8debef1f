//! Tests of the crate, by subject. `random`, `build`, `write` and `declared` serve
//! the others.

mod brute_force;
mod build;
mod canonical;
mod catalogue;
mod concept_refusals;
mod declared;
mod lent_words;
mod links;
mod loose;
mod marks;
mod names;
mod order_of_checks;
mod patient;
mod pointwise;
mod random;
mod round_trip;
mod schema_refusals;
mod small_states;
mod state_refusals;
mod triples;
mod write;
