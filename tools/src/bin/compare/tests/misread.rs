//! Answerers that are right about another call than the one they are given:
//! the inputs must be such that this matters.

use super::{catalogue_difference, name_difference, state_difference, triple_difference};
use bikuvoa::layout::token::{BACKWARD, CLASS, CONSTANT, EVERYTHING, FORWARD, MARK};
use bikuvoa::layout::{self, axiom, Pair, CONCEPT, SCHEMA};
use tools::answer::{Answerer, Out};
use tools::call::{Call, Entry};
use tools::proved::Proved;

pub struct Misread<F: Fn(&mut Call)>(pub F);

impl<F: Fn(&mut Call)> Answerer for Misread<F> {
    fn answer(&self, call: &Call, out: Out) -> u16 {
        let mut call = call.clone();
        (self.0)(&mut call);
        Proved.answer(&call, out)
    }
}

/// Both comparisons must find the misreading.
fn assert_found(misread: fn(&mut Call)) {
    triple_difference(&Misread(misread));
    state_difference(&Misread(misread));
}

fn keep_axioms(call: &mut Call, kept: impl Fn(usize, Pair) -> bool) {
    if let Some(axioms) = SCHEMA.entries(&call.schema) {
        let axioms: Vec<Pair> = axioms
            .enumerate()
            .filter(|&(place, axiom)| kept(place, axiom))
            .map(|(_, axiom)| axiom)
            .collect();
        call.schema = SCHEMA.record(&call.schema, &axioms);
    }
}

fn without_kind(call: &mut Call, kind: u16) {
    keep_axioms(call, |_, axiom| axiom::kind(axiom) != kind);
}

pub fn alter_tokens(call: &mut Call, alter: fn(Pair) -> Pair) {
    for words in [&mut call.query, &mut call.view] {
        if let Some(tokens) = CONCEPT.entries(words) {
            let tokens: Vec<Pair> = tokens.map(alter).collect();
            *words = CONCEPT.record(words, &tokens);
        }
    }
}

#[test]
fn the_first_axiom_only() {
    assert_found(|call| keep_axioms(call, |place, _| place == 0));
}

#[test]
fn no_subclasses() {
    assert_found(|call| without_kind(call, axiom::SUBCLASS));
}

#[test]
fn no_typed_values() {
    assert_found(|call| without_kind(call, axiom::TYPING));
}

#[test]
fn no_necessary_values() {
    assert_found(|call| without_kind(call, axiom::NECESSARY));
}

#[test]
fn no_single_values() {
    assert_found(|call| without_kind(call, axiom::SINGLE));
}

#[test]
fn no_domains_and_ranges() {
    assert_found(|call| without_kind(call, axiom::RELATES));
}

#[test]
fn the_first_attribute_only() {
    state_difference(&Misread(|call| call.attribute = 0));
}

#[test]
fn backward_steps_taken_forward() {
    assert_found(|call| {
        alter_tokens(call, |token| match token {
            (BACKWARD, attribute) => (FORWARD, attribute),
            token => token,
        });
    });
}

#[test]
fn constants_taken_for_everything() {
    assert_found(|call| {
        alter_tokens(call, |token| match token {
            (CONSTANT, _) => EVERYTHING,
            token => token,
        });
    });
}

/// Each of the checks must be found if it reads tokens as others.
fn assert_misnaming_found(alter: fn(Pair) -> Pair) {
    for &entry in Entry::CHECKS {
        name_difference(&Misread(|call| {
            if call.entry == entry {
                alter_tokens(call, alter);
            }
        }));
    }
}

#[test]
fn every_class_taken_for_the_first() {
    assert_misnaming_found(|token| match token {
        (CLASS, _) => (CLASS, 0),
        token => token,
    });
}

#[test]
fn everything_taken_for_a_class() {
    assert_misnaming_found(|token| match token {
        EVERYTHING => (CLASS, 0),
        token => token,
    });
}

#[test]
fn constants_taken_for_classes() {
    assert_misnaming_found(|token| match token {
        (CONSTANT, number) => (CLASS, number),
        token => token,
    });
}

#[test]
fn marks_taken_for_classes() {
    name_difference(&Misread(|call| {
        alter_tokens(call, |token| match token {
            (MARK, number) => (CLASS, number),
            token => token,
        });
    }));
}

#[test]
fn every_attribute_taken_for_the_first() {
    assert_misnaming_found(|token| match token {
        (sort @ (FORWARD | BACKWARD), _) => (sort, 0),
        token => token,
    });
}

/// A view with the steps of a query is accepted.
#[test]
fn a_view_taken_for_a_query() {
    let found = name_difference(&Misread(|call| {
        if call.entry == Entry::CheckView {
            call.entry = Entry::CheckConcept;
            call.query.clone_from(&call.view);
        }
    }));
    assert_eq!(found.fault, "returned 0 and not 6");
}

#[test]
fn a_query_taken_for_a_view() {
    let found = name_difference(&Misread(|call| {
        if call.entry == Entry::CheckConcept {
            call.entry = Entry::CheckView;
            call.view.clone_from(&call.query);
        }
    }));
    assert_eq!(found.fault, "returned 6 and not 0");
}

#[test]
fn marks_where_there_may_be_none_and_none_where_there_may() {
    let checks = [
        (
            Entry::CheckConcept,
            Entry::CheckQuery,
            "returned 0 and not 4",
        ),
        (
            Entry::CheckQuery,
            Entry::CheckConcept,
            "returned 4 and not 0",
        ),
    ];
    for (entry, taken_for, fault) in checks {
        let found = name_difference(&Misread(|call| {
            if call.entry == entry {
                call.entry = taken_for;
            }
        }));
        assert_eq!(found.fault, fault);
    }
}

/// No axiom, or views in another order, must be found of a catalogue.
#[test]
fn a_catalogue_without_axioms() {
    catalogue_difference(&Misread(|call| keep_axioms(call, |_, _| false)));
}

#[test]
fn views_from_the_last_to_the_first() {
    catalogue_difference(&Misread(|call| {
        let mut views = layout::views(&call.catalogue).expect("a catalogue");
        views.reverse();
        call.catalogue = layout::catalogue(&views);
    }));
}
