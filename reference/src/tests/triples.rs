//! Triples of schema, query and view with known verdicts, put as records.

use super::build::{backward, both, class, forward, path, reached, schema};
use super::write;
use crate::calculus::Verdict::{self, Held, Open};
use crate::entries::{decide, holds, DECIDE_WORDS};
use crate::syntax::{Axiom, Concept, Role, Schema};

const A: usize = 0;
const B: usize = 1;
const C: usize = 2;
const P: usize = 0;
const Q: usize = 1;

/// The one verdict of both entries.
fn verdict(schema: &Schema, query: &Concept, view: &Concept) -> Verdict {
    let schema = write::schema(schema);
    let (query, view) = (write::concept(query), write::concept(view));
    let verdict = decide(&schema, &query, &view, DECIDE_WORDS);
    assert_eq!(holds(&schema, &query, &view), verdict);
    verdict.expect("an accepted triple")
}

/// The verdict over three classes, two attributes and two constants.
fn under(axioms: &[Axiom], query: &Concept, view: &Concept) -> Verdict {
    verdict(&schema(3, 2, 2, axioms), query, view)
}

fn needs(class: usize, attribute: usize) -> Axiom {
    Axiom::Needs { class, attribute }
}

fn types(class: usize, attribute: usize, values: usize) -> Axiom {
    Axiom::Types {
        class,
        attribute,
        values,
    }
}

fn single(class: usize, attribute: usize) -> Axiom {
    Axiom::Single { class, attribute }
}

fn relates(attribute: usize, domain: usize, range: usize) -> Axiom {
    Axiom::Relates {
        attribute,
        domain,
        range,
    }
}

fn to(role: Role, landing: Concept) -> Concept {
    reached(&[(role, landing)])
}

#[test]
fn a_class_holds_itself() {
    assert_eq!(under(&[], &class(A), &class(A)), Held);
    assert_eq!(under(&[], &class(A), &class(B)), Open);
    assert_eq!(under(&[], &class(A), &Concept::Everything), Held);
}

#[test]
fn a_need_forces_the_domain() {
    let axioms = [needs(A, P), relates(P, B, C)];
    assert_eq!(under(&axioms, &class(A), &class(B)), Held);
    assert_eq!(under(&axioms, &class(A), &class(C)), Open);
    assert_eq!(under(&axioms, &class(A), &to(forward(P), class(C))), Held);
}

#[test]
fn the_domain_of_a_need_is_followed_at_made_values() {
    let axioms = [needs(A, P), types(A, P, B), needs(B, Q), relates(Q, C, C)];
    assert_eq!(under(&axioms, &class(A), &to(forward(P), class(C))), Held);
}

#[test]
fn circular_needs_end() {
    let axioms = [needs(A, P), types(A, P, A)];
    let step = (forward(P), Concept::Everything);
    let mut steps = vec![step; 6];
    assert_eq!(under(&axioms, &class(A), &reached(&steps)), Held);
    steps[5].1 = class(A);
    assert_eq!(under(&axioms, &class(A), &reached(&steps)), Held);
    steps[5].1 = class(B);
    assert_eq!(under(&axioms, &class(A), &reached(&steps)), Open);
}

#[test]
fn two_constants_at_once_are_in_any_view() {
    let query = both(Concept::Constant(0), Concept::Constant(1));
    let views = [
        class(A),
        Concept::Constant(0),
        to(backward(P), class(B)),
        reached(&vec![(forward(P), class(A)); 6]),
    ];
    for view in views {
        assert_eq!(under(&[], &query, &view), Held, "{view:?}");
    }
}

#[test]
fn single_values_that_are_two_constants_clash() {
    let one = to(forward(P), Concept::Constant(0));
    let other = to(forward(P), Concept::Constant(1));
    let query = both(class(A), both(one, other));
    assert_eq!(under(&[single(A, P)], &query, &class(B)), Held);
    assert_eq!(under(&[single(B, P)], &query, &class(B)), Open);
}

#[test]
fn a_single_value_joins_what_is_asked_of_it() {
    let query = both(
        class(A),
        both(to(forward(P), class(B)), to(forward(P), class(C))),
    );
    let view = to(forward(P), both(class(B), class(C)));
    assert_eq!(under(&[single(A, P)], &query, &view), Held);
    assert_eq!(under(&[], &query, &view), Open);
}

#[test]
fn a_backward_step_is_not_single() {
    let query = both(
        class(A),
        both(to(backward(P), class(B)), to(backward(P), class(C))),
    );
    let view = to(backward(P), both(class(B), class(C)));
    assert_eq!(under(&[single(A, P)], &query, &view), Open);
}

#[test]
fn a_made_value_leads_back_to_its_owner_alone() {
    let back = |landing| reached(&[(forward(P), Concept::Everything), (backward(P), landing)]);
    assert_eq!(under(&[needs(A, P)], &class(A), &back(class(B))), Open);
    assert_eq!(under(&[needs(A, P)], &class(A), &back(class(A))), Held);
}

#[test]
fn axioms_bind_constants() {
    let axioms = [Axiom::Includes {
        class: A,
        superclass: B,
    }];
    let constant = Concept::Constant(0);
    let query = both(constant.clone(), to(forward(P), both(constant, class(A))));
    assert_eq!(under(&axioms, &query, &class(B)), Held);
    assert_eq!(
        under(&[needs(A, Q)], &query, &to(forward(Q), Concept::Everything)),
        Held
    );
}

#[test]
fn the_two_ends_of_an_agreement_are_one_object() {
    let left = path(&[(forward(P), class(B))]);
    let right = path(&[(forward(Q), class(A)), (backward(P), class(C))]);
    let query = Concept::Common(left, right);
    let joined = to(forward(P), both(class(B), class(C)));
    assert_eq!(under(&[], &query, &joined), Held);
    let middle = to(forward(Q), class(A));
    assert_eq!(under(&[], &query, &middle), Held);
    assert_eq!(under(&[], &joined, &query), Open);
}

#[test]
fn two_circles_over_the_same_attributes_stay_apart() {
    let circle = |landing| {
        let steps = [(forward(P), landing), (forward(Q), Concept::Everything)];
        Concept::Common(path(&steps), path(&[]))
    };
    let query = both(circle(class(A)), circle(class(B)));
    let through = |landing| to(forward(P), landing);
    assert_eq!(under(&[], &query, &through(class(A))), Held);
    assert_eq!(under(&[], &query, &through(class(B))), Held);
    let joined = through(both(class(A), class(B)));
    assert_eq!(under(&[], &query, &joined), Open);
}

#[test]
fn empty_paths() {
    let reaches = Concept::Reached(path(&[]));
    let agrees = Concept::Common(path(&[]), path(&[]));
    for concept in [&reaches, &agrees] {
        assert_eq!(under(&[], &class(A), concept), Held);
        assert_eq!(under(&[], concept, &class(A)), Open);
        assert_eq!(under(&[], concept, &Concept::Everything), Held);
    }
    let circle = |left: &[_], right: &[_]| Concept::Common(path(left), path(right));
    let step = [(forward(P), class(A))];
    assert_eq!(under(&[], &circle(&step, &[]), &circle(&[], &step)), Held);
    assert_eq!(under(&[], &circle(&step, &[]), &class(A)), Held);
    assert_eq!(under(&[], &circle(&[], &step), &class(B)), Open);
}

#[test]
fn inclusions_may_be_circular() {
    let include = |class, superclass| Axiom::Includes { class, superclass };
    let axioms = [include(A, B), include(B, C), include(C, A), include(A, B)];
    for query in [A, B, C] {
        for view in [A, B, C] {
            assert_eq!(under(&axioms, &class(query), &class(view)), Held);
        }
    }
}
