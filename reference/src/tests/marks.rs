//! Verdicts with marks, put as records: all places with one mark are one object,
//! and different marks may be one.

use super::build::{backward, both, class, forward, path, reached, schema};
use super::declared::{all, constant, declared, to, verdict, A, B, P, Q, SINGLE};
use super::write;
use crate::calculus::Verdict::{self, Held, Open};
use crate::entries::{check_concept, check_query, check_view, counterexample, decide, holds};
use crate::entries::{links_by_first, links_by_second, select, Counterexample};
use crate::syntax::{Axiom, Concept, Path, Role, State};
use std::collections::BTreeMap;

/// The verdict without axioms and loose constants.
fn free(query: &Concept, view: &Concept) -> Verdict {
    verdict(&declared(&[], &[]), query, view)
}

fn mark(number: usize) -> Concept {
    Concept::Mark(number)
}

fn step(role: Role) -> Path {
    path(&[(role, Concept::Everything)])
}

fn common(left: Path, right: Path) -> Concept {
    Concept::Common(left, right)
}

/// A value of P with the one mark, and a value of Q with the other.
fn values(one: usize, other: usize) -> Concept {
    both(to(forward(P), mark(one)), to(forward(Q), mark(other)))
}

#[test]
fn places_with_one_mark_are_one_object() {
    let view = common(step(forward(P)), step(forward(Q)));
    for one in 0..4 {
        for other in 0..4 {
            let expected = if one == other { Held } else { Open };
            assert_eq!(free(&values(one, other), &view), expected, "{one}, {other}");
        }
    }
}

/// What is asked of the mark in one place is so in the other.
#[test]
fn a_marked_object_has_what_each_place_asks() {
    let asking = |other| {
        let one = to(forward(P), both(mark(2), class(A)));
        both(one, to(forward(Q), both(class(B), mark(other))))
    };
    let views = [
        to(forward(P), class(B)),
        to(forward(Q), class(A)),
        to(forward(Q), both(class(A), class(B))),
    ];
    for view in &views {
        assert_eq!(free(&asking(2), view), Held, "{view:?}");
        assert_eq!(free(&asking(1), view), Open, "{view:?}");
    }
}

/// A mark that stands at one place asks for nothing.
#[test]
fn a_mark_used_once_is_like_everything() {
    for number in 0..4 {
        let everything = [
            (mark(number), Concept::Everything),
            (
                to(forward(P), mark(number)),
                to(forward(P), Concept::Everything),
            ),
            (both(class(A), mark(number)), class(A)),
        ];
        let views = [
            Concept::Everything,
            class(A),
            constant(0),
            to(forward(P), Concept::Everything),
            common(step(forward(P)), Path::Empty),
        ];
        for (marked, unmarked) in &everything {
            for view in &views {
                assert_eq!(
                    free(marked, view),
                    free(unmarked, view),
                    "{marked:?}, {view:?}"
                );
            }
        }
    }
}

/// Different marks need not be one object, and may be: at one place they are.
#[test]
fn different_marks_may_meet() {
    let meeting = both(mark(0), mark(1));
    assert_eq!(free(&meeting, &class(A)), Open);
    let view = common(step(forward(P)), step(forward(Q)));
    let query = both(values(0, 1), to(forward(P), meeting));
    assert_eq!(free(&query, &view), Held);
    assert_eq!(free(&query, &class(A)), Open);
    // One after the other: 0 is 1, 1 is 2 and 2 is 3.
    let chain = [(0, 1), (1, 2), (2, 3)].map(|(one, other)| {
        let both_are = both(mark(one), mark(other));
        to(backward(Q), both_are)
    });
    let ends = values(0, 3);
    assert_eq!(free(&both(ends.clone(), all(&chain)), &view), Held);
    for missing in 0..3 {
        let mut fewer = chain.to_vec();
        fewer.remove(missing);
        assert_eq!(free(&both(ends.clone(), all(&fewer)), &view), Open);
    }
}

/// At the start, and where a path comes back to it.
#[test]
fn a_mark_at_the_start_closes_a_cycle() {
    let own = common(step(forward(P)), Path::Empty);
    assert_eq!(free(&both(mark(1), to(forward(P), mark(1))), &own), Held);
    assert_eq!(free(&both(mark(1), to(forward(P), mark(2))), &own), Open);
    let around = [
        (forward(P), Concept::Everything),
        (forward(Q), mark(0)),
        (forward(P), mark(3)),
    ];
    let query = both(mark(0), reached(&around));
    let two = path(&[
        (forward(P), Concept::Everything),
        (forward(Q), Concept::Everything),
    ]);
    assert_eq!(free(&query, &common(two, Path::Empty)), Held);
    assert_eq!(free(&query, &own), Open);
    // Inside a cycle, away from the start.
    let inside = reached(&[(forward(Q), mark(2)), (forward(P), mark(2))]);
    assert_eq!(free(&inside, &to(forward(Q), own.clone())), Held);
    assert_eq!(free(&inside, &own), Open);
    // In both paths of a common object.
    let meeting = common(
        path(&[(forward(P), mark(0)), (forward(Q), class(A))]),
        path(&[(backward(P), mark(0)), (forward(Q), Concept::Everything)]),
    );
    let there_and_back = common(step(forward(P)), step(backward(P)));
    assert_eq!(free(&meeting, &there_and_back), Held);
}

#[test]
fn a_mark_beside_a_constant_is_that_constant() {
    let query = both(
        to(forward(P), both(mark(0), constant(1))),
        to(forward(Q), mark(0)),
    );
    assert_eq!(free(&query, &to(forward(Q), constant(1))), Held);
    assert_eq!(free(&query, &to(forward(Q), constant(0))), Open);
    let start = both(mark(0), to(forward(P), both(constant(2), mark(0))));
    assert_eq!(free(&start, &constant(2)), Held);
    assert_eq!(free(&start, &constant(1)), Open);
}

/// In any order of constants and marks, at one place or at two.
#[test]
fn constants_under_one_mark_clash_unless_one_is_loose() {
    let named = |number| {
        [
            both(mark(0), constant(number)),
            both(constant(number), mark(0)),
        ]
    };
    for one in named(0) {
        for other in named(1) {
            let queries = [
                both(one.clone(), other.clone()),
                both(to(forward(P), one.clone()), to(forward(Q), other.clone())),
                both(one.clone(), to(forward(P), other.clone())),
                both(
                    to(forward(P), constant(1)),
                    both(one.clone(), to(forward(Q), other)),
                ),
            ];
            for query in &queries {
                assert_eq!(free(query, &class(A)), Held, "{query:?}");
                for loose in [&[0][..], &[1], &[0, 1]] {
                    let schema = declared(loose, &[]);
                    assert_eq!(verdict(&schema, query, &class(A)), Open, "{query:?}");
                }
                let schema = declared(&[2, 3], &[]);
                assert_eq!(verdict(&schema, query, &class(A)), Held, "{query:?}");
            }
        }
    }
    // By way of a second mark.
    let through = all(&[
        to(forward(P), both(mark(0), constant(0))),
        to(forward(P), both(mark(1), constant(1))),
        to(forward(Q), both(mark(0), mark(1))),
    ]);
    assert_eq!(free(&through, &class(A)), Held);
    assert_eq!(verdict(&declared(&[1], &[]), &through, &class(A)), Open);
    // Constants under different marks do not.
    let apart = both(
        both(mark(0), constant(0)),
        to(forward(P), both(mark(1), constant(1))),
    );
    assert_eq!(free(&apart, &class(A)), Open);
}

/// The mark's object is in A by one place, so its values of P are one.
#[test]
fn axioms_follow_a_marked_object() {
    let query = all(&[
        to(forward(Q), both(mark(3), class(A))),
        to(forward(Q), both(mark(3), to(forward(P), class(A)))),
        to(backward(Q), both(mark(3), to(forward(P), class(B)))),
    ]);
    let view = to(backward(Q), to(forward(P), both(class(A), class(B))));
    assert_eq!(verdict(&declared(&[], &[SINGLE]), &query, &view), Held);
    assert_eq!(free(&query, &view), Open);
    let needs = Axiom::Needs {
        class: A,
        attribute: Q,
    };
    let needing = both(mark(0), to(forward(P), both(class(A), mark(0))));
    let view = to(forward(Q), Concept::Everything);
    assert_eq!(verdict(&declared(&[], &[needs]), &needing, &view), Held);
    assert_eq!(free(&needing, &view), Open);
}

/// Two values of P that carry different marks are one object where P is single.
#[test]
fn marks_merge_where_values_are_single() {
    let query = all(&[
        class(A),
        to(forward(P), mark(0)),
        to(forward(P), mark(1)),
        to(forward(Q), both(mark(1), class(B))),
        to(backward(Q), mark(0)),
    ]);
    let view = to(backward(Q), class(B));
    assert_eq!(verdict(&declared(&[], &[SINGLE]), &query, &view), Held);
    assert_eq!(free(&query, &view), Open);
}

/// Object 0 has the values 1 of P and 2 of Q, with these objects for marks 0 and 1.
fn state(marks: [usize; 2]) -> Vec<u16> {
    write::state(&State {
        objects: 3,
        classes: Vec::new(),
        attributes: vec![[(0, 1)].into(), [(0, 2)].into()],
        constants: Vec::new(),
        marks: BTreeMap::from_iter([0, 1].into_iter().zip(marks)),
    })
}

/// A state tells of its own choice alone.
#[test]
fn a_counterexample_has_the_objects_that_the_state_chooses() {
    let schema = write::schema(&schema(0, 2, 0, &[]));
    let (query, view) = (values(0, 1), to(forward(P), to(forward(P), mark(0))));
    let query = write::concept(&query);
    let refused = counterexample(&schema, &query, &write::concept(&view), &state([1, 2]));
    assert_eq!(refused, Err(4));
    let view = write::concept(&common(step(forward(P)), step(forward(Q))));
    for one in 0..3 {
        for other in 0..3 {
            let expected = match (one, other) {
                (1, 2) => Counterexample::Yes(0),
                _ => Counterexample::No,
            };
            let answer = counterexample(&schema, &query, &view, &state([one, other]));
            assert_eq!(answer, Ok(expected), "{one}, {other}");
        }
    }
    // Both marks at once select their one object, whichever it is.
    let query = write::concept(&both(mark(1), mark(0)));
    let view = write::concept(&to(forward(Q), Concept::Everything));
    for (marks, expected) in [
        ([2, 2], Counterexample::Yes(2)),
        ([1, 1], Counterexample::Yes(1)),
        ([0, 0], Counterexample::No),
        ([1, 2], Counterexample::No),
    ] {
        let answer = counterexample(&schema, &query, &view, &state(marks));
        assert_eq!(answer, Ok(expected), "{marks:?}");
    }
}

/// In decide, holds and the counterexample check the query alone may have marks.
#[test]
fn a_view_with_a_mark_is_refused() {
    let schema = write::schema(&schema(0, 0, 0, &[]));
    let (marked, everything) = (
        write::concept(&mark(0)),
        write::concept(&Concept::Everything),
    );
    for query in [&marked, &everything] {
        assert_eq!(holds(&schema, query, &marked), Err(4));
        assert_eq!(decide(&schema, query, &marked, 0), Err(4));
        assert_eq!(counterexample(&schema, query, &marked, &[]), Err(4));
    }
    assert_eq!(holds(&schema, &marked, &everything), Ok(Held));
    assert_eq!(decide(&schema, &marked, &everything, 0), Err(11));
    assert_eq!(counterexample(&schema, &marked, &everything, &[]), Err(7));
    let beyond = write::concept(&mark(4));
    assert_eq!(holds(&schema, &beyond, &everything), Err(4));
}

/// A selection, a count of links and the checks that go with them and with views take
/// no marks.
#[test]
fn a_concept_with_a_mark_is_refused() {
    let schema = write::schema(&schema(0, 1, 0, &[]));
    for number in 0..4 {
        let marked = write::concept(&to(forward(P), mark(number)));
        assert_eq!(select(&schema, &marked, &[0, 0, 0], &mut []), Err(4));
        assert_eq!(links_by_first(&schema, &marked, &[0, 0, 0], 0), Err(4));
        assert_eq!(links_by_second(&schema, &marked, &[0, 0, 0], 0), Err(4));
        assert_eq!(check_concept(&schema, &marked), Err(4));
        assert_eq!(check_view(&schema, &marked), Err(4));
        assert!(check_query(&schema, &marked).is_ok());
    }
}
