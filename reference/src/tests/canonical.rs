//! Verdicts of larger triples against canonical states: an open one is
//! disproved by its own, a held one survives those of other queries.

use super::random::{self, Alphabet};
use super::write;
use crate::calculus::{Calculus, Verdict};
use crate::entries::{counterexample, Counterexample};
use crate::marks::used;
use crate::semantics::{first_broken, selected, separating};
use crate::syntax::{Concept, Schema, State};
use prng::Prng;
use std::collections::BTreeSet;

/// The objects that the record limits leave room for by their own count.
const MOST_OBJECTS: usize = 463;

struct Run {
    query: Concept,
    view: Concept,
    verdict: Verdict,
    state: State,
}

fn alphabet(prng: &mut Prng) -> Alphabet {
    let small = prng.chance(70);
    Alphabet {
        classes: 1 + prng.below(if small { 4 } else { 24 }),
        attributes: 1 + prng.below(if small { 2 } else { 8 }),
        constants: prng.below(5),
        marks: prng.below(5),
    }
}

fn run(prng: &mut Prng, alphabet: Alphabet, schema: &Schema) -> Run {
    let query = random::concept(prng, alphabet, 16);
    let view = if prng.chance(30) {
        random::weakened(prng, alphabet, &query, 6)
    } else {
        random::concept(prng, alphabet.unmarked(), 6)
    };
    let mut calculus = Calculus::new(schema, &query, &view);
    calculus.complete();
    let verdict = calculus.verdict();
    let (state, start) = calculus.canonical_state();
    assert!(state.objects <= MOST_OBJECTS, "{} objects", state.objects);
    if verdict == Verdict::Open {
        assert_eq!(first_broken(schema, &state), None, "{schema:?}\n{query:?}");
        assert!(selected(&state, &query)[start], "{schema:?}\n{query:?}");
        assert!(!selected(&state, &view)[start], "{schema:?}\n{view:?}");
        assert!(state.marks.keys().eq(&used(&query)), "{query:?}");
        assert_passes(schema, &query, &view, &state);
    }
    Run {
        query,
        view,
        verdict,
        state,
    }
}

/// As a record the state is accepted, and is found to be a counterexample.
fn assert_passes(schema: &Schema, query: &Concept, view: &Concept, state: &State) {
    let lowest = separating(query, view, state).expect("a separating object");
    let (query, view) = (write::concept(query), write::concept(view));
    let state = write::state(state);
    let found = counterexample(&write::schema(schema), &query, &view, &state);
    assert_eq!(found, Ok(Counterexample::Yes(lowest as u16)));
}

/// Whether one object stands there twice.
fn repeats<'a>(mut objects: impl Iterator<Item = &'a usize>) -> bool {
    let mut met = BTreeSet::new();
    objects.any(|object| !met.insert(object))
}

/// The state with any objects for the marks that the query uses, by preference
/// those that are named already.
fn chosen(prng: &mut Prng, query: &Concept, state: &State) -> State {
    let named: Vec<usize> = state
        .constants
        .iter()
        .chain(state.marks.values())
        .copied()
        .collect();
    let mut object = || {
        if named.is_empty() || prng.chance(40) {
            prng.below(state.objects)
        } else {
            named[prng.below(named.len())]
        }
    };
    State {
        marks: used(query)
            .into_iter()
            .map(|mark| (mark, object()))
            .collect(),
        ..state.clone()
    }
}

#[test]
fn canonical_states_bear_the_verdicts_out() {
    let mut prng = Prng::new(21);
    let (mut held, mut open, mut merging, mut meeting) = (0, 0, 0, 0);
    for _ in 0..150 {
        let alphabet = alphabet(&mut prng);
        let axioms = if prng.chance(50) { 12 } else { 97 };
        let axioms = prng.below(axioms);
        let schema = random::schema(&mut prng, alphabet, axioms);
        let runs: Vec<Run> = (0..8).map(|_| run(&mut prng, alphabet, &schema)).collect();
        let legal = runs.iter().map(|run| &run.state);
        let legal: Vec<&State> = legal
            .filter(|state| first_broken(&schema, state).is_none())
            .collect();
        for run in runs.iter().filter(|run| run.verdict == Verdict::Open) {
            open += 1;
            merging += usize::from(repeats(run.state.constants.iter()));
            meeting += usize::from(repeats(run.state.marks.values()));
        }
        for run in runs.iter().filter(|run| run.verdict == Verdict::Held) {
            held += 1;
            for state in &legal {
                let Run { query, view, .. } = run;
                let state = chosen(&mut prng, query, state);
                let separated = separating(query, view, &state);
                assert_eq!(separated, None, "{schema:?}\n{query:?}\n{view:?}");
            }
        }
    }
    println!("held {held}, open {open}, merging {merging}, meeting {meeting}");
    assert!(held >= 200, "{held} held");
    assert!(open >= 200, "{open} open");
    assert!(merging >= 50, "{merging} merging");
    assert!(meeting >= 50, "{meeting} meeting");
}

#[test]
fn a_weaker_view_always_holds() {
    let mut prng = Prng::new(22);
    for _ in 0..300 {
        let alphabet = alphabet(&mut prng);
        let axioms = prng.below(20);
        let schema = random::schema(&mut prng, alphabet, axioms);
        let query = random::concept(&mut prng, alphabet, 6);
        let view = random::weakened(&mut prng, alphabet, &query, 6);
        let verdict = crate::calculus::decide(&schema, &query, &view);
        assert_eq!(verdict, Verdict::Held, "{schema:?}\n{query:?}\n{view:?}");
    }
}
