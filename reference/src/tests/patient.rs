//! The medical example of the report: figure 6 with its query and view.

use super::build::{backward, both, class, forward, path, reached, schema};
use super::write;
use crate::calculus::Verdict;
use crate::entries::{decide, DECIDE_WORDS};
use crate::syntax::{Axiom, Concept, Schema};

const PATIENT: usize = 0;
const PERSON: usize = 1;
const DRUG: usize = 2;
const DOCTOR: usize = 3;
const DISEASE: usize = 4;
const STRING: usize = 5;
const TOPIC: usize = 6;
const MALE: usize = 7;
const FEMALE: usize = 8;

const TAKES: usize = 0;
const CONSULTS: usize = 1;
const SUFFERS: usize = 2;
const NAME: usize = 3;
const SKILLED_IN: usize = 4;

fn medical() -> Schema {
    let types = |class, attribute, values| Axiom::Types {
        class,
        attribute,
        values,
    };
    let needs = |class, attribute| Axiom::Needs { class, attribute };
    let axioms = [
        Axiom::Includes {
            class: PATIENT,
            superclass: PERSON,
        },
        types(PATIENT, TAKES, DRUG),
        types(PATIENT, CONSULTS, DOCTOR),
        types(PATIENT, SUFFERS, DISEASE),
        needs(PATIENT, SUFFERS),
        types(PERSON, NAME, STRING),
        needs(PERSON, NAME),
        Axiom::Single {
            class: PERSON,
            attribute: NAME,
        },
        types(DOCTOR, SKILLED_IN, DISEASE),
        Axiom::Relates {
            attribute: SKILLED_IN,
            domain: PERSON,
            range: TOPIC,
        },
    ];
    schema(9, 5, 0, &axioms)
}

fn query() -> Concept {
    let agreement = Concept::Common(
        path(&[(forward(CONSULTS), class(FEMALE))]),
        path(&[
            (forward(SUFFERS), Concept::Everything),
            (backward(SKILLED_IN), class(DOCTOR)),
        ]),
    );
    both(both(class(MALE), class(PATIENT)), agreement)
}

fn view() -> Concept {
    let agreement = Concept::Common(
        path(&[
            (forward(CONSULTS), class(DOCTOR)),
            (forward(SKILLED_IN), class(DISEASE)),
        ]),
        path(&[(forward(SUFFERS), class(DISEASE))]),
    );
    let named = reached(&[(forward(NAME), class(STRING))]);
    both(both(class(PATIENT), named), agreement)
}

fn verdict(schema: &Schema, query: &Concept, view: &Concept) -> Result<Verdict, u16> {
    let (query, view) = (write::concept(query), write::concept(view));
    decide(&write::schema(schema), &query, &view, DECIDE_WORDS)
}

#[test]
fn the_view_holds_the_query() {
    assert_eq!(verdict(&medical(), &query(), &view()), Ok(Verdict::Held));
}

#[test]
fn the_query_does_not_hold_the_view() {
    assert_eq!(verdict(&medical(), &view(), &query()), Ok(Verdict::Open));
}

/// Whether the view still holds the query without the axioms at these places.
fn held_without(places: &[usize]) -> bool {
    let mut weaker = medical();
    let mut place = 0..;
    weaker
        .axioms
        .retain(|_| place.next().is_some_and(|place| !places.contains(&place)));
    verdict(&weaker, &query(), &view()) == Ok(Verdict::Held)
}

#[test]
fn the_view_leans_on_a_few_axioms() {
    let leaned_on: Vec<usize> = (0..10).filter(|&place| !held_without(&[place])).collect();
    // Patients are persons, and persons have a name that is a string.
    assert_eq!(leaned_on, [0, 5, 6]);
    // What is suffered from and what a doctor knows are both diseases, so
    // either typing is enough.
    assert!(!held_without(&[3, 8]));
}
