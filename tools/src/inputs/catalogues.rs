//! The catalogues of the inputs, each of as many views as there may be.

use super::concepts::{in_treatment, known_patients, needs};
use super::schemas::{DISEASE, MALE, PATIENT, PERSON, STRAP, STRING};
use super::schemas::{NAME, SUFFERS, WEARS};
use bikuvoa::layout::token::{backward, class, constant, forward};
use bikuvoa::layout::token::{BOTH, EMPTY, EVERYTHING, REACHED};
use bikuvoa::layout::{catalogue, concept, Pair, MAX_ATTRIBUTES, MAX_VIEWS};

fn of_tokens(views: impl Iterator<Item = Vec<Pair>>) -> Vec<u16> {
    let views: Vec<Vec<u16>> = views.map(|tokens| concept(&tokens)).collect();
    catalogue(&views)
}

/// Each leaf of schema X by itself, who of it wears something, who wears it, and
/// what it wears.
pub fn small() -> Vec<u16> {
    let leaves = [class(PERSON), class(STRAP), constant(0), EVERYTHING];
    of_tokens(leaves.into_iter().flat_map(|leaf| {
        [
            vec![leaf],
            vec![leaf, EMPTY, EVERYTHING, forward(WEARS), REACHED, BOTH],
            vec![EMPTY, leaf, forward(WEARS), REACHED],
            vec![EMPTY, leaf, backward(WEARS), REACHED],
        ]
    }))
}

/// Patients, with each choice from four conditions, two of which the report's
/// schema has all of them meet.
pub fn middle() -> Vec<u16> {
    let conditions: [&[Pair]; 4] = [
        &[class(MALE)],
        &[EMPTY, class(STRING), forward(NAME), REACHED],
        &[EMPTY, class(DISEASE), forward(SUFFERS), REACHED],
        &in_treatment(),
    ];
    of_tokens((0..MAX_VIEWS).map(|choice| {
        let chosen = conditions.iter().enumerate();
        let chosen = chosen.filter(|(place, _)| choice >> place & 1 == 1);
        let mut tokens = vec![class(PATIENT)];
        for (_, condition) in chosen {
            tokens.extend_from_slice(condition);
            tokens.push(BOTH);
        }
        tokens
    }))
}

/// Paths of six steps along the attributes of the largest schema in a circle, from
/// each of them and either way round; none is held by another.
pub fn largest() -> Vec<u16> {
    let circle = |first: u16, on: u16| {
        let attributes = (0..).map(move |step| (first + on * step) % MAX_ATTRIBUTES);
        needs(attributes)
    };
    let both_ways = [1, MAX_ATTRIBUTES - 1];
    let views = both_ways.map(|on| (0..MAX_ATTRIBUTES).map(move |first| circle(first, on)));
    catalogue(&Vec::from_iter(views.into_iter().flatten()))
}

/// Classes of the largest schema, each in the next.
pub fn chain() -> Vec<u16> {
    of_tokens((0..).map(|number| vec![class(number)]).take(MAX_VIEWS))
}

/// The report's view over and over.
pub fn equal() -> Vec<u16> {
    catalogue(&vec![known_patients(); MAX_VIEWS])
}
