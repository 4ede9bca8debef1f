//! Rewriting into the form the rules expect: every agreement of two paths
//! becomes one path that returns to its start.

use super::terms::{ConceptId, ConceptTerm, PathId, PathTerm, Terms};
use crate::syntax::{Concept, Path, Role};

type Link = (Role, ConceptId);

pub(crate) fn normalise(terms: &mut Terms, concept: &Concept) -> ConceptId {
    let term = match concept {
        Concept::Class(class) => ConceptTerm::Class(*class),
        Concept::Everything => ConceptTerm::Top,
        Concept::Constant(constant) => ConceptTerm::Constant(*constant),
        Concept::Mark(mark) => ConceptTerm::Mark(*mark),
        Concept::Both(left, right) => {
            ConceptTerm::Both(normalise(terms, left), normalise(terms, right))
        }
        Concept::Reached(path) => {
            let links = links(terms, path);
            ConceptTerm::Exists(path_of(terms, &links))
        }
        Concept::Common(left, right) => {
            let (left, right) = (links(terms, left), links(terms, right));
            let links = round_trip(terms, left, right);
            ConceptTerm::Agrees(path_of(terms, &links))
        }
    };
    terms.concept_id(term)
}

/// The steps of a path from its first to its last.
fn links(terms: &mut Terms, path: &Path) -> Vec<Link> {
    match path {
        Path::Empty => Vec::new(),
        Path::Then(before, step) => {
            let mut links = links(terms, before);
            links.push((step.role, normalise(terms, &step.landing)));
            links
        }
    }
}

/// The left path out, then the right path backward. What the right path asks
/// of an object moves to the inverted step that lands on that object.
fn round_trip(terms: &mut Terms, mut left: Vec<Link>, right: Vec<Link>) -> Vec<Link> {
    let Some(&(_, right_end)) = right.last() else {
        return left;
    };
    let Some((_, left_end)) = left.last_mut() else {
        return right;
    };
    // The object where the paths meet answers to both of their ends.
    *left_end = terms.concept_id(ConceptTerm::Both(*left_end, right_end));
    for (place, (role, _)) in right.iter().enumerate().rev() {
        // The last inverted step lands on the start, of which nothing is asked.
        let landing = match place {
            0 => terms.concept_id(ConceptTerm::Top),
            _ => right[place - 1].1,
        };
        left.push((role.inverse(), landing));
    }
    left
}

fn path_of(terms: &mut Terms, links: &[Link]) -> PathId {
    let empty = terms.path_id(PathTerm::Empty);
    links.iter().rev().fold(empty, |rest, &(role, landing)| {
        terms.path_id(PathTerm::Step(role, landing, rest))
    })
}
