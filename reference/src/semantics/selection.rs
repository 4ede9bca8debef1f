//! Concepts as sets of objects and paths as binary relations.

use crate::syntax::{Concept, Direction, Path, State, Step};

/// Membership by object number.
type Set = Vec<bool>;
/// For each object the set of objects that a path leads to from it.
type Relation = Vec<Set>;

/// The objects that the concept selects, by object number.
pub fn selected(state: &State, concept: &Concept) -> Vec<bool> {
    let objects = 0..state.objects;
    match concept {
        Concept::Class(class) => objects
            .map(|object| state.classes[*class].contains(&object))
            .collect(),
        Concept::Everything => vec![true; state.objects],
        Concept::Constant(constant) => objects
            .map(|object| state.constants[*constant] == object)
            .collect(),
        Concept::Mark(mark) => objects
            .map(|object| state.marks.get(mark) == Some(&object))
            .collect(),
        Concept::Both(left, right) => intersection(&selected(state, left), &selected(state, right)),
        Concept::Reached(path) => relation(state, path)
            .iter()
            .map(|ends| ends.contains(&true))
            .collect(),
        Concept::Common(left, right) => {
            let (left, right) = (relation(state, left), relation(state, right));
            objects
                .map(|object| intersection(&left[object], &right[object]).contains(&true))
                .collect()
        }
    }
}

fn intersection(left: &[bool], right: &[bool]) -> Set {
    left.iter().zip(right).map(|(&l, &r)| l && r).collect()
}

fn relation(state: &State, path: &Path) -> Relation {
    match path {
        Path::Empty => (0..state.objects)
            .map(|start| (0..state.objects).map(|end| start == end).collect())
            .collect(),
        Path::Then(before, step) => {
            let before = relation(state, before);
            let next = successors(state, step);
            before.iter().map(|ends| image(ends, &next)).collect()
        }
    }
}

/// For each object the objects that the step leads to, as a list so that a
/// sparse attribute costs no more than its pairs.
fn successors(state: &State, step: &Step) -> Vec<Vec<usize>> {
    let landing = selected(state, &step.landing);
    let mut next = vec![Vec::new(); state.objects];
    for &(first, second) in &state.attributes[step.role.attribute] {
        let (from, to) = match step.role.direction {
            Direction::Forward => (first, second),
            Direction::Backward => (second, first),
        };
        if landing[to] {
            next[from].push(to);
        }
    }
    next
}

fn image(starts: &[bool], next: &[Vec<usize>]) -> Set {
    let mut reached = vec![false; starts.len()];
    for (object, _) in starts.iter().enumerate().filter(|(_, &inside)| inside) {
        for &end in &next[object] {
            reached[end] = true;
        }
    }
    reached
}
