//! Selection by sets against the formulas of table 1, asked object by object,
//! and links against them, asked pair by pair.

use super::random::{self, Alphabet};
use crate::semantics::{links_by_first, links_by_second, selected};
use crate::syntax::{Concept, Direction, Path, State};
use prng::Prng;

const ALPHABET: Alphabet = Alphabet {
    classes: 2,
    attributes: 2,
    constants: 2,
    marks: 2,
};

fn in_concept(state: &State, concept: &Concept, object: usize) -> bool {
    match concept {
        Concept::Class(class) => state.classes[*class].contains(&object),
        Concept::Everything => true,
        Concept::Constant(constant) => state.constants[*constant] == object,
        Concept::Mark(mark) => state.marks[mark] == object,
        Concept::Both(left, right) => {
            in_concept(state, left, object) && in_concept(state, right, object)
        }
        Concept::Reached(path) => (0..state.objects).any(|end| leads(state, path, object, end)),
        Concept::Common(left, right) => (0..state.objects)
            .any(|end| leads(state, left, object, end) && leads(state, right, object, end)),
    }
}

fn leads(state: &State, path: &Path, start: usize, end: usize) -> bool {
    let Path::Then(before, step) = path else {
        return start == end;
    };
    let pairs = &state.attributes[step.role.attribute];
    let steps_to_end = |middle| match step.role.direction {
        Direction::Forward => pairs.contains(&(middle, end)),
        Direction::Backward => pairs.contains(&(end, middle)),
    };
    in_concept(state, &step.landing, end)
        && (0..state.objects)
            .any(|middle| steps_to_end(middle) && leads(state, before, start, middle))
}

fn all_pairs(objects: usize) -> impl Iterator<Item = (usize, usize)> {
    (0..objects * objects).map(move |pair| (pair / objects, pair % objects))
}

fn random_state(prng: &mut Prng) -> State {
    let objects = 2 + prng.below(4);
    State {
        objects,
        classes: (0..ALPHABET.classes)
            .map(|_| (0..objects).filter(|_| prng.chance(50)).collect())
            .collect(),
        attributes: (0..ALPHABET.attributes)
            .map(|_| all_pairs(objects).filter(|_| prng.chance(30)).collect())
            .collect(),
        constants: (0..ALPHABET.constants)
            .map(|_| prng.below(objects))
            .collect(),
        marks: (0..ALPHABET.marks)
            .map(|mark| (mark, prng.below(objects)))
            .collect(),
    }
}

#[test]
fn sets_and_formulas_agree() {
    let mut prng = Prng::new(31);
    let (mut inside, mut outside) = (0, 0);
    for _ in 0..3000 {
        let state = random_state(&mut prng);
        let concept = random::concept(&mut prng, ALPHABET, 4);
        for (object, is_in) in selected(&state, &concept).into_iter().enumerate() {
            assert_eq!(is_in, in_concept(&state, &concept, object), "{concept:?}");
            *(if is_in { &mut inside } else { &mut outside }) += 1;
        }
    }
    assert!(inside >= 1000, "{inside} inside");
    assert!(outside >= 1000, "{outside} outside");
}

#[test]
fn links_and_formulas_agree() {
    let mut prng = Prng::new(32);
    let (mut none, mut some) = (0, 0);
    for _ in 0..2000 {
        let state = random_state(&mut prng);
        let concept = random::concept(&mut prng, ALPHABET.unmarked(), 4);
        for (attribute, pairs) in state.attributes.iter().enumerate() {
            let is_link = |pair: &_| {
                let (first, _) = *pair;
                pairs.contains(pair) && in_concept(&state, &concept, first)
            };
            let links = all_pairs(state.objects).filter(is_link).count();
            assert_eq!(links_by_first(&state, &concept, attribute), links);
            assert_eq!(links_by_second(&state, &concept, attribute), links);
            *(if links == 0 { &mut none } else { &mut some }) += 1;
        }
    }
    assert!(none >= 500, "{none} without links");
    assert!(some >= 500, "{some} with links");
}
