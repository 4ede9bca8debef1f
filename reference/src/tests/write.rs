//! Records written from decoded forms, and from raw pairs of words.

use crate::syntax::{Axiom, Concept, Direction, Path, Schema, State};

/// Size words, then all left words, then all right words.
pub fn record(sizes: &[u16], pairs: &[(u16, u16)]) -> Vec<u16> {
    let mut words = sizes.to_vec();
    words.extend(pairs.iter().map(|&(left, _)| left));
    words.extend(pairs.iter().map(|&(_, right)| right));
    words
}

pub fn schema(schema: &Schema) -> Vec<u16> {
    let axioms: Vec<(u16, u16)> = schema.axioms.iter().map(axiom).collect();
    let declared = [schema.classes, schema.attributes, schema.constants];
    let loose = schema.loose.iter().map(|constant| 1 << constant).sum();
    loose_record(declared.map(word), loose, &axioms)
}

/// A schema record that declares so many classes, attributes and constants, none
/// of them loose, from its axioms, which it counts.
pub fn axioms_record(declared: [u16; 3], axioms: &[(u16, u16)]) -> Vec<u16> {
    loose_record(declared, 0, axioms)
}

/// The same with the constants loose that the word marks.
pub fn loose_record(declared: [u16; 3], loose: u16, axioms: &[(u16, u16)]) -> Vec<u16> {
    let [classes, attributes, constants] = declared;
    let sizes = [classes, attributes, constants, word(axioms.len()), loose];
    record(&sizes, axioms)
}

fn axiom(axiom: &Axiom) -> (u16, u16) {
    let (kind, subject, high, low) = match *axiom {
        Axiom::Includes { class, superclass } => (1, class, 0, superclass),
        Axiom::Types {
            class,
            attribute,
            values,
        } => (2, class, attribute, values),
        Axiom::Needs { class, attribute } => (3, class, 0, attribute),
        Axiom::Single { class, attribute } => (4, class, 0, attribute),
        Axiom::Relates {
            attribute,
            domain,
            range,
        } => (5, attribute, domain, range),
    };
    (word(kind * 256 + subject), word(high * 256 + low))
}

/// A concept record that counts its own steps.
pub fn concept(concept: &Concept) -> Vec<u16> {
    let mut tokens = Vec::new();
    put_concept(concept, &mut tokens);
    tokens_record(&tokens)
}

/// A concept record from its tokens, with the true count of steps.
pub fn tokens_record(tokens: &[(u16, u16)]) -> Vec<u16> {
    let steps = tokens.iter().filter(|token| matches!(token.0, 6 | 7));
    record(&[word(tokens.len()), word(steps.count())], tokens)
}

/// A catalogue record from the words of its views.
pub fn catalogue_record<V: AsRef<[u16]>>(views: &[V]) -> Vec<u16> {
    let mut words = vec![word(views.len())];
    words.extend(views.iter().map(|view| word(view.as_ref().len())));
    for view in views {
        words.extend(view.as_ref());
    }
    words
}

fn put_concept(concept: &Concept, tokens: &mut Vec<(u16, u16)>) {
    match concept {
        Concept::Class(class) => tokens.push((1, word(*class))),
        Concept::Everything => tokens.push((2, 0)),
        Concept::Constant(constant) => tokens.push((3, word(*constant))),
        Concept::Mark(mark) => tokens.push((10, word(*mark))),
        Concept::Both(left, right) => {
            put_concept(left, tokens);
            put_concept(right, tokens);
            tokens.push((4, 0));
        }
        Concept::Reached(path) => {
            put_path(path, tokens);
            tokens.push((8, 0));
        }
        Concept::Common(left, right) => {
            put_path(left, tokens);
            put_path(right, tokens);
            tokens.push((9, 0));
        }
    }
}

fn put_path(path: &Path, tokens: &mut Vec<(u16, u16)>) {
    match path {
        Path::Empty => tokens.push((5, 0)),
        Path::Then(before, step) => {
            put_path(before, tokens);
            put_concept(&step.landing, tokens);
            let sort = match step.role.direction {
                Direction::Forward => 6,
                Direction::Backward => 7,
            };
            tokens.push((sort, word(step.role.attribute)));
        }
    }
}

pub fn state(state: &State) -> Vec<u16> {
    let mut pairs = Vec::new();
    for (class, objects) in state.classes.iter().enumerate() {
        pairs.extend(objects.iter().map(|&object| fact(class, object, 0)));
    }
    for (attribute, related) in state.attributes.iter().enumerate() {
        let facts = related
            .iter()
            .map(|&(first, second)| fact(24 + attribute, first, second));
        pairs.extend(facts);
    }
    let constants = state.constants.iter().enumerate();
    pairs.extend(constants.map(|(constant, &object)| fact(32 + constant, object, 0)));
    let marks = state.marks.iter();
    pairs.extend(marks.map(|(mark, &object)| fact(36 + mark, object, 0)));
    facts_record(word(state.objects), &pairs)
}

/// A state record from its facts, which it counts: all, and those of classes.
pub fn facts_record(objects: u16, facts: &[(u16, u16)]) -> Vec<u16> {
    let class_facts = facts.iter().filter(|fact| fact.0 / 512 < 24);
    let sizes = [objects, word(facts.len()), word(class_facts.count())];
    record(&sizes, facts)
}

/// The two words of a state's fact.
pub fn fact(kind: usize, object: usize, right: usize) -> (u16, u16) {
    (word(kind * 512 + object), word(right))
}

fn word(number: usize) -> u16 {
    u16::try_from(number).expect("test records fit in words")
}
