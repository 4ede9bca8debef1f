//! State records: refusals 7, 8, 9, 15 and 10, in this order, each looked for over
//! the whole record before the next.

use super::entries;
use crate::syntax::{Schema, State};
use std::collections::{BTreeMap, BTreeSet};

const OBJECTS: u16 = 480;
const FACTS: u16 = 15_384;

enum Fact {
    Member {
        class: usize,
        object: usize,
    },
    Pair {
        attribute: usize,
        first: usize,
        second: usize,
    },
    Named {
        constant: usize,
        object: usize,
    },
    Chosen {
        mark: usize,
        object: usize,
    },
}

/// Decodes a state record for a query that uses these marks, or gives the number
/// of its refusal.
pub fn state(words: &[u16], schema: &Schema, marks: &BTreeSet<usize>) -> Result<State, u16> {
    let &[objects, count, class_facts, ..] = words else {
        return Err(7);
    };
    if objects > OBJECTS || count > FACTS {
        return Err(7);
    }
    let pairs = entries(words, 3, count).ok_or(7u16)?;
    let objects = usize::from(objects);
    let facts = pairs
        .iter()
        .map(|&(left, right)| fact(schema, marks, objects, left, right))
        .collect::<Option<Vec<Fact>>>()
        .ok_or(8u16)?;
    if pairs.windows(2).any(|two| two[0] >= two[1]) {
        return Err(9);
    }
    let members = facts
        .iter()
        .filter(|fact| matches!(fact, Fact::Member { .. }));
    if members.count() != usize::from(class_facts) {
        return Err(15);
    }
    let constants = constants(&facts, schema).ok_or(10u16)?;
    let marks = choices(&facts, marks).ok_or(10u16)?;
    Ok(gather(schema, objects, &facts, constants, marks))
}

fn fact(
    schema: &Schema,
    marks: &BTreeSet<usize>,
    objects: usize,
    left: u16,
    right: u16,
) -> Option<Fact> {
    let (kind, object) = (usize::from(left / 512), usize::from(left % 512));
    let second = usize::from(right);
    if object >= objects {
        return None;
    }
    match kind {
        0..=23 => (kind < schema.classes && right == 0).then_some(Fact::Member {
            class: kind,
            object,
        }),
        24..=31 => (kind - 24 < schema.attributes && second < objects).then_some(Fact::Pair {
            attribute: kind - 24,
            first: object,
            second,
        }),
        32..=35 => (kind - 32 < schema.constants && right == 0).then_some(Fact::Named {
            constant: kind - 32,
            object,
        }),
        36..=39 => (marks.contains(&(kind - 36)) && right == 0).then_some(Fact::Chosen {
            mark: kind - 36,
            object,
        }),
        _ => None,
    }
}

/// The object of each constant, if each has exactly one and no two that are not
/// loose share one.
fn constants(facts: &[Fact], schema: &Schema) -> Option<Vec<usize>> {
    let mut named = vec![None; schema.constants];
    let mut taken = BTreeSet::new();
    for fact in facts {
        if let Fact::Named { constant, object } = *fact {
            let shared = !schema.loose.contains(&constant) && !taken.insert(object);
            if named[constant].replace(object).is_some() || shared {
                return None;
            }
        }
    }
    named.into_iter().collect()
}

/// The object of each of the marks, if each has exactly one. They may share it.
fn choices(facts: &[Fact], marks: &BTreeSet<usize>) -> Option<BTreeMap<usize, usize>> {
    let mut chosen = BTreeMap::new();
    for fact in facts {
        if let Fact::Chosen { mark, object } = *fact {
            if chosen.insert(mark, object).is_some() {
                return None;
            }
        }
    }
    (chosen.len() == marks.len()).then_some(chosen)
}

fn gather(
    schema: &Schema,
    objects: usize,
    facts: &[Fact],
    constants: Vec<usize>,
    marks: BTreeMap<usize, usize>,
) -> State {
    let mut state = State {
        objects,
        classes: vec![BTreeSet::new(); schema.classes],
        attributes: vec![BTreeSet::new(); schema.attributes],
        constants,
        marks,
    };
    for fact in facts {
        match *fact {
            Fact::Member { class, object } => {
                state.classes[class].insert(object);
            }
            Fact::Pair {
                attribute,
                first,
                second,
            } => {
                state.attributes[attribute].insert((first, second));
            }
            Fact::Named { .. } | Fact::Chosen { .. } => {}
        }
    }
    state
}
