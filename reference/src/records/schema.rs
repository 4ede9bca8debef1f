//! Schema records: refusals 1, 14 and 2, in this order.

use super::entries;
use crate::syntax::{Axiom, Schema};
use std::collections::BTreeSet;

const CLASSES: u16 = 24;
const ATTRIBUTES: u16 = 8;
const CONSTANTS: u16 = 4;
const AXIOMS: u16 = 96;

/// Decodes a schema record or gives the number of its refusal.
pub fn schema(words: &[u16]) -> Result<Schema, u16> {
    let &[classes, attributes, constants, count, loose, ..] = words else {
        return Err(1);
    };
    let fits =
        classes <= CLASSES && attributes <= ATTRIBUTES && constants <= CONSTANTS && count <= AXIOMS;
    if !fits {
        return Err(1);
    }
    let pairs = entries(words, 5, count).ok_or(1u16)?;
    let constants = usize::from(constants);
    let mut schema = Schema {
        classes: usize::from(classes),
        attributes: usize::from(attributes),
        constants,
        loose: set_bits(loose, constants).ok_or(14u16)?,
        axioms: Vec::new(),
    };
    for (left, right) in pairs {
        let axiom = axiom(&schema, left, right).ok_or(2u16)?;
        schema.axioms.push(axiom);
    }
    Ok(schema)
}

/// The constants whose bits are set, if all of them are declared.
fn set_bits(word: u16, constants: usize) -> Option<BTreeSet<usize>> {
    let bits = (0..16).filter(|bit| word >> bit & 1 == 1);
    bits.map(|bit| declared(bit, constants)).collect()
}

/// Kinds 1, 3 and 4 read the right word as one number, so anything in its high
/// byte names what cannot be declared.
fn axiom(schema: &Schema, left: u16, right: u16) -> Option<Axiom> {
    let subject = left % 256;
    let (high, low) = (right / 256, right % 256);
    let class = |number| declared(number, schema.classes);
    let attribute = |number| declared(number, schema.attributes);
    Some(match left / 256 {
        1 => Axiom::Includes {
            class: class(subject)?,
            superclass: class(right)?,
        },
        2 => Axiom::Types {
            class: class(subject)?,
            attribute: attribute(high)?,
            values: class(low)?,
        },
        3 => Axiom::Needs {
            class: class(subject)?,
            attribute: attribute(right)?,
        },
        4 => Axiom::Single {
            class: class(subject)?,
            attribute: attribute(right)?,
        },
        5 => Axiom::Relates {
            attribute: attribute(subject)?,
            domain: class(high)?,
            range: class(low)?,
        },
        _ => return None,
    })
}

fn declared(number: u16, count: usize) -> Option<usize> {
    Some(usize::from(number)).filter(|&number| number < count)
}
