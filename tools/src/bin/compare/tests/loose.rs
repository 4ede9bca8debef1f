//! Wrong answers about loose constants: the word that has them misread, and refused
//! at another time or not at all.

use super::misread::Misread;
use super::spoilt::{Answer, Spoilt};
use super::{catalogue_difference, damage_difference, state_difference, triple_difference};
use crate::schemas::shares;
use bikuvoa::layout::{self, fact, Signature, MAX_CONSTANTS, SCHEMA, STATE};
use reference::records;
use tools::call::{Call, Place};

/// What a call's schema declares is read as something else.
fn misread(alter: fn(Signature) -> Signature) -> Misread<impl Fn(&mut Call)> {
    Misread(move |call| call.schema = redeclared(&call.schema, alter))
}

/// The schema with other declarations, if its length fits its axioms.
fn redeclared(schema: &[u16], alter: fn(Signature) -> Signature) -> Vec<u16> {
    match (Signature::of(schema), SCHEMA.entries(schema)) {
        (Some(declared), Some(axioms)) => layout::schema(alter(declared), &Vec::from_iter(axioms)),
        _ => schema.to_vec(),
    }
}

/// States in which constants share an object are then refused.
#[test]
fn no_loose_constants() {
    let wrong = misread(|declared| Signature {
        loose: 0,
        ..declared
    });
    triple_difference(&wrong);
    state_difference(&wrong);
    catalogue_difference(&wrong);
}

/// With states only refused ones tell.
#[test]
fn every_constant_loose() {
    let wrong = misread(|declared| Signature {
        loose: declared.loose | ((1 << declared.constants) - 1),
        ..declared
    });
    triple_difference(&wrong);
    catalogue_difference(&wrong);
    let found = damage_difference(&Misread(|call| {
        if call.entry.takes(Place::State) {
            (wrong.0)(call);
        }
    }));
    assert!(found.fault.ends_with(" and not 10"), "{}", found.fault);
}

#[test]
fn loose_from_the_last_constant_to_the_first() {
    let wrong = misread(|declared| {
        let bits = (0..declared.constants).map(|constant| declared.is_loose(constant));
        let loose = bits.fold(0, |word, bit| word << 1 | u16::from(bit));
        Signature { loose, ..declared }
    });
    triple_difference(&wrong);
    state_difference(&wrong);
    catalogue_difference(&wrong);
}

impl Answer<'_> {
    /// What the call's schema is refused as with other declarations, or 0.
    fn schema_refusal(&self, alter: fn(Signature) -> Signature) -> u16 {
        let schema = records::schema(&redeclared(&self.call.schema, alter));
        schema.err().unwrap_or(0)
    }

    /// Whether some loose constant has so many objects in the call's state.
    fn has_loose_of(&self, objects: fn(usize) -> bool) -> bool {
        let declared = Signature::of(&self.call.schema).expect("a schema");
        let facts = STATE.entries(&self.call.state).expect("a state");
        let kinds: Vec<u16> = facts.map(fact::kind).collect();
        let mut loose = (0..declared.constants).filter(|&constant| declared.is_loose(constant));
        loose.any(|constant| {
            let names = kinds
                .iter()
                .filter(|&&kind| kind == fact::CONSTANT_KINDS + constant);
            objects(names.count())
        })
    }
}

#[test]
fn loose_constants_without_an_object_or_with_two() {
    let wrong: [fn(usize) -> bool; 2] = [|objects| objects == 0, |objects| objects == 2];
    for objects in wrong {
        let found = damage_difference(&Spoilt(|answer| {
            if answer.number == 10 && answer.has_loose_of(objects) {
                answer.number = 0;
            }
        }));
        assert_eq!(found.fault, "returned 0 and not 10");
    }
}

/// Two that are not loose name one object beside other faults or none.
#[test]
fn constants_that_share_an_object_always_accepted() {
    let found = damage_difference(&Spoilt(|answer| {
        if answer.number == 10 && shares(&answer.call.state) {
            answer.number = 0;
        }
    }));
    assert_eq!(found.fault, "returned 0 and not 10");
}

#[test]
fn loose_refused_after_axioms() {
    let found = damage_difference(&Spoilt(|answer| {
        let without = answer.schema_refusal(|declared| Signature {
            loose: 0,
            ..declared
        });
        if answer.number == 14 && without == 2 {
            answer.number = 2;
        }
    }));
    assert_eq!(found.fault, "returned 2 and not 14");
}

#[test]
fn loose_refused_before_the_shape() {
    let found = damage_difference(&Spoilt(|answer| {
        let declared = Signature::of(&answer.call.schema).unwrap_or_default();
        let undeclared = declared.loose.checked_shr(declared.constants.into());
        if answer.number == 1 && undeclared.is_some_and(|bits| bits > 0) {
            answer.number = 14;
        }
    }));
    assert_eq!(found.fault, "returned 14 and not 1");
}

/// Bits of constants that cannot be declared, taken as harmless.
#[test]
fn the_highest_bits_accepted() {
    let found = damage_difference(&Spoilt(|answer| {
        if answer.number == 14 {
            answer.number = answer.schema_refusal(|declared| Signature {
                loose: declared.loose & ((1 << MAX_CONSTANTS) - 1),
                ..declared
            });
        }
    }));
    assert!(found.fault.ends_with(" and not 14"), "{}", found.fault);
}

/// Bits of constants that could be declared and are not, taken as harmless.
#[test]
fn the_lowest_bits_accepted() {
    let found = damage_difference(&Spoilt(|answer| {
        if answer.number == 14 {
            answer.number = answer.schema_refusal(|declared| Signature {
                constants: MAX_CONSTANTS,
                ..declared
            });
        }
    }));
    assert!(found.fault.ends_with(" and not 14"), "{}", found.fault);
}
