//! The schemas of the inputs.

use bikuvoa::layout::axiom::{necessary, relates, single, subclass, typing};
use bikuvoa::layout::{schema, Signature};
use bikuvoa::layout::{MAX_ATTRIBUTES, MAX_AXIOMS, MAX_CLASSES, MAX_CONSTANTS};

/// Schema X of document 01: classes Strap and Person, the attribute wears.
pub const STRAP: u16 = 0;
pub const PERSON: u16 = 1;
pub const WEARS: u16 = 0;

pub fn straps() -> Vec<u16> {
    let signature = Signature {
        classes: 2,
        attributes: 1,
        constants: 1,
        loose: 0,
    };
    let axioms = [single(PERSON, WEARS), relates(WEARS, PERSON, STRAP)];
    schema(signature, &axioms)
}

/// Each person wears something: no more is said.
pub fn need() -> Vec<u16> {
    let signature = Signature {
        classes: 2,
        attributes: 1,
        constants: 0,
        loose: 0,
    };
    schema(signature, &[necessary(PERSON, WEARS)])
}

/// The medical schema of the report, figure 6.
pub const MEDICAL: Signature = Signature {
    classes: 9,
    attributes: 5,
    constants: 0,
    loose: 0,
};
pub const PATIENT: u16 = 0;
pub const HUMAN: u16 = 1;
pub const DRUG: u16 = 2;
pub const DOCTOR: u16 = 3;
pub const DISEASE: u16 = 4;
pub const STRING: u16 = 5;
pub const TOPIC: u16 = 6;
pub const MALE: u16 = 7;
pub const FEMALE: u16 = 8;
pub const TAKES: u16 = 0;
pub const CONSULTS: u16 = 1;
pub const SUFFERS: u16 = 2;
pub const NAME: u16 = 3;
pub const SKILLED_IN: u16 = 4;

pub fn medical() -> Vec<u16> {
    let axioms = [
        subclass(PATIENT, HUMAN),
        typing(PATIENT, TAKES, DRUG),
        typing(PATIENT, CONSULTS, DOCTOR),
        typing(PATIENT, SUFFERS, DISEASE),
        necessary(PATIENT, SUFFERS),
        typing(HUMAN, NAME, STRING),
        necessary(HUMAN, NAME),
        single(HUMAN, NAME),
        typing(DOCTOR, SKILLED_IN, DISEASE),
        relates(SKILLED_IN, HUMAN, TOPIC),
    ];
    schema(MEDICAL, &axioms)
}

/// Two classes and one attribute, for states that are nearly all pairs.
pub fn dense() -> Vec<u16> {
    let signature = Signature {
        classes: 2,
        attributes: 1,
        constants: 0,
        loose: 0,
    };
    schema(signature, &[relates(0, 0, 1), necessary(0, 0)])
}

pub const LARGEST: Signature = Signature {
    classes: MAX_CLASSES,
    attributes: MAX_ATTRIBUTES,
    constants: MAX_CONSTANTS,
    loose: 0,
};
/// The class of the largest schema that nothing is forced into.
pub const FREE: u16 = MAX_CLASSES - 1;

/// All classes but the last in a chain, whose first class needs every attribute
/// with values in it again; the last class has single values of all attributes
/// but one, and typings fill the rest.
pub fn largest() -> Vec<u16> {
    let attributes = 0..MAX_ATTRIBUTES;
    let chain = 0..FREE - 1;
    let mut axioms: Vec<_> = chain.map(|class| subclass(class, class + 1)).collect();
    for attribute in attributes.clone() {
        axioms.extend([necessary(0, attribute), typing(0, attribute, 0)]);
        axioms.push(relates(attribute, 0, 1));
    }
    axioms.extend((1..MAX_ATTRIBUTES).map(|attribute| single(FREE, attribute)));
    let mut fill = (0..FREE).flat_map(|class| {
        let typing = move |attribute| typing(class, attribute, (class + 1) % FREE);
        attributes.clone().map(typing)
    });
    axioms.extend(fill.by_ref().take(MAX_AXIOMS - axioms.len()));
    schema(LARGEST, &axioms)
}
