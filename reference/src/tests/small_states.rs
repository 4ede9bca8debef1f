//! The twelve small states (a) to (l), over straps and their wearers.

use super::write::{axioms_record, fact, facts_record, tokens_record};
use crate::entries::{legal, select, Legality};

const STRAP: u16 = 0;
const PERSON: u16 = 1;
const UNTOUCHED: u16 = 7;

/// Person has at most one wears; wears relates Person to Strap.
const AXIOMS: [(u16, u16); 2] = [(4 * 256 + PERSON, 0), (5 * 256, PERSON * 256 + STRAP)];

fn schema() -> Vec<u16> {
    axioms_record([2, 1, 1], &AXIOMS)
}

fn state() -> Vec<u16> {
    let facts = [
        fact(0, 2, 0),
        fact(1, 0, 0),
        fact(1, 1, 0),
        fact(24, 0, 2),
        fact(24, 1, 2),
        fact(32, 0, 0),
    ];
    facts_record(3, &facts)
}

/// A selection's letter, its tokens and the marks of the three objects.
type Row = (&'static str, &'static [(u16, u16)], [u16; 3]);

#[test]
fn selections() {
    let rows: [Row; 9] = [
        ("a", &[(2, 0)], [1, 1, 1]),
        ("b", &[(3, 0)], [1, 0, 0]),
        ("c", &[(5, 0), (1, STRAP), (6, 0), (8, 0)], [1, 1, 0]),
        ("d", &[(5, 0), (2, 0), (7, 0), (8, 0)], [0, 0, 1]),
        (
            "e",
            &[(5, 0), (2, 0), (6, 0), (3, 0), (7, 0), (8, 0)],
            [1, 1, 0],
        ),
        (
            "f",
            &[(5, 0), (2, 0), (6, 0), (3, 0), (7, 0), (5, 0), (9, 0)],
            [1, 0, 0],
        ),
        ("g", &[(5, 0), (8, 0)], [1, 1, 1]),
        ("h", &[(1, PERSON), (1, STRAP), (4, 0)], [0, 0, 0]),
        (
            "i",
            &[(5, 0), (2, 0), (6, 0), (5, 0), (1, STRAP), (6, 0), (9, 0)],
            [1, 1, 0],
        ),
    ];
    for (name, tokens, marks) in rows {
        let mut lent = [UNTOUCHED; 5];
        let count = select(&schema(), &tokens_record(tokens), &state(), &mut lent);
        assert_eq!(count, Ok(marks.iter().sum()), "{name}");
        assert_eq!(lent[..3], marks, "{name}");
        assert_eq!(lent[3..], [UNTOUCHED; 2], "{name}");
    }
}

#[test]
fn j_is_legal() {
    assert_eq!(legal(&schema(), &state()), Ok(Legality::Legal));
}

#[test]
fn k_breaks_the_need() {
    let axioms = [AXIOMS[0], AXIOMS[1], (3 * 256 + STRAP, 0)];
    let schema = axioms_record([2, 1, 1], &axioms);
    assert_eq!(legal(&schema, &state()), Ok(Legality::Broken(2)));
}

#[test]
fn l_is_legal_without_objects() {
    for declared in [[0, 0, 0], [2, 1, 0]] {
        let schema = axioms_record(declared, &[]);
        assert_eq!(legal(&schema, &[0, 0, 0]), Ok(Legality::Legal));
    }
}

#[test]
fn the_first_of_several_broken_axioms_is_told() {
    let needs = (3 * 256 + STRAP, 0);
    let schema = axioms_record([2, 1, 1], &[AXIOMS[0], needs, AXIOMS[1], needs]);
    assert_eq!(legal(&schema, &state()), Ok(Legality::Broken(1)));
}

#[test]
fn each_kind_of_axiom_is_heeded() {
    let facts = [fact(0, 0, 0), fact(24, 0, 0), fact(24, 0, 1)];
    let state = facts_record(2, &facts);
    let broken = [
        (256, 1),
        (2 * 256, 1),
        (3 * 256, 1),
        (4 * 256, 0),
        (5 * 256, 0),
        (5 * 256, 256),
    ];
    for axiom in broken {
        let schema = axioms_record([2, 2, 0], &[axiom]);
        assert_eq!(legal(&schema, &state), Ok(Legality::Broken(0)), "{axiom:?}");
    }
    let kept = [(256, 0), (3 * 256, 0), (4 * 256, 1), (5 * 256 + 1, 256)];
    let schema = axioms_record([2, 2, 0], &kept);
    assert_eq!(legal(&schema, &state), Ok(Legality::Legal));
}
