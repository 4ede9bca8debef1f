//! Refusals 1, 14 and 2 and the schema's limits.

use super::write::{axioms_record, loose_record};
use crate::records::schema;

fn refusal(words: &[u16]) -> u16 {
    schema(words).err().unwrap_or(0)
}

fn axiom_refusal(axiom: (u16, u16)) -> u16 {
    refusal(&axioms_record([3, 2, 1], &[axiom]))
}

/// The refusal of a record that counts so many axioms and has these.
fn counted_refusal(count: u16, axioms: &[(u16, u16)]) -> u16 {
    let mut words = axioms_record([1, 0, 0], axioms);
    words[3] = count;
    refusal(&words)
}

#[test]
fn short_records() {
    assert_eq!(refusal(&[]), 1);
    assert_eq!(refusal(&[0]), 1);
    assert_eq!(refusal(&[0, 0, 0]), 1);
    assert_eq!(refusal(&[0, 0, 0, 0]), 1);
    assert_eq!(refusal(&[0, 0, 0, 0, 0]), 0);
}

/// Without the word of loose constants the length does not fit the axioms.
#[test]
fn records_of_four_size_words() {
    for axioms in 0..=96 {
        let mut words = axioms_record([24, 8, 4], &vec![(256, 0); axioms]);
        assert_eq!(refusal(&words), 0);
        words.remove(4);
        assert_eq!(refusal(&words), 1);
    }
}

#[test]
fn sizes() {
    let declaring = |sizes| refusal(&axioms_record(sizes, &[]));
    assert_eq!(declaring([24, 8, 4]), 0);
    assert_eq!(declaring([25, 8, 4]), 1);
    assert_eq!(declaring([24, 9, 4]), 1);
    assert_eq!(declaring([24, 8, 5]), 1);
    assert_eq!(declaring([u16::MAX, 8, 4]), 1);
}

#[test]
fn axiom_counts() {
    let axiom = (256, 0);
    assert_eq!(counted_refusal(96, &[axiom; 96]), 0);
    assert_eq!(counted_refusal(97, &[axiom; 97]), 1);
    assert_eq!(counted_refusal(2, &[axiom; 1]), 1);
    assert_eq!(counted_refusal(1, &[axiom; 2]), 1);
}

#[test]
fn a_word_less_or_more() {
    let mut words = axioms_record([1, 0, 0], &[(256, 0)]);
    assert_eq!(refusal(&words), 0);
    assert_eq!(refusal(&words[..words.len() - 1]), 1);
    words.push(0);
    assert_eq!(refusal(&words), 1);
}

/// The refusal of a record with so many constants, the marks and these axioms.
fn marked_refusal(constants: u16, loose: u16, axioms: &[(u16, u16)]) -> u16 {
    refusal(&loose_record([3, 2, constants], loose, axioms))
}

/// Each bit by itself, and beside all that may be set.
#[test]
fn marks_of_undeclared_constants() {
    for constants in 0..=4 {
        let all = (1 << constants) - 1;
        assert_eq!(marked_refusal(constants, all, &[]), 0, "{constants}");
        for bit in 0..16 {
            let expected = if bit < constants { 0 } else { 14 };
            for loose in [1 << bit, 1 << bit | all] {
                let refusal = marked_refusal(constants, loose, &[]);
                assert_eq!(refusal, expected, "{constants}, {loose:b}");
            }
        }
    }
    assert_eq!(marked_refusal(4, u16::MAX, &[]), 14);
}

#[test]
fn marks_stand_for_their_constants() {
    for loose in 0..16 {
        let schema = schema(&loose_record([0, 0, 4], loose, &[])).expect("a schema");
        let marked = (0..4).filter(|constant| loose >> constant & 1 == 1);
        assert!(schema.loose.into_iter().eq(marked), "{loose:b}");
    }
}

#[test]
fn sizes_and_length_come_before_marks() {
    for sizes in [[25, 2, 1], [3, 9, 1], [3, 2, 5]] {
        assert_eq!(refusal(&loose_record(sizes, u16::MAX, &[])), 1);
    }
    let words = loose_record([3, 2, 1], u16::MAX, &[(256, 0); 2]);
    assert_eq!(refusal(&words), 14);
    assert_eq!(refusal(&words[..words.len() - 1]), 1);
    let mut counted = words.clone();
    counted[3] = 97;
    assert_eq!(refusal(&counted), 1);
    assert_eq!(refusal(&[words, vec![0]].concat()), 1);
}

#[test]
fn marks_come_before_axioms() {
    for axiom in [(0, 0), (256 + 3, 0), (5 * 256 + 2, 0)] {
        assert_eq!(marked_refusal(4, 0b1_0000, &[axiom]), 14, "{axiom:?}");
        assert_eq!(marked_refusal(0, 1, &[axiom]), 14, "{axiom:?}");
        assert_eq!(marked_refusal(4, 0b1111, &[axiom]), 2, "{axiom:?}");
    }
}

#[test]
fn accepted_axioms() {
    let last = [
        (256 + 2, 2),
        (2 * 256 + 2, 256 + 2),
        (3 * 256 + 2, 1),
        (4 * 256 + 2, 1),
        (5 * 256 + 1, 2 * 256 + 2),
    ];
    for axiom in last {
        assert_eq!(axiom_refusal(axiom), 0, "{axiom:?}");
    }
}

#[test]
fn kinds() {
    assert_eq!(axiom_refusal((0, 0)), 2);
    assert_eq!(axiom_refusal((6 * 256, 0)), 2);
    assert_eq!(axiom_refusal((u16::MAX, 0)), 2);
}

#[test]
fn undeclared_subjects() {
    for kind in 1..=4 {
        assert_eq!(axiom_refusal((kind * 256 + 3, 0)), 2, "kind {kind}");
        assert_eq!(axiom_refusal((kind * 256 + 255, 0)), 2, "kind {kind}");
    }
    assert_eq!(axiom_refusal((5 * 256 + 2, 0)), 2);
}

#[test]
fn undeclared_right_words() {
    let bad = [
        (256, 3),
        (256, 256),
        (2 * 256, 3),
        (2 * 256, 2 * 256),
        (3 * 256, 2),
        (3 * 256, 256),
        (4 * 256, 2),
        (4 * 256, 256),
        (5 * 256, 3),
        (5 * 256, 3 * 256),
    ];
    for axiom in bad {
        assert_eq!(axiom_refusal(axiom), 2, "{axiom:?}");
    }
}

#[test]
fn a_later_axiom_is_checked_too() {
    let mut axioms = [(256, 0); 96];
    axioms[95] = (256, 1);
    assert_eq!(refusal(&axioms_record([1, 0, 0], &axioms)), 2);
}

#[test]
fn length_comes_before_axioms() {
    assert_eq!(counted_refusal(2, &[(0, 0)]), 1);
    assert_eq!(refusal(&axioms_record([1, 0, 5], &[(0, 0)])), 1);
}
