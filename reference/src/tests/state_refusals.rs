//! Refusals 7 to 10 and 15 and the state's limits, without marks and with them.

use super::write::{axioms_record, fact, facts_record, loose_record, record, tokens_record};
use crate::entries::Counterexample;
use crate::entries::{counterexample, legal, links_by_first, links_by_second, select};
use crate::records::{schema, state};
use std::collections::BTreeSet;

/// Two classes, one attribute, two constants.
const SIZES: [u16; 3] = [2, 1, 2];

const EVERYTHING: [u16; 4] = [1, 0, 2, 0];

fn refusal_under(sizes: [u16; 3], words: &[u16]) -> u16 {
    loose_refusal(sizes, 0, words)
}

/// The refusal where the constants are loose that the word marks.
fn loose_refusal(sizes: [u16; 3], loose: u16, words: &[u16]) -> u16 {
    let schema = schema(&loose_record(sizes, loose, &[])).expect("an alphabet without axioms");
    state(words, &schema, &BTreeSet::new()).err().unwrap_or(0)
}

/// A query for everything that uses these marks.
fn asking(marks: &[usize]) -> Vec<u16> {
    let mut tokens = vec![(2, 0)];
    for &mark in marks {
        tokens.extend([(10, mark as u16), (4, 0)]);
    }
    tokens_record(&tokens)
}

/// The refusal of three objects with these facts beside those of the constants,
/// in the place of a counterexample for a query that uses these marks.
fn chosen_refusal(marks: &[usize], facts: &[(u16, u16)]) -> u16 {
    let facts = [&[fact(32, 0, 0), fact(33, 1, 0)], facts].concat();
    let schema = axioms_record(SIZES, &[]);
    let words = facts_record(3, &facts);
    let answer = counterexample(&schema, &asking(marks), &EVERYTHING, &words);
    answer.err().unwrap_or(0)
}

/// The refusal of three objects with these facts.
fn facts_refusal(facts: &[(u16, u16)]) -> u16 {
    refusal_under(SIZES, &facts_record(3, facts))
}

/// As many facts as a state may have, over all that can be declared, if these
/// marks are used.
fn full_facts(marks: &[usize]) -> Vec<(u16, u16)> {
    let mut facts = Vec::new();
    for class in 0..24 {
        facts.extend((0..480).map(|object| fact(class, object, 0)));
    }
    for attribute in 24..32 {
        facts.extend([fact(attribute, 0, 1), fact(attribute, 0, 2)]);
        facts.extend((0..480).map(|object| fact(attribute, object, 479)));
    }
    facts.extend((0..4).map(|constant| fact(32 + constant, constant, 0)));
    facts.extend(marks.iter().map(|mark| fact(36 + mark, 479, 0)));
    facts.extend((marks.len()..4).map(|far| fact(24, 1, far)));
    facts.sort_unstable();
    facts
}

#[test]
fn short_records() {
    let none = [0, 0, 0];
    assert_eq!(refusal_under(none, &[]), 7);
    assert_eq!(refusal_under(none, &[0]), 7);
    assert_eq!(refusal_under(none, &[0, 0]), 7);
    assert_eq!(refusal_under(none, &[0, 0, 0]), 0);
    assert_eq!(refusal_under(none, &[0, 0, 0, 0]), 7);
    assert_eq!(refusal_under(none, &[0, 0, 0, 0, 0]), 7);
    assert_eq!(refusal_under(none, &[1, 1, 0]), 7);
    assert_eq!(refusal_under(none, &[1, 1, 0, 0]), 7);
}

#[test]
fn object_counts() {
    let none = [0, 0, 0];
    assert_eq!(refusal_under(none, &[480, 0, 0]), 0);
    assert_eq!(refusal_under(none, &[481, 0, 0]), 7);
    assert_eq!(refusal_under(none, &[u16::MAX, 0, 0]), 7);
}

#[test]
fn fact_counts() {
    let sizes = [24, 8, 4];
    let mut facts = full_facts(&[]);
    assert_eq!(facts.len(), 15_384);
    let words = facts_record(480, &facts);
    assert_eq!(words.len(), 30_771);
    assert_eq!(refusal_under(sizes, &words), 0);
    let mut lent = [0; 480];
    let schema = axioms_record(sizes, &[]);
    assert_eq!(select(&schema, &EVERYTHING, &words, &mut lent), Ok(480));
    facts.insert(24 * 480, fact(24, 0, 0));
    let words = facts_record(480, &facts);
    assert_eq!(refusal_under(sizes, &words), 7);
}

/// The limit is the same however many of the facts are of marks.
#[test]
fn fact_counts_with_marks() {
    let schema = axioms_record([24, 8, 4], &[]);
    for used in 0..=4 {
        let marks: Vec<usize> = (0..used).collect();
        let query = asking(&marks);
        let answer = |facts: &[_]| {
            let words = facts_record(480, facts);
            counterexample(&schema, &query, &EVERYTHING, &words)
        };
        let mut facts = full_facts(&marks);
        assert_eq!(facts.len(), 15_384);
        assert_eq!(answer(&facts), Ok(Counterexample::No), "{used}");
        facts.insert(24 * 480, fact(24, 0, 0));
        assert_eq!(answer(&facts), Err(7), "{used}");
    }
}

#[test]
fn accepted_facts() {
    let facts = [
        fact(0, 2, 0),
        fact(1, 0, 0),
        fact(24, 0, 2),
        fact(24, 2, 0),
        fact(32, 2, 0),
        fact(33, 0, 0),
    ];
    assert_eq!(facts_refusal(&facts), 0);
}

#[test]
fn bad_facts() {
    let bad = [
        fact(2, 0, 0),
        fact(23, 0, 0),
        fact(25, 0, 0),
        fact(31, 0, 0),
        fact(34, 0, 0),
        fact(36, 0, 0),
        fact(39, 0, 0),
        fact(40, 0, 0),
        fact(127, 0, 0),
        fact(0, 3, 0),
        fact(0, 511, 0),
        fact(24, 3, 0),
        fact(24, 0, 3),
        fact(24, 0, 65_535),
        fact(32, 3, 0),
        fact(0, 0, 1),
        fact(33, 0, 1),
    ];
    for fact in bad {
        assert_eq!(facts_refusal(&[fact]), 8, "{fact:?}");
    }
    assert_eq!(refusal_under([1, 0, 0], &[0, 1, 1, 0, 0]), 8);
}

#[test]
fn order() {
    let named = [fact(32, 0, 0), fact(33, 1, 0)];
    let bad = [
        [fact(0, 1, 0), fact(0, 0, 0)],
        [fact(0, 1, 0), fact(0, 1, 0)],
        [fact(24, 0, 1), fact(24, 0, 0)],
        [fact(24, 0, 1), fact(24, 0, 1)],
        [fact(24, 0, 0), fact(1, 0, 0)],
    ];
    for [first, second] in bad {
        let facts = [first, second, named[0], named[1]];
        assert_eq!(facts_refusal(&facts), 9, "{facts:?}");
    }
    assert_eq!(facts_refusal(&[named[1], named[0]]), 9);
}

#[test]
fn constants() {
    assert_eq!(facts_refusal(&[]), 10);
    assert_eq!(facts_refusal(&[fact(32, 0, 0)]), 10);
    assert_eq!(facts_refusal(&[fact(33, 0, 0)]), 10);
    let several = [fact(32, 0, 0), fact(32, 1, 0), fact(33, 2, 0)];
    assert_eq!(facts_refusal(&several), 10);
    assert_eq!(facts_refusal(&[fact(32, 1, 0), fact(33, 1, 0)]), 10);
    assert_eq!(facts_refusal(&[fact(32, 1, 0), fact(33, 0, 0)]), 0);
    assert_eq!(refusal_under(SIZES, &[0, 0, 0]), 10);
}

/// The refusal of a state of five objects whose constants, of which those are
/// loose that the word marks, name these.
fn naming_refusal(loose: u16, objects: &[usize]) -> u16 {
    let facts = (32..).zip(objects);
    let facts: Vec<(u16, u16)> = facts.map(|(kind, &object)| fact(kind, object, 0)).collect();
    let constants = objects.len() as u16;
    loose_refusal([0, 0, constants], loose, &facts_record(5, &facts))
}

#[test]
fn two_constants_share_an_object_if_one_is_loose() {
    for loose in 0..16 {
        assert_eq!(naming_refusal(loose, &[3, 0, 4, 1]), 0, "{loose:b}");
        for one in 0..4 {
            for other in (0..4).filter(|&other| other != one) {
                let mut objects = [3, 0, 4, 1];
                objects[one] = objects[other];
                let expected = match loose >> one & 1 | loose >> other & 1 {
                    1 => 0,
                    _ => 10,
                };
                let refusal = naming_refusal(loose, &objects);
                assert_eq!(refusal, expected, "{loose:b}, {objects:?}");
            }
        }
    }
}

/// A loose constant does not make two others that share its object one.
#[test]
fn all_constants_share_an_object_if_one_at_most_is_not_loose() {
    for constants in 1..=4 {
        for loose in 0_u16..1 << constants {
            let others = constants - loose.count_ones() as usize;
            let expected = if others <= 1 { 0 } else { 10 };
            let refusal = naming_refusal(loose, &vec![2; constants]);
            assert_eq!(refusal, expected, "{constants}, {loose:b}");
        }
    }
}

/// One that is loose has exactly one object all the same.
#[test]
fn loose_constants_have_one_object_each() {
    let refusal = |facts: &[_]| loose_refusal(SIZES, 0b11, &facts_record(3, facts));
    assert_eq!(refusal(&[]), 10);
    for constant in [32, 33] {
        assert_eq!(refusal(&[fact(constant, 0, 0)]), 10);
    }
    let several = [fact(32, 0, 0), fact(32, 1, 0), fact(33, 0, 0)];
    assert_eq!(refusal(&several), 10);
    let several = [fact(32, 1, 0), fact(33, 0, 0), fact(33, 1, 0)];
    assert_eq!(refusal(&several), 10);
    assert_eq!(refusal(&[fact(32, 1, 0), fact(33, 1, 0)]), 0);
    assert_eq!(loose_refusal(SIZES, 0b11, &[0, 0, 0]), 10);
}

/// Every choice from the four marks.
fn choices() -> impl Iterator<Item = Vec<usize>> {
    (0..16).map(|word| (0..4).filter(|mark| word >> mark & 1 == 1).collect())
}

/// A mark may share its object with a constant and with another mark.
#[test]
fn a_used_mark_has_one_object() {
    for used in choices() {
        for object in 0..3 {
            let facts: Vec<(u16, u16)> = used.iter().map(|m| fact(36 + m, object, 0)).collect();
            assert_eq!(chosen_refusal(&used, &facts), 0, "{used:?}");
            for (place, &mark) in used.iter().enumerate() {
                let mut fewer = facts.clone();
                fewer.remove(place);
                assert_eq!(chosen_refusal(&used, &fewer), 10, "{used:?}, {mark}");
                let mut more = facts.clone();
                more.push(fact(36 + mark, (object + 1) % 3, 0));
                more.sort_unstable();
                assert_eq!(chosen_refusal(&used, &more), 10, "{used:?}, {mark}");
            }
        }
    }
}

#[test]
fn a_mark_that_is_not_used_has_no_object() {
    for used in choices() {
        for unused in (0..5).filter(|mark| !used.contains(mark)) {
            let mut facts: Vec<(u16, u16)> = used.iter().map(|m| fact(36 + m, 2, 0)).collect();
            facts.push(fact(36 + unused, 0, 0));
            facts.sort_unstable();
            assert_eq!(chosen_refusal(&used, &facts), 8, "{used:?}, {unused}");
        }
    }
}

#[test]
fn bad_choices() {
    for mark in 0..4 {
        for bad in [
            fact(36 + mark, 3, 0),
            fact(36 + mark, 511, 0),
            fact(36 + mark, 0, 1),
        ] {
            assert_eq!(chosen_refusal(&[mark], &[bad]), 8, "{bad:?}");
        }
    }
    // In a state without objects there is none to choose.
    let schema = axioms_record([0, 0, 0], &[]);
    let empty = |query: &[u16]| counterexample(&schema, query, &EVERYTHING, &[0, 0, 0]);
    assert_eq!(empty(&asking(&[])), Ok(Counterexample::No));
    assert_eq!(empty(&asking(&[2])), Err(10));
}

/// Select, legal and the counts of links use no mark.
#[test]
fn no_mark_is_used_without_a_query() {
    let schema = axioms_record([0, 1, 0], &[]);
    let refusals = |words: &[u16]| {
        [
            select(&schema, &EVERYTHING, words, &mut [0]).err(),
            legal(&schema, words).err(),
            links_by_first(&schema, &EVERYTHING, words, 0).err(),
            links_by_second(&schema, &EVERYTHING, words, 0).err(),
        ]
    };
    assert_eq!(refusals(&[1, 0, 0]), [None; 4]);
    for kind in 36..=40 {
        let words = facts_record(1, &[fact(kind, 0, 0)]);
        assert_eq!(refusals(&words), [Some(8); 4], "{kind}");
    }
}

/// 8 comes first, then 9, then 10, of marks as of the rest.
#[test]
fn choices_are_checked_in_order() {
    let unused_and_disordered = [fact(36, 1, 0), fact(36, 0, 0), fact(38, 0, 0)];
    assert_eq!(chosen_refusal(&[0], &unused_and_disordered), 8);
    assert_eq!(chosen_refusal(&[0], &[fact(37, 0, 0)]), 8);
    assert_eq!(chosen_refusal(&[0], &[fact(36, 1, 0), fact(36, 0, 0)]), 9);
    assert_eq!(chosen_refusal(&[0], &[fact(36, 0, 0), fact(36, 0, 0)]), 9);
    assert_eq!(
        chosen_refusal(&[0, 1], &[fact(37, 0, 0), fact(36, 0, 0)]),
        9
    );
    assert_eq!(chosen_refusal(&[0], &[fact(0, 0, 0)]), 9);
}

#[test]
fn layout_comes_before_facts() {
    let facts = [fact(36, 0, 0)];
    assert_eq!(refusal_under(SIZES, &record(&[3, 2, 0], &facts)), 7);
    assert_eq!(refusal_under(SIZES, &record(&[481, 1, 0], &facts)), 7);
}

#[test]
fn all_facts_come_before_order() {
    let facts = [fact(1, 0, 0), fact(0, 0, 0), fact(36, 0, 0)];
    assert_eq!(facts_refusal(&facts), 8);
    let facts = [fact(1, 0, 0), fact(1, 0, 0), fact(1, 0, 1)];
    assert_eq!(facts_refusal(&facts), 8);
}

#[test]
fn order_comes_before_constants() {
    assert_eq!(facts_refusal(&[fact(0, 1, 0), fact(0, 0, 0)]), 9);
    assert_eq!(facts_refusal(&[fact(32, 0, 0), fact(32, 0, 0)]), 9);
}

/// The refusal of three objects with these facts and that count of class facts.
fn counted_refusal(class_facts: u16, facts: &[(u16, u16)]) -> u16 {
    let words = record(&[3, facts.len() as u16, class_facts], facts);
    refusal_under(SIZES, &words)
}

/// No other count is right, however far above the limits of the other sizes.
#[test]
fn the_count_of_class_facts() {
    let members = [fact(0, 1, 0), fact(0, 2, 0), fact(1, 0, 0)];
    let others = [fact(24, 0, 2), fact(32, 2, 0), fact(33, 0, 0)];
    for right in 0..=members.len() {
        let facts = [&members[..right], &others].concat();
        for count in 0..=u16::MAX {
            let expected = if usize::from(count) == right { 0 } else { 15 };
            assert_eq!(counted_refusal(count, &facts), expected, "{count}");
        }
    }
}

/// A state may have none but class facts, and no facts at all.
#[test]
fn counts_of_class_facts_alone() {
    let refusal = |words: &[u16]| refusal_under([2, 0, 0], words);
    assert_eq!(refusal(&[0, 0, 0]), 0);
    assert_eq!(refusal(&[0, 0, 1]), 15);
    assert_eq!(refusal(&[0, 0, u16::MAX]), 15);
    let facts = [fact(0, 0, 0), fact(0, 1, 0), fact(1, 1, 0)];
    assert_eq!(refusal(&record(&[2, 3, 3], &facts)), 0);
    for count in [0, 1, 2, 4] {
        assert_eq!(refusal(&record(&[2, 3, count], &facts)), 15, "{count}");
    }
}

/// Each kind, beside the facts of all constants and marks.
#[test]
fn facts_of_classes_alone_are_counted() {
    let schema = axioms_record([24, 8, 4], &[]);
    let query = asking(&[0, 1, 2, 3]);
    let refusal = |class_facts: u16, facts: &[_]| {
        let words = record(&[4, facts.len() as u16, class_facts], facts);
        let answer = counterexample(&schema, &query, &EVERYTHING, &words);
        answer.err().unwrap_or(0)
    };
    let named: Vec<(u16, u16)> = (0..8).map(|n| fact(32 + n, n % 4, 0)).collect();
    for count in [1, 4, 8] {
        assert_eq!(refusal(count, &named), 15, "{count}");
    }
    assert_eq!(refusal(0, &named), 0);
    for kind in 0..32 {
        let facts = [&[fact(kind, 3, 0)], &named[..]].concat();
        let right = if kind < 24 { 1 } else { 0 };
        assert_eq!(refusal(right, &facts), 0, "{kind}");
        for count in [1 - right, 2, 5, 9] {
            assert_eq!(refusal(count, &facts), 15, "{kind}, {count}");
        }
    }
}

/// Of as many facts as there may be.
#[test]
fn the_largest_count_of_class_facts() {
    let facts = full_facts(&[]);
    for (count, expected) in [
        (11_519, 15),
        (11_520, 0),
        (11_521, 15),
        (15_384, 15),
        (15_385, 15),
        (u16::MAX, 15),
    ] {
        let words = record(&[480, 15_384, count], &facts);
        assert_eq!(refusal_under([24, 8, 4], &words), expected, "{count}");
    }
}

/// Every other refusal but 10 comes first, with any count.
#[test]
fn the_count_of_class_facts_comes_after_the_order_of_facts() {
    for count in [0, 1, 2, 3, 481, 15_385, u16::MAX] {
        let facts = [fact(0, 0, 0), fact(32, 0, 0), fact(33, 1, 0)];
        let sized = |sizes: [u16; 3]| refusal_under(SIZES, &record(&sizes, &facts));
        assert_eq!(sized([481, 3, count]), 7, "{count}");
        assert_eq!(sized([3, 2, count]), 7, "{count}");
        assert_eq!(sized([3, 4, count]), 7, "{count}");
        assert_eq!(sized([3, 15_385, count]), 7, "{count}");
        let bad = [facts[0], facts[1], fact(34, 1, 0)];
        assert_eq!(counted_refusal(count, &bad), 8, "{count}");
        let outside = [fact(0, 3, 0), facts[1], facts[2]];
        assert_eq!(counted_refusal(count, &outside), 8, "{count}");
        let descending = [facts[0], facts[2], facts[1]];
        assert_eq!(counted_refusal(count, &descending), 9, "{count}");
        let twice = [facts[0], facts[0], facts[1], facts[2]];
        assert_eq!(counted_refusal(count, &twice), 9, "{count}");
    }
}

#[test]
fn the_count_of_class_facts_comes_before_constants() {
    for faulty in [
        vec![fact(0, 0, 0)],
        vec![fact(0, 0, 0), fact(32, 0, 0)],
        vec![
            fact(0, 0, 0),
            fact(32, 0, 0),
            fact(32, 1, 0),
            fact(33, 2, 0),
        ],
        vec![fact(0, 0, 0), fact(32, 1, 0), fact(33, 1, 0)],
    ] {
        assert_eq!(counted_refusal(1, &faulty), 10, "{faulty:?}");
        for count in [0, 2, 4, u16::MAX] {
            assert_eq!(counted_refusal(count, &faulty), 15, "{faulty:?}, {count}");
        }
    }
}

#[test]
fn the_count_of_class_facts_comes_before_choices() {
    let schema = axioms_record([1, 0, 0], &[]);
    let refusal = |class_facts: u16, facts: &[_]| {
        let words = record(&[3, facts.len() as u16, class_facts], facts);
        let answer = counterexample(&schema, &asking(&[1]), &EVERYTHING, &words);
        answer.err().unwrap_or(0)
    };
    let chosen = [fact(0, 2, 0), fact(37, 0, 0)];
    let twice = [fact(0, 2, 0), fact(37, 0, 0), fact(37, 1, 0)];
    for (facts, expected) in [(&chosen[..], 0), (&chosen[..1], 10), (&twice, 10)] {
        assert_eq!(refusal(1, facts), expected, "{facts:?}");
        for count in [0, 2, 3] {
            assert_eq!(refusal(count, facts), 15, "{facts:?}, {count}");
        }
    }
    let unused = [fact(0, 2, 0), fact(36, 0, 0), fact(37, 0, 0)];
    assert_eq!(refusal(3, &unused), 8);
}
