//! Wrong answers about the count of class facts: facts of other kinds counted, and
//! counts refused at another time or not at all.

use super::marks::{assert_refusal_missed, judges};
use super::misread::Misread;
use super::spoilt::{Answer, Spoilt};
use super::{damage_difference, state_difference, triple_difference};
use bikuvoa::layout::{self, fact, Pair, CLASS_FACTS, DECIDE_WORDS, MAX_FACTS, STATE};
use tools::answer::{Answerer, Room};
use tools::call::{Call, Entry};
use tools::proved::Proved;

/// Which facts are counted, where others are than those of classes.
type Counted = fn(Pair) -> bool;

const NONE: Counted = |_| false;
const ALL: Counted = |_| true;
const PAIRS_TOO: Counted = |entry| fact::kind(entry) < fact::CONSTANT_KINDS;
const NAMES_TOO: Counted = |entry| {
    let names = fact::CONSTANT_KINDS..fact::MARK_KINDS;
    fact::is_class_fact(entry) || names.contains(&fact::kind(entry))
};
const CHOICES_TOO: Counted = |entry| {
    let choices = fact::MARK_KINDS..fact::FACT_KINDS;
    fact::is_class_fact(entry) || choices.contains(&fact::kind(entry))
};
const NOT_THE_FIRST_CLASS: Counted = |entry| fact::is_class_fact(entry) && fact::kind(entry) != 0;
const NOT_THE_LAST_CLASS: Counted =
    |entry| fact::is_class_fact(entry) && fact::kind(entry) != fact::ATTRIBUTE_KINDS - 1;

/// How many of the facts are counted of the state with which the words begin, if it
/// has them all.
fn count(words: &[u16], counted: Counted) -> Option<u16> {
    let state = words.get(..STATE.length(words)?)?;
    let facts = STATE.entries(state)?.filter(|&entry| counted(entry));
    Some(facts.count() as u16)
}

/// The state with the right count, if it has all its facts.
fn recounted(state: &[u16]) -> Vec<u16> {
    let mut words = state.to_vec();
    if let Some(class_facts) = count(state, fact::is_class_fact) {
        words[CLASS_FACTS] = class_facts;
    }
    words
}

impl Answer<'_> {
    /// What the call is refused as with another state, or 0.
    fn refusal_with(&self, state: Vec<u16>) -> u16 {
        let call = Call {
            state,
            ..self.call.clone()
        };
        Proved.answer(&call, Room::of(&call).out())
    }

    /// The count of class facts that the call's state has, if it is that of a call of
    /// the entry and false.
    fn miscount(&self, entry: Entry) -> Option<u16> {
        let state = &self.call.state;
        let is_false = self.entry == entry && recounted(state) != *state;
        layout::class_facts(state).filter(|_| is_false)
    }
}

#[test]
fn another_count_in_a_written_state() {
    let wrong = [
        NONE,
        ALL,
        PAIRS_TOO,
        NAMES_TOO,
        CHOICES_TOO,
        NOT_THE_FIRST_CLASS,
    ];
    for counted in wrong {
        let found = triple_difference(&Spoilt(|answer| {
            if answer.is_open() {
                answer.out.lent[CLASS_FACTS] =
                    count(answer.out.lent, counted).expect("a written state");
            }
        }));
        assert_eq!(found.fault, "the written state is refused as 15");
    }
}

#[test]
fn a_written_state_without_a_count_or_with_a_near_one() {
    let spoils: [fn(&mut Answer); 3] = [
        |answer| answer.out.lent[CLASS_FACTS] = answer.before[CLASS_FACTS],
        |answer| answer.out.lent[CLASS_FACTS] += 1,
        |answer| answer.out.lent[CLASS_FACTS] = answer.out.lent[CLASS_FACTS].saturating_sub(1),
    ];
    for spoil in spoils {
        let found = triple_difference(&Spoilt(|answer| {
            if answer.is_open() {
                spoil(answer);
            }
        }));
        assert_eq!(found.fault, "the written state is refused as 15");
    }
}

/// The state with a count that is right exactly if it was that of other facts.
fn count_otherwise(call: &mut Call, counted: Counted) {
    let right = count(&call.state, fact::is_class_fact).expect("a state");
    let wrong = count(&call.state, counted).expect("a state");
    let told = &mut call.state[CLASS_FACTS];
    *told = told.wrapping_sub(wrong).wrapping_add(right);
}

/// Each of the entries must be found if it counts other facts.
fn assert_miscount_found(entries: impl Iterator<Item = Entry>, counted: Counted) {
    for entry in entries {
        let found = state_difference(&Misread(|call| {
            if call.entry == entry {
                count_otherwise(call, counted);
            }
        }));
        assert_eq!(found.fault, "returned 15 and not 0");
        assert_eq!(found.call.entry, entry);
    }
}

#[test]
fn no_facts_counted_or_all() {
    assert_miscount_found(judges(), NONE);
    assert_miscount_found(judges(), ALL);
}

#[test]
fn facts_counted_that_are_not_of_classes() {
    assert_miscount_found(judges(), PAIRS_TOO);
    assert_miscount_found(judges(), NAMES_TOO);
    let with_marks = judges().filter(|entry| entry.takes_marks);
    assert_miscount_found(with_marks, CHOICES_TOO);
}

#[test]
fn classes_left_out_of_the_count() {
    assert_miscount_found(judges(), NOT_THE_FIRST_CLASS);
    assert_miscount_found(judges(), NOT_THE_LAST_CLASS);
}

#[test]
fn the_count_not_looked_at() {
    for entry in judges() {
        assert_refusal_missed(entry, 15, |call| call.state = recounted(&call.state));
    }
}

/// Some false counts, by the facts, the class facts and what is told.
#[test]
fn some_counts_not_looked_at() {
    let passed: [fn(u16, u16, u16) -> bool; 6] = [
        |_, _, told| told == 0,
        |facts, _, told| told == facts,
        |_, right, told| told < right,
        |_, right, told| told > right,
        |facts, _, told| told < facts,
        |facts, _, told| told > facts,
    ];
    for is_passed in passed {
        for entry in judges() {
            let found = damage_difference(&Spoilt(|answer| {
                let state = &answer.call.state;
                let facts = count(state, ALL).unwrap_or_default();
                let right = count(state, fact::is_class_fact).unwrap_or_default();
                let told = answer.miscount(entry).filter(|_| answer.number == 15);
                if told.is_some_and(|told| is_passed(facts, right, told)) {
                    answer.number = answer.refusal_with(recounted(state));
                }
            }));
            assert!(found.fault.ends_with(" and not 15"), "{}", found.fault);
        }
    }
}

/// Each entry that takes a state must be found if a false count is refused before what
/// comes as that number.
fn assert_found_if_before(number: u16) {
    for entry in judges() {
        let found = damage_difference(&Spoilt(|answer| {
            if answer.number == number && answer.miscount(entry).is_some() {
                answer.number = 15;
            }
        }));
        assert_eq!(found.fault, format!("returned 15 and not {number}"));
    }
}

#[test]
fn the_count_refused_before_the_facts_and_before_their_order() {
    assert_found_if_before(8);
    assert_found_if_before(9);
}

/// More class facts than facts, in a state of any length or with too many objects.
#[test]
fn the_count_refused_before_the_shape() {
    for entry in judges() {
        let found = damage_difference(&Spoilt(|answer| {
            let state = &answer.call.state;
            let facts = state.get(STATE.counter).copied();
            let is_tried = answer.entry == entry && answer.number == 7;
            if is_tried && layout::class_facts(state) > facts {
                answer.number = 15;
            }
        }));
        assert_eq!(found.fault, "returned 15 and not 7");
    }
}

/// As if the count had a limit: that of the facts, or how many of them there are.
#[test]
fn a_large_count_taken_for_a_bad_shape() {
    let limits: [fn(&[u16]) -> u16; 2] = [
        |_| MAX_FACTS as u16,
        |state| count(state, ALL).unwrap_or_default(),
    ];
    for limit in limits {
        for entry in judges() {
            let found = damage_difference(&Spoilt(|answer| {
                let limit = limit(&answer.call.state);
                let told = answer.miscount(entry).filter(|_| answer.number == 15);
                if told.is_some_and(|told| told > limit) {
                    answer.number = 7;
                }
            }));
            assert_eq!(found.fault, "returned 7 and not 15");
        }
    }
}

#[test]
fn the_count_refused_after_what_constants_and_marks_name() {
    for entry in judges() {
        let found = damage_difference(&Spoilt(|answer| {
            let is_tried = answer.entry == entry && answer.number == 15;
            if is_tried && answer.refusal_with(recounted(&answer.call.state)) == 10 {
                answer.number = 10;
            }
        }));
        assert_eq!(found.fault, "returned 10 and not 15");
    }
}

/// What is checked after the state: lent words and attributes.
#[test]
fn the_count_refused_last() {
    let last = [
        (Entry::Select, 11),
        (Entry::LinksByFirst, 12),
        (Entry::LinksBySecond, 12),
    ];
    for (entry, number) in last {
        let found = damage_difference(&Spoilt(|answer| {
            let is_tried = answer.entry == entry && answer.number == 15;
            if is_tried && answer.refusal_with(recounted(&answer.call.state)) == number {
                answer.number = number;
            }
        }));
        assert_eq!(found.fault, format!("returned {number} and not 15"));
    }
}

#[test]
fn a_value_of_a_call_refused_for_its_count() {
    for entry in judges() {
        let found = damage_difference(&Spoilt(|answer| {
            if answer.entry == entry && answer.number == 15 {
                answer.out.outs[0] = 0;
            }
        }));
        assert!(found.fault.starts_with("out values "), "{}", found.fault);
    }
    let found = damage_difference(&Spoilt(|answer| {
        if answer.entry == Entry::Select && answer.number == 15 {
            answer.out.lent.fill(0);
        }
    }));
    assert!(found.fault.starts_with("lent word 0 "), "{}", found.fault);
}

/// The state with a count put between its sizes and its facts, if it has facts and its
/// length then fits them.
fn with_count(state: &[u16]) -> Option<Vec<u16>> {
    let (sizes, facts) = state.split_at_checked(CLASS_FACTS)?;
    let state = [sizes, &[0], facts].concat();
    STATE.entries(&state)?.next()?;
    Some(recounted(&state))
}

/// A state and lent words as they were before the count.
#[test]
fn the_sizes_without_a_count() {
    for entry in judges() {
        let found = damage_difference(&Spoilt(|answer| {
            let is_tried = answer.entry == entry && answer.number == 7;
            let state = with_count(&answer.call.state).filter(|_| is_tried);
            if state.is_some_and(|state| answer.refusal_with(state) == 0) {
                answer.number = 0;
            }
        }));
        assert_eq!(found.fault, "returned 0 and not 7");
    }
    let found = damage_difference(&Spoilt(|answer| {
        let is_enough = answer.call.lent == DECIDE_WORDS - 1;
        if answer.entry == Entry::Decide && answer.number == 11 && is_enough {
            answer.number = 0;
        }
    }));
    assert_eq!(found.fault, "returned 0 and not 11");
}
