//! Wrong answers about marks: places with one mark taken apart, different marks kept
//! apart, their facts misread, and refusals at another time or not at all.

use super::misread::{alter_tokens, Misread};
use super::spoilt::{Answer, Spoilt};
use super::{damage_difference, state_difference, triple_difference};
use crate::schemas::meets;
use bikuvoa::layout::token::{CONSTANT, EVERYTHING, MARK};
use bikuvoa::layout::{self, fact, Pair, CONCEPT, MAX_FACTS, MAX_MARKS, STATE};
use std::collections::BTreeSet;
use tools::call::{Call, Entry, Place};

/// Those that take a state.
pub fn judges() -> impl Iterator<Item = Entry> {
    let takes_state = |entry: &Entry| entry.takes(Place::State);
    Entry::ALL.iter().copied().filter(takes_state)
}

/// The tokens with everything for each mark.
fn unmarked(token: Pair) -> Pair {
    match token {
        (MARK, _) => EVERYTHING,
        token => token,
    }
}

/// Each place has an object of its own.
#[test]
fn marks_taken_for_everything() {
    let wrong = |call: &mut Call| alter_tokens(call, unmarked);
    triple_difference(&Misread(wrong));
    state_difference(&Misread(wrong));
}

#[test]
fn every_mark_taken_for_the_first() {
    triple_difference(&Misread(|call| {
        alter_tokens(call, |token| match token {
            (MARK, _) => (MARK, 0),
            token => token,
        });
    }));
}

#[test]
fn constants_taken_for_marks() {
    triple_difference(&Misread(|call| {
        alter_tokens(call, |token| match token {
            (CONSTANT, number) => (MARK, number),
            token => token,
        });
    }));
}

#[test]
fn different_marks_kept_apart() {
    let found = triple_difference(&Spoilt(|answer| {
        if answer.is_open() && meets(answer.out.lent) {
            answer.out.lent.copy_from_slice(&answer.before);
            answer.out.outs[0] = 0;
        }
    }));
    assert_eq!(found.fault, "held and not open");
}

/// Whether the fact is of a mark.
fn is_choice(entry: &Pair) -> bool {
    (fact::MARK_KINDS..fact::FACT_KINDS).contains(&fact::kind(*entry))
}

/// The marks that stand in the call's query, if its length fits its tokens.
fn used(call: &Call) -> BTreeSet<u16> {
    let tokens = CONCEPT.entries(&call.query).into_iter().flatten();
    let marks = tokens.filter(|&(sort, _)| sort == MARK);
    marks.map(|(_, mark)| mark).collect()
}

impl Answer<'_> {
    /// Whether some mark that the call's query uses has so many objects in its state.
    fn has_mark_of(&self, objects: fn(usize) -> bool) -> bool {
        let facts = STATE.entries(&self.call.state).into_iter().flatten();
        let kinds: Vec<u16> = facts.map(fact::kind).collect();
        used(self.call).iter().any(|mark| {
            let of_mark = kinds
                .iter()
                .filter(|&&kind| kind == fact::MARK_KINDS + mark);
            objects(of_mark.count())
        })
    }
}

/// The comparison of verdicts must find another written state, as such a fault.
fn assert_written_found(fault: &str, alter: fn(&Call, &mut Vec<Pair>)) {
    let found = triple_difference(&Spoilt(|answer| {
        if answer.is_open() {
            answer.rewrite(alter);
        }
    }));
    assert_eq!(found.fault, fault);
}

#[test]
fn a_state_without_objects_for_marks() {
    let fault = "the written state is refused as 10";
    assert_written_found(fault, |_, facts| facts.retain(|entry| !is_choice(entry)));
}

#[test]
fn a_state_without_an_object_for_the_last_mark() {
    assert_written_found("the written state is refused as 10", |_, facts| {
        facts.pop_if(|entry| is_choice(entry));
    });
}

#[test]
fn a_state_with_an_object_for_a_mark_that_is_not_used() {
    assert_written_found("the written state is refused as 8", |call, facts| {
        let used = used(call);
        let unused = (0..MAX_MARKS).find(|mark| !used.contains(mark));
        facts.extend(unused.map(|mark| fact::choice(mark, 0)));
    });
}

#[test]
fn a_state_with_another_object_for_a_mark() {
    let found = triple_difference(&Spoilt(|answer| {
        if answer.is_open() {
            let objects = answer.out.outs[0] as u16;
            answer.rewrite(|_, facts| {
                for entry in facts.iter_mut().filter(|entry| is_choice(entry)) {
                    let mark = fact::kind(*entry) - fact::MARK_KINDS;
                    *entry = fact::choice(mark, (fact::object(*entry) + 1) % objects);
                }
            });
        }
    }));
    let fault = found.fault;
    assert!(fault.ends_with(" is not in the query"), "{fault}");
}

/// The comparison of damaged records must find a misreading by an entry, where it then
/// does not see that refusal.
pub fn assert_refusal_missed(entry: Entry, number: u16, misread: fn(&mut Call)) {
    let found = damage_difference(&Misread(|call| {
        if call.entry == entry {
            misread(call);
        }
    }));
    let fault = found.fault;
    assert!(fault.ends_with(&format!(" and not {number}")), "{fault}");
    assert_eq!(found.call.entry, entry);
}

/// Puts everything for the marks in the call's views.
fn unmark_views(call: &mut Call) {
    let query = call.query.clone();
    alter_tokens(call, unmarked);
    call.query = query;
    let views = layout::views(&call.catalogue).unwrap_or_default();
    let views = views.into_iter().map(|view| match CONCEPT.entries(view) {
        Some(tokens) => CONCEPT.record(view, &tokens.map(unmarked).collect::<Vec<_>>()),
        None => view.to_vec(),
    });
    let views: Vec<Vec<u16>> = views.collect();
    if !views.is_empty() {
        call.catalogue = layout::catalogue(&views);
    }
}

#[test]
fn marks_accepted_in_views() {
    let takes_view = |entry: &&Entry| entry.takes(Place::View) || entry.takes(Place::Catalogue);
    for &entry in Entry::ALL.iter().filter(takes_view) {
        assert_refusal_missed(entry, 4, unmark_views);
    }
}

#[test]
fn marks_accepted_in_concepts_that_are_no_queries() {
    let concepts = Entry::ALL.iter().filter(|entry| entry.takes(Place::Query));
    for &entry in concepts.filter(|entry| !entry.takes_marks) {
        assert_refusal_missed(entry, 4, |call| alter_tokens(call, unmarked));
    }
}

#[test]
fn one_mark_more() {
    for &entry in Entry::ALL.iter().filter(|entry| entry.takes_marks) {
        assert_refusal_missed(entry, 4, |call| {
            alter_tokens(call, |token| match token {
                (MARK, MAX_MARKS) => EVERYTHING,
                token => token,
            });
        });
    }
}

/// Keeps some of the state's facts, if its length fits them.
fn keep_facts(call: &mut Call, kept: impl Fn(&Pair) -> bool) {
    if let Some(facts) = STATE.entries(&call.state) {
        let facts: Vec<Pair> = facts.filter(kept).collect();
        call.state = STATE.record(&call.state, &facts);
    }
}

#[test]
fn facts_of_marks_accepted_where_none_is_used() {
    for entry in judges().filter(|entry| !entry.takes_marks) {
        assert_refusal_missed(entry, 8, |call| keep_facts(call, |entry| !is_choice(entry)));
    }
    assert_refusal_missed(Entry::Counterexample, 8, |call| {
        let used = used(call);
        keep_facts(call, |&entry| {
            !is_choice(&entry) || used.contains(&(fact::kind(entry) - fact::MARK_KINDS))
        });
    });
}

#[test]
fn one_kind_of_facts_more() {
    for entry in judges() {
        assert_refusal_missed(entry, 8, |call| {
            keep_facts(call, |&entry| fact::kind(entry) != fact::FACT_KINDS);
        });
    }
}

#[test]
fn right_words_of_marks_not_looked_at() {
    assert_refusal_missed(Entry::Counterexample, 8, |call| {
        if let Some(facts) = STATE.entries(&call.state) {
            let facts = facts.map(|entry| match is_choice(&entry) {
                true => (entry.0, 0),
                false => entry,
            });
            call.state = STATE.record(&call.state, &facts.collect::<Vec<_>>());
        }
    });
}

#[test]
fn used_marks_without_an_object_or_with_two() {
    let wrong: [fn(usize) -> bool; 2] = [|objects| objects == 0, |objects| objects == 2];
    for objects in wrong {
        let found = damage_difference(&Spoilt(|answer| {
            if answer.number == 10 && answer.has_mark_of(objects) {
                answer.number = 0;
            }
        }));
        assert_eq!(found.fault, "returned 0 and not 10");
    }
}

/// An unused mark's fact is refused before the order of facts, and a missing one after.
#[test]
fn marks_refused_at_another_time() {
    let found = damage_difference(&Spoilt(|answer| {
        let facts = STATE.entries(&answer.call.state).into_iter().flatten();
        let facts: Vec<Pair> = facts.collect();
        if answer.number == 8 && !facts.is_sorted() && facts.iter().any(is_choice) {
            answer.number = 9;
        }
    }));
    assert_eq!(found.fault, "returned 9 and not 8");
    let found = damage_difference(&Spoilt(|answer| {
        let is_tried = answer.entry == Entry::Counterexample && answer.number == 9;
        if is_tried && answer.has_mark_of(|objects| objects == 0) {
            answer.number = 10;
        }
    }));
    assert_eq!(found.fault, "returned 10 and not 9");
}

/// As many facts and lent words as were enough without marks.
#[test]
fn the_limits_without_marks() {
    const FACTS: usize = MAX_FACTS - MAX_MARKS as usize;
    for entry in judges() {
        let found = damage_difference(&Spoilt(|answer| {
            let facts = STATE.entries(&answer.call.state);
            let is_more = facts.is_some_and(|facts| facts.count() > FACTS);
            if answer.entry == entry && is_more && answer.number > 7 {
                answer.number = 7;
            }
        }));
        assert!(found.fault.starts_with("returned 7 "), "{}", found.fault);
    }
    let found = damage_difference(&Spoilt(|answer| {
        let is_enough = answer.call.lent >= STATE.length_for(FACTS);
        if answer.entry == Entry::Decide && answer.number == 11 && is_enough {
            answer.number = 0;
        }
    }));
    assert_eq!(found.fault, "returned 0 and not 11");
}
