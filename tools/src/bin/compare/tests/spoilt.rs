//! Wrong answers, each the proved code's with one thing spoilt.

use super::{damage_difference, name_difference, state_difference, triple_difference};
use bikuvoa::layout::token::{BACKWARD, CLASS, FORWARD};
use bikuvoa::layout::{self, axiom, fact, Pair, Signature, CONCEPT, SCHEMA, STATE};
use bikuvoa::layout::{DECIDE_WORDS, MAX_ATTRIBUTES, MAX_CLASSES, MAX_OBJECTS};
use std::collections::BTreeSet;
use tools::answer::{Answerer, Out, Room};
use tools::call::{Call, Entry};
use tools::proved::Proved;

/// What the proved code left of a call, to be spoilt.
pub struct Answer<'a> {
    pub call: &'a Call,
    pub entry: Entry,
    pub objects: usize,
    /// The lent words as they were before.
    pub before: Vec<u16>,
    pub out: Out<'a>,
    pub number: u16,
}

/// The last word that is lent for a decision.
const LAST_WORD: usize = DECIDE_WORDS - 1;

pub struct Spoilt<F: Fn(&mut Answer)>(pub F);

impl<F: Fn(&mut Answer)> Answerer for Spoilt<F> {
    fn answer(&self, call: &Call, mut out: Out) -> u16 {
        let before = out.lent.to_vec();
        let number = Proved.answer(call, out.reborrow());
        let mut answer = Answer {
            call,
            entry: call.entry,
            objects: layout::objects(&call.state).unwrap_or(0).into(),
            before,
            out,
            number,
        };
        (self.0)(&mut answer);
        answer.number
    }
}

impl Answer<'_> {
    /// Whether decide has written a state.
    pub fn is_open(&self) -> bool {
        self.is_of(Entry::Decide) && self.out.outs[0] > 0
    }

    /// Whether it is that entry's, and no refusal.
    pub fn is_of(&self, entry: Entry) -> bool {
        self.entry == entry && self.number == 0
    }

    /// How many words the written state has.
    pub fn written(&self) -> usize {
        STATE.length(self.out.lent).expect("a written state")
    }

    /// Puts other facts into the state that decide has written, which it then counts.
    pub fn rewrite(&mut self, alter: impl Fn(&Call, &mut Vec<Pair>)) {
        let written = self.out.lent[..self.written()].to_vec();
        let mut facts = Vec::from_iter(STATE.entries(&written).expect("a written state"));
        alter(self.call, &mut facts);
        facts.sort_unstable();
        let other = layout::state(self.out.outs[0] as u16, &facts);
        self.out.lent.copy_from_slice(&self.before);
        self.out.lent[..other.len()].copy_from_slice(&other);
    }

    /// How many attributes the call's schema declares.
    fn attributes(&self) -> u16 {
        let signature = Signature::of(&self.call.schema);
        signature.expect("a schema").attributes
    }

    /// The record of the concept that a check takes, after the schema.
    fn concept(&self) -> &[u16] {
        let place = self.entry.places[1];
        self.call.record(place).expect("a concept's place")
    }

    /// How many tokens the concept has that a check takes.
    pub fn tokens(&self) -> usize {
        CONCEPT.entries(self.concept()).expect("a concept").count()
    }

    /// Those of these sorts.
    fn tokens_of(&self, sorts: &[u16]) -> Vec<Pair> {
        let tokens = CONCEPT.entries(self.concept()).expect("a concept");
        tokens.filter(|(sort, _)| sorts.contains(sort)).collect()
    }

    /// The pairs of the call's attribute, each a first and a second object.
    pub fn pairs(&self) -> Vec<(usize, usize)> {
        let facts = STATE.entries(&self.call.state).expect("a state");
        let kind = fact::ATTRIBUTE_KINDS + self.call.attribute;
        let pairs = facts.filter(|&pair| fact::kind(pair) == kind);
        let pairs = pairs.map(|pair| (fact::object(pair).into(), pair.1.into()));
        pairs.collect()
    }

    /// Which objects the call's concept selects.
    fn selected(&self) -> Vec<bool> {
        let select = Call {
            entry: Entry::Select,
            lent: MAX_OBJECTS.into(),
            ..self.call.clone()
        };
        let mut room = Room::of(&select);
        Proved.answer(&select, room.out());
        room.lent.iter().map(|&word| word == 1).collect()
    }
}

#[test]
fn held_to_all() {
    let found = triple_difference(&Spoilt(|answer| {
        if answer.is_open() {
            answer.out.lent.copy_from_slice(&answer.before);
            answer.out.outs[0] = 0;
        }
    }));
    assert_eq!(found.fault, "held and not open");
}

#[test]
fn open_with_one_stock_state() {
    triple_difference(&Spoilt(|answer| {
        if answer.is_of(Entry::Decide) {
            let stock = layout::state(1, &[]);
            answer.out.lent[..stock.len()].copy_from_slice(&stock);
            *answer.out.outs = [1, 0];
        }
    }));
}

#[test]
fn a_state_without_its_last_class_fact() {
    let found = triple_difference(&Spoilt(|answer| {
        if !answer.is_open() {
            return;
        }
        answer.rewrite(|_, facts| {
            let is_member = |&entry: &_| fact::is_class_fact(entry);
            if let Some(last) = facts.iter().rposition(is_member) {
                facts.remove(last);
            }
        });
    }));
    let is_other_state = found.fault.starts_with("the written state breaks axiom ")
        || found.fault.ends_with(" is not in the query");
    assert!(is_other_state, "{}", found.fault);
}

#[test]
fn another_size() {
    let found = triple_difference(&Spoilt(|answer| {
        answer.out.outs[0] += u64::from(answer.is_open());
    }));
    assert!(found.fault.starts_with("N is "), "{}", found.fault);
}

#[test]
fn another_object() {
    triple_difference(&Spoilt(|answer| {
        if answer.is_open() {
            answer.out.outs[1] = (answer.out.outs[1] + 1) % answer.out.outs[0];
        }
    }));
}

#[test]
fn a_word_after_the_state() {
    let found = triple_difference(&Spoilt(|answer| {
        if answer.is_open() {
            answer.out.lent[answer.written()] ^= 1;
        }
    }));
    assert!(found.fault.starts_with("lent word "), "{}", found.fault);
}

#[test]
fn the_last_lent_word_of_a_held_triple() {
    let found = triple_difference(&Spoilt(|answer| {
        if answer.is_of(Entry::Decide) && !answer.is_open() {
            answer.out.lent[LAST_WORD] ^= 1;
        }
    }));
    let fault = found.fault;
    assert!(
        fault.starts_with(&format!("lent word {LAST_WORD} ")),
        "{fault}"
    );
}

#[test]
fn yes_to_all() {
    triple_difference(&Spoilt(|answer| {
        if answer.is_of(Entry::Holds) {
            answer.out.outs[0] = 1;
        }
    }));
}

#[test]
fn no_to_all() {
    triple_difference(&Spoilt(|answer| {
        if answer.is_of(Entry::Holds) {
            answer.out.outs[0] = 0;
        }
    }));
}

#[test]
fn a_yes_that_is_not_1() {
    triple_difference(&Spoilt(|answer| {
        if answer.is_of(Entry::Holds) {
            answer.out.outs[0] *= 2;
        }
    }));
}

#[test]
fn a_second_out_value_of_holds() {
    triple_difference(&Spoilt(|answer| {
        if answer.is_of(Entry::Holds) {
            answer.out.outs[1] = 0;
        }
    }));
}

#[test]
fn an_invented_count() {
    state_difference(&Spoilt(|answer| {
        answer.out.outs[0] += u64::from(answer.entry == Entry::Select);
    }));
}

#[test]
fn lent_words_left_as_they_were() {
    state_difference(&Spoilt(|answer| {
        if answer.entry == Entry::Select {
            answer.out.lent.copy_from_slice(&answer.before);
        }
    }));
}

#[test]
fn a_word_after_those_of_the_objects() {
    state_difference(&Spoilt(|answer| {
        if answer.entry == Entry::Select {
            answer.out.lent[answer.objects..].fill(0);
        }
    }));
}

#[test]
fn legal_to_all() {
    state_difference(&Spoilt(|answer| {
        if answer.entry == Entry::Legal {
            answer.out.outs[0] = 0;
        }
    }));
}

#[test]
fn another_axiom() {
    state_difference(&Spoilt(|answer| {
        if answer.entry == Entry::Legal && answer.out.outs[0] > 1 {
            answer.out.outs[0] -= 1;
        }
    }));
}

#[test]
fn a_counterexample_where_there_is_none() {
    state_difference(&Spoilt(|answer| {
        if answer.entry == Entry::Counterexample && answer.out.outs[0] == 0 {
            answer.out.outs[0] = 1;
        }
    }));
}

#[test]
fn not_the_lowest_object() {
    state_difference(&Spoilt(|answer| {
        if answer.entry == Entry::Counterexample && answer.out.outs[0] > 0 {
            answer.out.outs[0] += 1;
        }
    }));
}

/// Either of the two entries must be found if it counts something else.
fn assert_miscount_found(count: fn(&Answer) -> usize) {
    for &entry in Entry::LINKS {
        let found = state_difference(&Spoilt(|answer| {
            if answer.is_of(entry) {
                answer.out.outs[0] = count(answer) as u64;
            }
        }));
        assert!(found.fault.starts_with("out values "), "{}", found.fault);
    }
}

#[test]
fn pairs_whatever_their_first_object() {
    assert_miscount_found(|answer| answer.pairs().len());
}

#[test]
fn selected_objects_for_links() {
    assert_miscount_found(|answer| answer.selected().iter().filter(|&&inside| inside).count());
}

#[test]
fn different_values_for_links() {
    assert_miscount_found(|answer| {
        let (selected, pairs) = (answer.selected(), answer.pairs());
        let links = pairs.iter().filter(|&&(first, _)| selected[first]);
        let seconds: BTreeSet<_> = links.map(|(_, second)| second).collect();
        seconds.len()
    });
}

#[test]
fn pairs_whose_second_object_is_selected() {
    assert_miscount_found(|answer| {
        let (selected, pairs) = (answer.selected(), answer.pairs());
        pairs
            .iter()
            .filter(|&&(_, second)| selected[second])
            .count()
    });
}

#[test]
fn the_attribute_refused_before_the_state() {
    for &entry in Entry::LINKS {
        let found = damage_difference(&Spoilt(|answer| {
            let is_of_state = answer.entry == entry && matches!(answer.number, 7..=10 | 15);
            if is_of_state && answer.call.attribute >= answer.attributes() {
                answer.number = 12;
            }
        }));
        assert!(found.fault.starts_with("returned 12 "), "{}", found.fault);
    }
}

/// Takes the lowest number that is not declared as that of an attribute without
/// pairs.
#[test]
fn one_attribute_more() {
    for &entry in Entry::LINKS {
        let wrong = Spoilt(|answer| {
            let is_refused = answer.entry == entry && answer.number == 12;
            if is_refused && answer.call.attribute == answer.attributes() {
                answer.number = 0;
                answer.out.outs[0] = 0;
            }
        });
        for found in [state_difference(&wrong), damage_difference(&wrong)] {
            assert_eq!(found.fault, "returned 0 and not 12");
        }
    }
}

#[test]
fn a_count_of_a_refused_call() {
    for &entry in Entry::LINKS {
        let wrong = Spoilt(|answer| {
            if answer.entry == entry && answer.number == 12 {
                answer.out.outs[0] = 0;
            }
        });
        for found in [state_difference(&wrong), damage_difference(&wrong)] {
            assert!(found.fault.starts_with("out values "), "{}", found.fault);
        }
    }
}

/// Each of the checks must be found if it tells something else.
fn assert_misnaming_found(spoil: fn(&mut Answer)) {
    for &entry in Entry::CHECKS {
        let found = name_difference(&Spoilt(|answer| {
            if answer.is_of(entry) {
                spoil(answer);
            }
        }));
        let fault = found.fault;
        let is_of_values = fault.starts_with("out values ") || fault.starts_with("sets ");
        assert!(is_of_values, "{fault}");
    }
}

/// The arguments of the tokens, as a set.
fn set(tokens: &[Pair]) -> u32 {
    tokens.iter().fold(0, |set, (_, number)| set | 1 << number)
}

#[test]
fn a_class_counted_as_often_as_it_is_named() {
    assert_misnaming_found(|answer| answer.out.outs[0] = answer.tokens_of(&[CLASS]).len() as u64);
}

#[test]
fn tokens_counted_for_classes() {
    assert_misnaming_found(|answer| answer.out.outs[0] = answer.tokens() as u64);
}

#[test]
fn attributes_counted_as_well() {
    assert_misnaming_found(|answer| {
        answer.out.outs[0] += u64::from(answer.out.sets[1].count_ones())
    });
}

#[test]
fn another_count_where_nothing_is_named() {
    assert_misnaming_found(|answer| {
        if answer.out.outs[0] == 0 {
            answer.out.outs[0] = u64::MAX;
        }
    });
}

#[test]
fn attributes_of_forward_steps_only() {
    assert_misnaming_found(|answer| answer.out.sets[1] = set(&answer.tokens_of(&[FORWARD])));
}

#[test]
fn attributes_of_backward_steps_only() {
    assert_misnaming_found(|answer| answer.out.sets[1] = set(&answer.tokens_of(&[BACKWARD])));
}

#[test]
fn sets_without_the_last() {
    assert_misnaming_found(|answer| answer.out.sets[0] &= !(1 << (MAX_CLASSES - 1)));
    assert_misnaming_found(|answer| answer.out.sets[1] &= !(1 << (MAX_ATTRIBUTES - 1)));
}

#[test]
fn sets_with_a_bit_above_the_last() {
    assert_misnaming_found(|answer| answer.out.sets[0] |= 1 << MAX_CLASSES);
    assert_misnaming_found(|answer| answer.out.sets[1] |= 1 << MAX_ATTRIBUTES);
}

#[test]
fn sets_exchanged() {
    assert_misnaming_found(|answer| answer.out.sets.swap(0, 1));
}

#[test]
fn classes_of_axioms_as_well() {
    assert_misnaming_found(|answer| {
        let axioms = SCHEMA.entries(&answer.call.schema).expect("a schema");
        let needs = axioms.filter(|&words| axiom::kind(words) == axiom::NECESSARY);
        let classes = needs.map(|words| 1 << axiom::subject(words));
        answer.out.sets[0] = classes.fold(answer.out.sets[0], |set, class: u32| set | class);
        answer.out.outs[0] = answer.out.sets[0].count_ones().into();
    });
}

#[test]
fn the_schema_refused_after_the_concept() {
    for &entry in Entry::CHECKS {
        let found = damage_difference(&Spoilt(|answer| {
            let is_of_schema = answer.entry == entry && matches!(answer.number, 1 | 2 | 14);
            if is_of_schema && CONCEPT.entries(answer.concept()).is_none() {
                answer.number = 3;
            }
        }));
        assert!(found.fault.starts_with("returned 3 "), "{}", found.fault);
    }
}

/// Each refusal of each check, and each value that it may not write.
#[test]
fn a_name_of_a_refused_check() {
    let spoils: [fn(&mut Answer); 3] = [
        |answer| answer.out.outs[0] = 0,
        |answer| answer.out.sets[0] = 0,
        |answer| answer.out.sets[1] = 0,
    ];
    for &entry in Entry::CHECKS {
        for number in (1..=6).chain([14]) {
            for spoil in spoils {
                let found = damage_difference(&Spoilt(|answer| {
                    if answer.entry == entry && answer.number == number {
                        spoil(answer);
                    }
                }));
                assert_eq!((found.call.entry, found.seen.number), (entry, number));
            }
        }
    }
}

#[test]
fn one_refusal_taken_for_another() {
    let found = damage_difference(&Spoilt(|answer| {
        if answer.number == 10 {
            answer.number = 9;
        }
    }));
    assert_eq!(found.fault, "returned 9 and not 10");
}

#[test]
fn an_out_value_of_a_refused_call() {
    damage_difference(&Spoilt(|answer| {
        if answer.number == 11 && answer.entry == Entry::Decide {
            answer.out.outs[1] = 0;
        }
    }));
}

#[test]
fn a_no_of_a_refused_call() {
    damage_difference(&Spoilt(|answer| {
        if answer.number == 6 && answer.entry == Entry::Holds {
            answer.out.outs[0] = 0;
        }
    }));
}

#[test]
fn holds_refused_for_want_of_lent_words() {
    let found = damage_difference(&Spoilt(|answer| {
        if answer.is_of(Entry::Holds) {
            answer.number = 11;
        }
    }));
    assert_eq!(found.fault, "returned 11 and not 0");
}

#[test]
fn a_lent_word_of_a_refused_call() {
    damage_difference(&Spoilt(|answer| {
        if answer.number == 6 && answer.entry == Entry::Select {
            answer.out.lent.fill(0);
        }
    }));
}
