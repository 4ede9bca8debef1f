//! What is drawn is what it is said to be.

use super::catalogue::Catalogue;
use super::damage::damage;
use super::repair::{model, Values};
use super::triple::{Marks, Triple};
use super::{attribute, state, wide};
use crate::call::{Entry, Place};
use crate::prng::Prng;
use bikuvoa::layout::{self, token, Pair, Signature, CLASS_FACTS};
use reference::entries::{catalogue, counterexample, holds, legal, links_by_first};
use reference::entries::{check_concept, select, CATALOGUE_WORDS};
use reference::marks::used;
use reference::records;
use reference::semantics::{first_broken, selected};
use std::collections::BTreeMap;

const DRAWS: usize = 2_000;

fn assert_accepted(triple: &Triple) {
    let call = triple.verdict_call(Entry::Holds);
    let verdict = holds(&call.schema, &call.query, &call.view);
    assert!(verdict.is_ok(), "{verdict:?} of {triple:?}");
}

#[test]
fn triples_are_accepted() {
    let mut prng = Prng::new(31);
    for marks in [Marks::Without, Marks::With] {
        for _ in 0..DRAWS {
            assert_accepted(&Triple::random(&mut prng, marks));
            assert_accepted(&Triple::of_all_names(&mut prng, marks));
            let followed = Triple::followed(&mut prng, marks);
            assert_accepted(&followed);
            assert_accepted(&followed.near_miss(&mut prng));
        }
        for _ in 0..20 {
            assert_accepted(&wide::triple(&mut prng, marks));
        }
    }
}

/// The marks of the triple's query, as often as they stand there.
fn marks(triple: &Triple) -> Vec<u16> {
    let marks = triple
        .query
        .iter()
        .filter(|&&(sort, _)| sort == token::MARK);
    marks.map(|&(_, mark)| mark).collect()
}

/// Whether a constant stands beside a mark.
fn is_beside_constant(triple: &Triple) -> bool {
    let is_beside = |three: &[Pair]| {
        let sorts = [three[0].0, three[1].0, three[2].0];
        sorts == [token::CONSTANT, token::MARK, token::BOTH.0]
    };
    triple.query.windows(3).any(is_beside)
}

/// One to four of them, once or more often, and beside constants. Only a marked query
/// has marks, and no view has.
#[test]
fn queries_have_marks_or_not() {
    let mut prng = Prng::new(39);
    let mut counts = [0; 1 + layout::MAX_MARKS as usize];
    let (mut once, mut often, mut beside) = (0, 0, 0);
    for _ in 0..DRAWS {
        let unmarked = Triple::random(&mut prng, Marks::Without);
        assert_eq!(marks(&unmarked), []);
        for triple in [Triple::random, Triple::followed].map(|draw| draw(&mut prng, Marks::With)) {
            let places = marks(&triple);
            let used = used(&triple.decoded().1);
            counts[used.len()] += 1;
            let of = |mark: &usize| places.iter().filter(|&&m| usize::from(m) == *mark).count();
            once += usize::from(used.iter().any(|mark| of(mark) == 1));
            often += usize::from(used.iter().any(|mark| of(mark) > 2));
            beside += usize::from(is_beside_constant(&triple));
            assert!(triple.view.iter().all(|&(sort, _)| sort != token::MARK));
        }
    }
    assert!(counts[0] == 0, "{counts:?}");
    let is_common = |part: &usize| part * 20 > DRAWS;
    assert!(counts[1..].iter().all(is_common), "{counts:?}");
    assert!(
        [once, often, beside].iter().all(is_common),
        "{once}, {often}, {beside}"
    );
}

/// What takes no marks gets none.
#[test]
fn calls_have_marks_where_they_may() {
    let mut prng = Prng::new(40);
    for _ in 0..DRAWS {
        let triple = Triple::random(&mut prng, Marks::With);
        let (schema, query) = triple.decoded();
        let state = state::state(&mut prng, triple.signature, &schema, &query);
        for &entry in Entry::ALL {
            let call = triple.call(entry, state.words_for(entry), 0);
            let has_marks = check_concept(&call.schema, &call.query) == Err(4);
            assert_eq!(has_marks, entry.takes_marks, "{entry:?}");
        }
    }
}

#[test]
fn catalogues_are_accepted() {
    let mut prng = Prng::new(37);
    let mut counts = [0; layout::MAX_VIEWS + 1];
    for _ in 0..DRAWS / 10 {
        let drawn = Catalogue::random(&mut prng);
        let call = drawn.call(Entry::Catalogue, CATALOGUE_WORDS, CATALOGUE_WORDS);
        let mut lent = [[0; CATALOGUE_WORDS]; 2];
        let [rows, order] = &mut lent;
        let groups = catalogue(&call.schema, &call.catalogue, rows, order);
        assert!(groups.is_ok(), "{groups:?} of {drawn:?}");
        counts[drawn.views.len()] += 1;
        let triple = Triple::random(&mut prng, Marks::Without);
        let related = Catalogue::related(&mut prng, &triple, 3);
        assert_eq!(related.views.len(), 3);
        assert!(related.views.contains(&triple.view));
        assert_eq!(related.schema_words(), triple.schema_words());
    }
    assert!(counts[1..].iter().all(|&count| count > 0), "{counts:?}");
}

#[test]
fn states_are_accepted() {
    let mut prng = Prng::new(32);
    for _ in 0..DRAWS {
        let marks = Marks::draw(&mut prng);
        let triple = Triple::random(&mut prng, marks);
        let (schema, query) = triple.decoded();
        let state = state::state(&mut prng, triple.signature, &schema, &query);
        let call = |entry| triple.call(entry, state.words_for(entry), 0);
        let judged = call(Entry::Legal);
        let legal = legal(&judged.schema, &judged.state);
        assert!(legal.is_ok(), "{legal:?} of {state:?}");
        let tried = call(Entry::Counterexample);
        let found = counterexample(&tried.schema, &tried.query, &tried.view, &tried.state);
        assert!(found.is_ok(), "{found:?} of {state:?}");
        let counted = call(Entry::LinksByFirst);
        let links = links_by_first(&counted.schema, &counted.query, &counted.state, 0);
        assert!(matches!(links, Ok(_) | Err(12)), "{links:?} of {state:?}");
    }
}

/// The count of class facts is damaged alone and beside whatever else a state may be
/// refused for.
#[test]
fn class_facts_are_miscounted_beside_other_damage() {
    let mut prng = Prng::new(41);
    let mut counts = BTreeMap::new();
    for _ in 0..DRAWS {
        let triple = Triple::random(&mut prng, Marks::Without);
        let (schema, query) = triple.decoded();
        let sound = state::state(&mut prng, triple.signature, &schema, &query);
        let mut call = triple.call(Entry::Legal, sound.words_for(Entry::Legal), 0);
        let told = call.state[CLASS_FACTS];
        damage(&mut prng, &mut call, Place::State);
        let mut words = call.state;
        let refusal = |words: &[u16]| records::state(words, &schema, &used(&query)).err();
        let number = refusal(&words);
        if words.get(CLASS_FACTS).is_some_and(|&count| count != told) {
            words[CLASS_FACTS] = told;
            *counts.entry((number, refusal(&words))).or_insert(0) += 1;
        }
    }
    // What they are refused as, and what they would be with the count as it was.
    let is_common = |pair| counts.get(&pair).is_some_and(|&count| count * 100 > DRAWS);
    assert!(is_common((Some(15), None)), "{counts:?}");
    for earlier in [7, 8, 9].map(Some) {
        assert!(is_common((earlier, earlier)), "{counts:?}");
    }
    assert!(is_common((Some(15), Some(10))), "{counts:?}");
}

#[test]
fn attributes_are_declared_or_not() {
    let mut prng = Prng::new(36);
    let (mut lowest, mut highest) = (0, 0);
    for _ in 0..DRAWS {
        let signature = Triple::random(&mut prng, Marks::Without).signature;
        let declared = attribute::declared(&mut prng, signature);
        assert_eq!(declared.is_none(), signature.attributes == 0);
        assert!(declared.is_none_or(|number| number < signature.attributes));
        let undeclared = attribute::undeclared(&mut prng, signature);
        assert!(undeclared >= signature.attributes);
        lowest += usize::from(undeclared == signature.attributes);
        highest += usize::from(undeclared == u16::MAX);
    }
    assert!(
        lowest * 4 > DRAWS && highest * 4 > DRAWS,
        "{lowest}, {highest}"
    );
}

/// None of the constants, some or all, and never one that is not declared.
#[test]
fn constants_are_loose_or_not() {
    let mut prng = Prng::new(38);
    let (mut none, mut some, mut all) = (0, 0, 0);
    for _ in 0..DRAWS {
        let Signature {
            constants, loose, ..
        } = Triple::random(&mut prng, Marks::Without).signature;
        let declared = (1 << constants) - 1;
        assert_eq!(loose & !declared, 0);
        match loose {
            0 => none += 1,
            _ if loose == declared => all += 1,
            _ => some += 1,
        }
    }
    let is_common = |part| part * 8 > DRAWS;
    assert!(
        [none, some, all].into_iter().all(is_common) && none * 2 < DRAWS,
        "{none}, {some}, {all}"
    );
}

#[test]
fn models_are_legal_and_have_the_query() {
    let mut prng = Prng::new(33);
    let mut models = 0;
    for _ in 0..DRAWS {
        let marks = Marks::draw(&mut prng);
        let triple = Triple::random(&mut prng, marks);
        let (schema, query) = triple.decoded();
        let values = prng.one_of([Values::New, Values::Any]);
        let Ok((sketch, _)) = model(triple.signature, &schema, &query, values, &mut prng) else {
            continue;
        };
        let words = sketch.state(&mut prng).words_for(Entry::Counterexample);
        let state = records::state(&words, &schema, &used(&query)).expect("an accepted state");
        assert_eq!(first_broken(&schema, &state), None, "{triple:?}");
        assert!(selected(&state, &query).contains(&true), "{triple:?}");
        models += 1;
    }
    assert!(models * 2 > DRAWS, "{models} models");
}

/// A second walk to the same end is not always met, so most concepts and not
/// all of them have an object of the sketch that they were read off.
#[test]
fn concepts_read_off_a_model_have_its_object() {
    let mut prng = Prng::new(34);
    let (mut drawn, mut missed) = (0, 0);
    for _ in 0..DRAWS {
        let marks = Marks::draw(&mut prng);
        let triple = Triple::random(&mut prng, marks);
        let (schema, query) = triple.decoded();
        let model = model(triple.signature, &schema, &query, Values::Any, &mut prng);
        let Ok((sketch, start)) = model else {
            continue;
        };
        let view = super::witness::tokens(&mut prng, &sketch, start, layout::VIEW_STEPS, 20);
        let state = sketch.state(&mut prng);
        let mut lent = vec![0; state.objects];
        let words = state.words_for(Entry::Select);
        let view = layout::concept(&view);
        let count = select(&triple.schema_words(), &view, &words, &mut lent);
        drawn += 1;
        missed += usize::from(count == Ok(0));
    }
    assert!(missed * 20 < drawn, "{missed} of {drawn}");
}

#[test]
fn the_full_state_has_all_facts() {
    let mut prng = Prng::new(35);
    let signature = Signature {
        classes: layout::MAX_CLASSES,
        attributes: layout::MAX_ATTRIBUTES,
        constants: layout::MAX_CONSTANTS,
        loose: 0,
    };
    for used in 0..=layout::MAX_MARKS.into() {
        let state = state::full(&mut prng, signature, &(0..used).collect());
        assert_eq!(state.facts.len(), layout::MAX_FACTS);
        let words = state.words_for(Entry::Counterexample);
        assert_eq!(words.len(), layout::DECIDE_WORDS);
        let fewer = state.words_for(Entry::Select);
        assert_eq!(fewer.len(), layout::DECIDE_WORDS - 2 * used);
    }
}
