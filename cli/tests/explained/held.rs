//! Answers HELD, held to the library.

use super::{value::Value, words};
use bik::explain::Explanation;
use bik::model::{Concept, File};
use bikuvoa::layout::{self, token, Pair, Signature, MAX_CLASSES};

/// That the axioms and parts that are told are enough and that none of them can be left
/// out, and that what else is told is so.
pub fn check(asked: &File, answer: &Explanation) {
    let json = Value::read(&answer.json()).expect("JSON");
    let query = &asked.query("query").expect("a query").concept;
    let view = words(asked, "view");
    let holds = |parts: &[bool], axioms: &[bool]| {
        let query = only(query, parts);
        bikuvoa::holds(&schema(asked, axioms), &query, &view).expect("accepted")
    };
    let parts = json.get("parts").list().iter();
    let parts: Vec<bool> = parts.map(|part| part.get("needed").truth()).collect();
    let axioms = needed_axioms(asked, &json);
    assert_eq!(parts.len(), query.parts().len());
    assert!(holds(&parts, &axioms));
    for place in places(&parts) {
        assert!(!holds(&without(&parts, place), &axioms));
    }
    for place in places(&axioms) {
        assert!(!holds(&parts, &without(&axioms, place)));
    }
    let (all_parts, all_axioms) = (vec![true; parts.len()], vec![true; axioms.len()]);
    let is_open = |place| !holds(&all_parts, &without(&all_axioms, place));
    let is_only_way = places(&axioms).all(is_open);
    assert_eq!(json.get("no_other_way").truth(), is_only_way);
    check_other_way(asked, &json);
}

fn check_other_way(asked: &File, json: &Value) {
    let (query, view) = (words(asked, "query"), words(asked, "view"));
    let other_way = bikuvoa::holds(&asked.schema(), &view, &query);
    let told = match other_way {
        Ok(true) => Value::Text("HELD".into()),
        Ok(false) => Value::Text("OPEN".into()),
        Err(_) => Value::Null,
    };
    assert_eq!(json.get("other_way"), &told);
    assert_eq!(json.get("filter").truth(), other_way != Ok(true));
    if let Some((schema, spare)) = spare(asked) {
        let is_empty = bikuvoa::holds(&schema, &query, &spare).expect("accepted");
        assert_eq!(json.get("empty").truth(), is_empty);
    }
}

/// The schema with a further class, and that class as a view, which no object need be in.
pub fn spare(asked: &File) -> Option<(Vec<u16>, Vec<u16>)> {
    let mut signature = asked.names.signature();
    let class = signature.classes;
    signature.classes += 1;
    let schema = with_axioms(asked, signature, &vec![true; asked.axioms.len()]);
    (class < MAX_CLASSES).then(|| (schema, layout::concept(&[token::class(class)])))
}

/// The axioms that are said to be needed, by the lines on which they stand.
fn needed_axioms(asked: &File, json: &Value) -> Vec<bool> {
    let needed = json.get("needed_axioms").list().iter();
    let lines = needed.map(|axiom| axiom.get("place").get("line").number());
    let lines: Vec<usize> = lines.collect();
    let stated = asked.axioms.iter();
    let stated = stated.map(|stated| lines.contains(&asked.source.place(stated.span).line));
    stated.collect()
}

fn places(kept: &[bool]) -> impl Iterator<Item = usize> + '_ {
    (0..kept.len()).filter(|&place| kept[place])
}

fn without(kept: &[bool], place: usize) -> Vec<bool> {
    let mut fewer = kept.to_vec();
    fewer[place] = false;
    fewer
}

fn schema(asked: &File, kept: &[bool]) -> Vec<u16> {
    with_axioms(asked, asked.names.signature(), kept)
}

fn with_axioms(asked: &File, signature: Signature, kept: &[bool]) -> Vec<u16> {
    let axioms = places(kept).map(|place| asked.axioms[place].axiom.words());
    layout::schema(signature, &axioms.collect::<Vec<Pair>>())
}

/// The record of these parts, or of everything.
fn only(concept: &Concept, kept: &[bool]) -> Vec<u16> {
    let mut tokens = Vec::new();
    for place in places(kept) {
        let is_further = !tokens.is_empty();
        let part = concept.parts()[place].tokens();
        tokens.extend(part.iter().map(|token| token.words()));
        tokens.extend(is_further.then_some(token::BOTH));
    }
    if tokens.is_empty() {
        tokens.push(token::EVERYTHING);
    }
    layout::concept(&tokens)
}
