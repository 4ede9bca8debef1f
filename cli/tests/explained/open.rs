//! Answers OPEN, held to the library.

use super::{file, state_of, value::Value, words};
use bik::explain::Explanation;
use bik::model::File;
use bikuvoa::layout::{self, fact, Pair};
use bikuvoa::{Fact, Object};

/// That the state that is shown, read again, is a counterexample of which nothing can
/// be left out, and that the parts of the view are told as they are selected. Gives
/// the state's record.
pub fn check(asked: &File, answer: &Explanation) -> Vec<u16> {
    let [query, view] = ["query", "view"].map(|name| words(asked, name));
    let schema = asked.schema();
    let shown_by = |state: &[u16]| {
        let shown = bikuvoa::counterexample(&schema, &query, &view, state);
        shown.unwrap_or(None)
    };
    let text = answer.text();
    let with_state = file("drawn.bik", &(asked.source.text.clone() + &state_of(&text)));
    let state = &with_state.states[0];
    assert_eq!(shown_by(&state.words()), Some(Object(0)));
    let facts: Vec<Fact> = state.facts.iter().map(|(fact, _)| *fact).collect();
    let objects = state.objects.len() as u16;
    for left_out in 0..facts.len() {
        let mut fewer = facts.clone();
        fewer.remove(left_out);
        assert_eq!(shown_by(&record(objects, &fewer)), None);
    }
    for left_out in 0..objects {
        assert_eq!(shown_by(&without(objects, &facts, left_out)), None);
    }
    check_parts(asked, answer, &state.without_choices());
    state.words()
}

/// That each part is told as the library selects the object by it.
fn check_parts(asked: &File, answer: &Explanation, state: &[u16]) {
    let parts = asked.query("view").expect("a view").concept.parts();
    let holds = parts.iter().map(|part| {
        let selected = bikuvoa::select(&asked.schema(), &part.words(), state);
        selected.expect("accepted").contains(&Object(0))
    });
    let holds: Vec<bool> = holds.collect();
    let text = answer.text();
    let told: Vec<bool> = text.lines().filter_map(verdict).collect();
    assert_eq!(told, holds, "{text}");
    let json = Value::read(&answer.json()).expect("JSON");
    let told = json.get("parts").list();
    assert_eq!(told.len(), holds.len());
    for (part, holds) in told.iter().zip(holds) {
        assert_eq!(part.get("holds").truth(), holds);
        assert_eq!(part.get("misses").list().is_empty(), holds);
    }
}

/// What a line says of a part.
fn verdict(line: &str) -> Option<bool> {
    match line.get(..7)? {
        "  yes  " => Some(true),
        "  NO   " => Some(false),
        _ => None,
    }
}

pub fn record(objects: u16, facts: &[Fact]) -> Vec<u16> {
    let mut facts: Vec<Pair> = facts.iter().map(|fact| fact.words()).collect();
    facts.sort_unstable();
    layout::state(objects, &facts)
}

/// The state without that object, and without what is said of it: the others' numbers
/// in the words of the facts close up.
fn without(objects: u16, facts: &[Fact], left_out: u16) -> Vec<u16> {
    let closed = |number: u16| number - u16::from(number > left_out);
    let closed_up = facts.iter().filter_map(|fact| {
        let (left, right) = fact.words();
        let is_pair = matches!(fact, Fact::Pair { .. });
        let object = fact::object((left, right));
        let is_of = object == left_out || (is_pair && right == left_out);
        let right = if is_pair { closed(right) } else { right };
        (!is_of).then_some((left - object + closed(object), right))
    });
    let mut facts: Vec<Pair> = closed_up.collect();
    facts.sort_unstable();
    layout::state(objects - 1, &facts)
}
