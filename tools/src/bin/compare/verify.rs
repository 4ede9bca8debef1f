//! Whether an answer is the reference's, or, for an open verdict, whether the
//! written state is the counterexample that it claims to be.

use crate::outcome::{expected, Expected, Outcome};
use bikuvoa::layout::STATE;
use reference::marks::used;
use reference::records::{self, Place};
use reference::semantics::{first_broken, selected};
use tools::answer::Answerer;
use tools::call::Call;

/// A call that was answered wrongly, with what is wrong and what came of it.
#[derive(Debug)]
pub struct Difference {
    pub call: Call,
    pub fault: String,
    pub seen: Outcome,
}

/// What came of the call, if nothing is wrong with it.
pub fn verify(tested: &dyn Answerer, call: &Call) -> Result<Outcome, Box<Difference>> {
    let seen = Outcome::of(tested, call);
    let checked = match expected(call) {
        Expected::Exactly(outcome) => check_exactly(&outcome, &seen),
        Expected::Held(outcome) => check_held(call, &outcome, &seen),
        Expected::Open => check_open(call, &seen),
    };
    match checked {
        Ok(()) => Ok(seen),
        Err(fault) => Err(Box::new(Difference {
            call: call.clone(),
            fault,
            seen,
        })),
    }
}

/// `Err` says what differs from the outcome that must be.
fn check_exactly(must: &Outcome, seen: &Outcome) -> Result<(), String> {
    check_number(must.number, seen)?;
    if must.outs != seen.outs {
        return Err(format!(
            "out values {:?} and not {:?}",
            seen.outs, must.outs
        ));
    }
    check_written(must, seen)
}

/// The same but for the out values, of which the second may be any.
fn check_held(call: &Call, must: &Outcome, seen: &Outcome) -> Result<(), String> {
    check_number(must.number, seen)?;
    if seen.outs[0] > 0 {
        return Err(open_and_not_held(call, seen));
    }
    check_written(must, seen)
}

fn check_number(must: u16, seen: &Outcome) -> Result<(), String> {
    if must != seen.number {
        return Err(format!("returned {} and not {must}", seen.number));
    }
    Ok(())
}

/// Whether the sets and the lent words are as they must be.
fn check_written(must: &Outcome, seen: &Outcome) -> Result<(), String> {
    if must.sets != seen.sets {
        return Err(format!("sets {:?} and not {:?}", seen.sets, must.sets));
    }
    check_words("lent", &must.words, &seen.words, 0)?;
    check_words("order", &must.order, &seen.order, 0)
}

/// Which of the two verdicts is to blame, as far as the state tells.
fn open_and_not_held(call: &Call, seen: &Outcome) -> String {
    match check_open(call, seen) {
        Ok(()) => "open and not held; but the written state is a counterexample".to_string(),
        Err(fault) => format!("open and not held; {fault}"),
    }
}

/// Whether the words from a place on are as they must be.
fn check_words(what: &str, must: &[u16], seen: &[u16], from: usize) -> Result<(), String> {
    let mut words = must.iter().zip(seen).enumerate().skip(from);
    match words.find(|(_, (must, seen))| must != seen) {
        None => Ok(()),
        Some((place, (must, seen))) => {
            Err(format!("{what} word {place} became {seen} and not {must}"))
        }
    }
}

/// The check of an open verdict: a record at the start of the lent words and
/// nothing altered after it, of a state that separates query and view.
fn check_open(call: &Call, seen: &Outcome) -> Result<(), String> {
    check_number(0, seen)?;
    if seen.outs[0] == 0 {
        return Err("held and not open".to_string());
    }
    let length = STATE.length(&seen.words).unwrap_or(usize::MAX);
    if length > call.lent {
        return Err(format!("a state of {length} words in {}", call.lent));
    }
    let untouched = Outcome::untouched(call).words;
    check_words("lent", &untouched, &seen.words, length)?;
    check_separates(call, &seen.words[..length], seen.outs)
}

/// An accepted record, in which the count of class facts is that of a walk over all
/// facts, of a legal state of N objects, with an object for each mark that the query
/// uses, and with the object in the query and outside the view.
fn check_separates(call: &Call, record: &[u16], [objects, object]: [u64; 2]) -> Result<(), String> {
    let refused = |number| format!("the triple is refused as {number}");
    let schema = records::schema(&call.schema).map_err(refused)?;
    let query = records::concept(&call.query, &schema, Place::Query).map_err(refused)?;
    let view = records::concept(&call.view, &schema, Place::View).map_err(refused)?;
    let state = records::state(record, &schema, &used(&query))
        .map_err(|number| format!("the written state is refused as {number}"))?;
    if state.objects as u64 != objects {
        return Err(format!("N is {objects} and not {}", state.objects));
    }
    if let Some(place) = first_broken(&schema, &state) {
        return Err(format!("the written state breaks axiom {place}"));
    }
    let is_in = |concept| {
        let selected = selected(&state, concept);
        usize::try_from(object).is_ok_and(|object| selected.get(object) == Some(&true))
    };
    if !is_in(&query) {
        return Err(format!("object {object} is not in the query"));
    }
    if is_in(&view) {
        return Err(format!("object {object} is in the view"));
    }
    Ok(())
}
