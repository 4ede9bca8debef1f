//! What can be asked, over raw records. Calls are checked in the order schema,
//! query or concept, view or catalogue, state, then attribute or lent words; `Err`
//! holds the number of the refusal, and a refused call changes nothing.

use crate::calculus::{self, Verdict};
use crate::catalogue::{held, order};
use crate::marks;
use crate::names::{self, Named};
use crate::records::{self, Place};
use crate::semantics;
use crate::syntax::{Concept, Schema, State};
use std::collections::BTreeSet;

/// The least number of lent words for a decision.
pub const DECIDE_WORDS: usize = 30_771;

/// The least number of lent words for the rows of a catalogue, and for its order.
pub const CATALOGUE_WORDS: usize = 16;

/// Whether a state is legal, otherwise the place of its first broken axiom.
#[derive(Clone, Copy, Debug, PartialEq, Eq)]
pub enum Legality {
    Legal,
    Broken(u16),
}

/// Whether a state disproves subsumption, and by which lowest object.
#[derive(Clone, Copy, Debug, PartialEq, Eq)]
pub enum Counterexample {
    No,
    Yes(u16),
}

/// Checks a concept by itself, as one for a selection, and tells what it names.
pub fn check_concept(schema: &[u16], concept: &[u16]) -> Result<Named, u16> {
    check(schema, concept, Place::Concept)
}

/// The same of a query, which may have marks.
pub fn check_query(schema: &[u16], query: &[u16]) -> Result<Named, u16> {
    check(schema, query, Place::Query)
}

/// The same of a view.
pub fn check_view(schema: &[u16], view: &[u16]) -> Result<Named, u16> {
    check(schema, view, Place::View)
}

fn check(schema: &[u16], concept: &[u16], place: Place) -> Result<Named, u16> {
    let schema = records::schema(schema)?;
    let concept = records::concept(concept, &schema, place)?;
    Ok(names::named(&concept))
}

/// Tells in the lent words which objects are selected, and counts them.
pub fn select(
    schema: &[u16],
    concept: &[u16],
    state: &[u16],
    lent: &mut [u16],
) -> Result<u16, u16> {
    let schema = records::schema(schema)?;
    let concept = records::concept(concept, &schema, Place::Concept)?;
    let state = unmarked(state, &schema)?;
    if lent.len() < state.objects {
        return Err(11);
    }
    let selected = semantics::selected(&state, &concept);
    for (word, &inside) in lent.iter_mut().zip(&selected) {
        *word = u16::from(inside);
    }
    Ok(selected.iter().map(|&inside| u16::from(inside)).sum())
}

/// Tells whether every axiom of the schema holds in the state.
pub fn legal(schema: &[u16], state: &[u16]) -> Result<Legality, u16> {
    let schema = records::schema(schema)?;
    let state = unmarked(state, &schema)?;
    Ok(match semantics::first_broken(&schema, &state) {
        None => Legality::Legal,
        Some(place) => Legality::Broken(word(place)),
    })
}

/// Tells whether the state is legal and has an object in the query and
/// outside the view. The marks that the query uses are the objects that the state
/// chooses for them.
pub fn counterexample(
    schema: &[u16],
    query: &[u16],
    view: &[u16],
    state: &[u16],
) -> Result<Counterexample, u16> {
    let (schema, query, view) = triple(schema, query, view)?;
    let state = records::state(state, &schema, &marks::used(&query))?;
    Ok(
        match semantics::counterexample(&schema, &query, &view, &state) {
            None => Counterexample::No,
            Some(object) => Counterexample::Yes(word(object)),
        },
    )
}

/// Counts the links of the attribute whose first object is selected, by first
/// objects.
pub fn links_by_first(
    schema: &[u16],
    concept: &[u16],
    state: &[u16],
    attribute: u16,
) -> Result<u64, u16> {
    let (concept, state, attribute) = counted(schema, concept, state, attribute)?;
    Ok(semantics::links_by_first(&state, &concept, attribute) as u64)
}

/// Counts the same links by second objects.
pub fn links_by_second(
    schema: &[u16],
    concept: &[u16],
    state: &[u16],
    attribute: u16,
) -> Result<u64, u16> {
    let (concept, state, attribute) = counted(schema, concept, state, attribute)?;
    Ok(semantics::links_by_second(&state, &concept, attribute) as u64)
}

/// Decides subsumption. No state is written, so only the number of lent words
/// counts.
pub fn decide(
    schema: &[u16],
    query: &[u16],
    view: &[u16],
    lent_len: usize,
) -> Result<Verdict, u16> {
    let (schema, query, view) = triple(schema, query, view)?;
    if lent_len < DECIDE_WORDS {
        return Err(11);
    }
    Ok(calculus::decide(&schema, &query, &view))
}

/// The same verdict, without lent words.
pub fn holds(schema: &[u16], query: &[u16], view: &[u16]) -> Result<Verdict, u16> {
    let (schema, query, view) = triple(schema, query, view)?;
    Ok(calculus::decide(&schema, &query, &view))
}

/// Puts the views of a catalogue in order and counts their groups. A row has the
/// views that its view is held by, a word of the order has a group's.
pub fn catalogue(
    schema: &[u16],
    views: &[u16],
    rows: &mut [u16],
    order_words: &mut [u16],
) -> Result<u64, u16> {
    let schema = records::schema(schema)?;
    let views = records::catalogue(views)?;
    let views = views
        .into_iter()
        .map(|view| records::concept(view, &schema, Place::View))
        .collect::<Result<Vec<Concept>, u16>>()?;
    if rows.len().min(order_words.len()) < CATALOGUE_WORDS {
        return Err(11);
    }
    let held = held(&schema, &views);
    let order = order(views.len(), &held);
    rows[..CATALOGUE_WORDS].fill(0);
    for &(first, second) in &held {
        rows[first] += 1 << second;
    }
    order_words[..CATALOGUE_WORDS].fill(0);
    for (word, group) in order_words.iter_mut().zip(&order) {
        *word = group.iter().map(|view| 1 << view).sum();
    }
    Ok(order.len() as u64)
}

fn triple(schema: &[u16], query: &[u16], view: &[u16]) -> Result<(Schema, Concept, Concept), u16> {
    let schema = records::schema(schema)?;
    let query = records::concept(query, &schema, Place::Query)?;
    let view = records::concept(view, &schema, Place::View)?;
    Ok((schema, query, view))
}

/// A state where no query uses a mark.
fn unmarked(state: &[u16], schema: &Schema) -> Result<State, u16> {
    records::state(state, schema, &BTreeSet::new())
}

/// What a count of links is about; the attribute is checked last.
fn counted(
    schema: &[u16],
    concept: &[u16],
    state: &[u16],
    attribute: u16,
) -> Result<(Concept, State, usize), u16> {
    let schema = records::schema(schema)?;
    let concept = records::concept(concept, &schema, Place::Concept)?;
    let state = unmarked(state, &schema)?;
    let attribute = usize::from(attribute);
    if attribute >= schema.attributes {
        return Err(12);
    }
    Ok((concept, state, attribute))
}

/// Places and objects of accepted records stay far below the word's limit.
fn word(number: usize) -> u16 {
    u16::try_from(number).expect("record sizes bound the number")
}
