//! The eleven calls, on records of any words and on built ones.

use crate::catalogued::Catalogued;
use crate::concept::{Query, View};
use crate::layout::{self, DECIDE_WORDS, MAX_OBJECTS, STATE};
use crate::named::Named;
use crate::raw;
use crate::refusal::Refusal;
use crate::schema::{Attribute, Schema};
use crate::state::{Object, State};

/// Whether a query may be read from a view.
#[derive(Clone, Debug, PartialEq, Eq)]
#[must_use]
pub enum Decision {
    /// In every legal state, of any size, each object of the query is in the
    /// view, whichever objects its marks are. So the view's list has every object
    /// of the query, and it may have more: filter it by the query, unless the view
    /// is held by the query too.
    ///
    /// A state that breaks an axiom is not spoken of. The store must keep the
    /// axioms in force, or its lists may lack objects.
    Held,
    /// Some legal state has an object in the query that is outside the view:
    /// this one, for example, which says of each mark that the query uses which
    /// object it is. The view must not serve the query.
    Open { state: State, object: Object },
    /// The first refusal that applies to the records.
    Refused(Refusal),
}

impl Decision {
    /// Whether the view may serve the query; not so if the call was refused.
    pub fn is_held(&self) -> bool {
        matches!(self, Decision::Held)
    }
}

/// Whether a state obeys the axioms.
#[derive(Clone, Copy, Debug, PartialEq, Eq)]
pub enum Legality {
    Legal,
    /// The place of the first broken axiom in the schema, from 0.
    Broken(usize),
}

/// What the query, which has no marks, names. It is checked by itself: neither a
/// view nor a state is needed.
pub fn check_concept(schema: &[u16], query: &[u16]) -> Result<Named, Refusal> {
    named(|classes, attributes, count| {
        raw::check_concept(schema, query, classes, attributes, count)
    })
}

/// What the query, which may have marks, names. It is checked by itself.
pub fn check_query(schema: &[u16], query: &[u16]) -> Result<Named, Refusal> {
    named(|classes, attributes, count| raw::check_query(schema, query, classes, attributes, count))
}

/// What the view names. It is checked by itself, like a query without marks but
/// for the steps: a view may have fewer.
pub fn check_view(schema: &[u16], view: &[u16]) -> Result<Named, Refusal> {
    named(|classes, attributes, count| raw::check_view(schema, view, classes, attributes, count))
}

fn named(check: impl FnOnce(&mut u32, &mut u32, &mut u64) -> u16) -> Result<Named, Refusal> {
    let mut named = Named::default();
    let returned = check(
        &mut named.class_set,
        &mut named.attribute_set,
        &mut named.count,
    );
    Refusal::check(returned)?;
    Ok(named)
}

/// The objects of the state that are in the query, ascending. The query has no
/// marks.
pub fn select(schema: &[u16], query: &[u16], state: &[u16]) -> Result<Vec<Object>, Refusal> {
    let mut lent = [0; MAX_OBJECTS as usize];
    Refusal::check(raw::select(schema, query, state, &mut lent, &mut 0))?;
    // Words past the state's objects are left at 0.
    let told = (0..).map(Object).zip(lent);
    let selected = told.filter(|&(_, word)| word == 1);
    Ok(selected.map(|(object, _)| object).collect())
}

/// Whether the state is legal.
pub fn legal(schema: &[u16], state: &[u16]) -> Result<Legality, Refusal> {
    let mut broken = 0;
    Refusal::check(raw::legal(schema, state, &mut broken))?;
    Ok(match broken.checked_sub(1) {
        None => Legality::Legal,
        Some(place) => Legality::Broken(place as usize),
    })
}

/// The lowest object in the query and outside the view, if the state is legal
/// and has one. The state says which object each mark is that the query uses, and
/// says so of no other mark.
pub fn counterexample(
    schema: &[u16],
    query: &[u16],
    view: &[u16],
    state: &[u16],
) -> Result<Option<Object>, Refusal> {
    let mut found = 0;
    Refusal::check(raw::counterexample(schema, query, view, state, &mut found))?;
    Ok(found.checked_sub(1).map(object))
}

/// How many links of the attribute have their first object in the query, where a
/// link is a first object with a second as its value: for each object in the
/// query, how many values it has, summed. The query has no marks, and the state
/// need not be legal.
pub fn links_by_first(
    schema: &[u16],
    query: &[u16],
    state: &[u16],
    attribute: u16,
) -> Result<u64, Refusal> {
    let mut links = 0;
    let returned = raw::links_by_first(schema, query, state, attribute, &mut links);
    Refusal::check(returned)?;
    Ok(links)
}

/// The same number as [`links_by_first`], from the other side: for each object,
/// how many objects in the query have it as a value, summed.
pub fn links_by_second(
    schema: &[u16],
    query: &[u16],
    state: &[u16],
    attribute: u16,
) -> Result<u64, Refusal> {
    let mut links = 0;
    let returned = raw::links_by_second(schema, query, state, attribute, &mut links);
    Refusal::check(returned)?;
    Ok(links)
}

/// Whether the query may be read from the view. It may have marks.
pub fn decide(schema: &[u16], query: &[u16], view: &[u16]) -> Decision {
    let mut lent = vec![0; DECIDE_WORDS];
    let (mut objects, mut found) = (0, 0);
    let returned = raw::decide(schema, query, view, &mut lent, &mut objects, &mut found);
    if let Err(refusal) = Refusal::check(returned) {
        return Decision::Refused(refusal);
    }
    if objects == 0 {
        return Decision::Held;
    }
    lent.truncate(STATE.length(&lent).unwrap_or(0));
    lent.shrink_to_fit();
    Decision::Open {
        state: State(lent),
        object: object(found),
    }
}

/// Whether the query may be read from the view, as [`decide`] says, for who
/// wants no state: nothing is taken from the heap.
pub fn holds(schema: &[u16], query: &[u16], view: &[u16]) -> Result<bool, Refusal> {
    let mut held = 0;
    Refusal::check(raw::holds(schema, query, view, &mut held))?;
    Ok(held == 1)
}

/// Which views of a catalogue are held by which, and the groups of those that are
/// held by each other, narrower ones first.
pub fn catalogue(schema: &[u16], views: &[u16]) -> Result<Catalogued, Refusal> {
    let mut answer = Catalogued::default();
    let Catalogued {
        rows,
        order,
        groups,
    } = &mut answer;
    Refusal::check(raw::catalogue(schema, views, rows, order, groups))?;
    Ok(answer)
}

/// An out value that is an object; all objects are far below a word's limit.
fn object(number: u64) -> Object {
    Object(number as u16)
}

/// The same calls on built records. A record that was made for another schema is
/// refused only if its numbers do not fit this one; otherwise it is read with
/// this schema's numbers, and the answer is about something else.
///
/// A query with marks is refused by [`Schema::check_concept`], [`Schema::select`]
/// and the counts of links. A state that says which objects marks are is refused
/// by all but [`Schema::counterexample`].
impl Schema {
    /// What the query, which has no marks, names.
    pub fn check_concept(&self, query: &Query) -> Result<Named, Refusal> {
        check_concept(self.words(), query.words())
    }

    /// What the query, which may have marks, names.
    pub fn check_query(&self, query: &Query) -> Result<Named, Refusal> {
        check_query(self.words(), query.words())
    }

    /// What the view names, as a screen that shows the view lists it.
    pub fn check_view(&self, view: &View) -> Result<Named, Refusal> {
        check_view(self.words(), view.words())
    }

    /// The objects of the state that are in the query, ascending. The query has no
    /// marks; a view may be asked for as one.
    pub fn select(&self, query: &Query, state: &State) -> Result<Vec<Object>, Refusal> {
        select(self.words(), query.words(), state.words())
    }

    /// Whether the state is legal.
    pub fn legal(&self, state: &State) -> Result<Legality, Refusal> {
        legal(self.words(), state.words())
    }

    /// The lowest object in the query and outside the view, if the state is
    /// legal and has one. Just the marks that the query uses must have an object
    /// in the state.
    pub fn counterexample(
        &self,
        query: &Query,
        view: &View,
        state: &State,
    ) -> Result<Option<Object>, Refusal> {
        counterexample(self.words(), query.words(), view.words(), state.words())
    }

    /// How many links of the attribute have their first object in the query: for
    /// each object in the query, how many values it has, summed. The query has no
    /// marks, and the state need not be legal.
    pub fn links_by_first(
        &self,
        query: &Query,
        state: &State,
        Attribute(number): Attribute,
    ) -> Result<u64, Refusal> {
        links_by_first(self.words(), query.words(), state.words(), number)
    }

    /// The same number as [`Schema::links_by_first`], from the other side: for
    /// each object, how many objects in the query have it as a value, summed.
    pub fn links_by_second(
        &self,
        query: &Query,
        state: &State,
        Attribute(number): Attribute,
    ) -> Result<u64, Refusal> {
        links_by_second(self.words(), query.words(), state.words(), number)
    }

    /// Whether the query, which may have marks, may be read from the view; see
    /// [`Decision::Held`] for what that allows.
    pub fn decide(&self, query: &Query, view: &View) -> Decision {
        decide(self.words(), query.words(), view.words())
    }

    /// Whether [`Schema::decide`] says [`Decision::Held`].
    pub fn holds(&self, query: &Query, view: &View) -> Result<bool, Refusal> {
        holds(self.words(), query.words(), view.words())
    }

    /// Which views are held by which, and an order in which narrower ones come
    /// first. The views are numbered as they stand in the slice. None, or more
    /// than [`layout::MAX_VIEWS`], are refused.
    pub fn catalogue(&self, views: &[View]) -> Result<Catalogued, Refusal> {
        let views: Vec<&[u16]> = views.iter().map(View::words).collect();
        catalogue(self.words(), &layout::catalogue(&views))
    }
}
