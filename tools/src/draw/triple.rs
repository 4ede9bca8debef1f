//! Random triples of schema, query and view, whose records are accepted.

use super::repair::{model, Values};
use super::{concept, schema, witness, Scale};
use crate::call::{Call, Entry};
use crate::prng::Prng;
use bikuvoa::layout::token::{self, BACKWARD, BOTH, EVERYTHING, FORWARD, MARK};
use bikuvoa::layout::{self, Pair, Signature, MAX_TOKENS, QUERY_STEPS, VIEW_STEPS};
use bikuvoa::layout::{MAX_ATTRIBUTES, MAX_CLASSES, MAX_CONSTANTS, MAX_MARKS};
use reference::records::{self, Place};
use reference::syntax::{Concept, Schema};

/// How often a token that comes out as it was is drawn again.
const TRIES: usize = 4;

/// Whether a query has marks.
#[derive(Clone, Copy, PartialEq, Eq)]
pub enum Marks {
    Without,
    With,
}

impl Marks {
    /// One as often as the other.
    pub fn draw(prng: &mut Prng) -> Self {
        prng.one_of([Marks::Without, Marks::With])
    }
}

/// A triple as the entries of its records.
#[derive(Clone, Debug)]
pub struct Triple {
    pub signature: Signature,
    pub axioms: Vec<Pair>,
    pub query: Vec<Pair>,
    pub view: Vec<Pair>,
}

impl Triple {
    /// A query and a view that have nothing to do with each other.
    pub fn random(prng: &mut Prng, marks: Marks) -> Self {
        let scale = Scale::draw(prng);
        Triple::random_at(prng, scale).marked(prng, marks)
    }

    /// As `random`, with all the classes, attributes and constants that there may
    /// be, and of any size that records may have.
    pub fn of_all_names(prng: &mut Prng, marks: Marks) -> Self {
        let declared = [MAX_CLASSES, MAX_ATTRIBUTES, MAX_CONSTANTS];
        let signature = schema::declaring(prng, declared);
        Triple::random_over(prng, signature, Scale::Large).marked(prng, marks)
    }

    fn random_at(prng: &mut Prng, scale: Scale) -> Self {
        let signature = schema::signature(prng, scale);
        Triple::random_over(prng, signature, scale)
    }

    fn random_over(prng: &mut Prng, signature: Signature, scale: Scale) -> Self {
        Triple {
            signature,
            axioms: schema::axioms(prng, signature, scale),
            query: concept::tokens(prng, signature, QUERY_STEPS, scale),
            view: concept::tokens(prng, signature, VIEW_STEPS, scale),
        }
    }

    /// A view read off a legal state that was made for the query. It is often
    /// held, and then by following the axioms; where the state has more than
    /// they force, it is often just missed.
    pub fn followed(prng: &mut Prng, marks: Marks) -> Self {
        let scale = Scale::draw(prng);
        let mut triple = Triple::random_at(prng, scale);
        triple.ask_for_class(prng);
        let mut triple = triple.marked(prng, marks);
        let values = prng.one_of([Values::New, Values::Any]);
        let (schema, query) = triple.decoded();
        if let Ok((sketch, start)) = model(triple.signature, &schema, &query, values, prng) {
            let budget = concept::budget(prng, scale);
            triple.view = witness::tokens(prng, &sketch, start, VIEW_STEPS, budget);
        }
        triple
    }

    /// The triple with marks in its query, if it is to have them.
    pub(super) fn marked(self, prng: &mut Prng, marks: Marks) -> Self {
        match marks {
            Marks::Without => self,
            Marks::With => Triple {
                query: concept::marked(prng, &self.query),
                ..self
            },
        }
    }

    /// Also asks the query's object for a class, so that axioms have a hold on
    /// it.
    fn ask_for_class(&mut self, prng: &mut Prng) {
        if self.signature.classes > 0 && self.query.len() + 2 <= MAX_TOKENS {
            let class = prng.word_below(self.signature.classes);
            self.query.extend([token::class(class), BOTH]);
        }
    }

    /// The triple without one axiom, with one token altered, or with one constant
    /// loose that was not, or not loose that was.
    pub fn near_miss(&self, prng: &mut Prng) -> Self {
        let mut near = self.clone();
        match prng.below(7) {
            0..=1 if !near.axioms.is_empty() => {
                near.axioms.remove(prng.below(near.axioms.len()));
            }
            2 if near.signature.constants > 0 => {
                near.signature.loose ^= 1 << prng.word_below(near.signature.constants);
            }
            3 => alter_token(prng, near.signature, &mut near.query),
            _ => alter_token(prng, near.signature, &mut near.view),
        }
        near
    }

    pub fn schema_words(&self) -> Vec<u16> {
        layout::schema(self.signature, &self.axioms)
    }

    /// The schema and the query as the reference reads them.
    pub fn decoded(&self) -> (Schema, Concept) {
        let schema = records::schema(&self.schema_words()).expect("a drawn schema is accepted");
        let query = layout::concept(&self.query);
        let query = records::concept(&query, &schema, Place::Query);
        (schema, query.expect("a drawn query is accepted"))
    }

    /// The call that asks for the verdict, of an entry that takes no state.
    pub fn verdict_call(&self, entry: Entry) -> Call {
        self.call(entry, Vec::new(), (entry.least_lent)(0))
    }

    /// A call with the triple's records and a state's, with attribute 0 and without a
    /// catalogue. Where the entry takes no marks, everything stands for each.
    pub fn call(&self, entry: Entry, state: Vec<u16>, lent: usize) -> Call {
        let query = self.query.iter().map(|&token| match token {
            (MARK, _) if !entry.takes_marks => EVERYTHING,
            token => token,
        });
        Call {
            entry,
            schema: self.schema_words(),
            query: layout::concept(&query.collect::<Vec<_>>()),
            view: layout::concept(&self.view),
            catalogue: Vec::new(),
            state,
            attribute: 0,
            lent,
            order: entry.least_order,
        }
    }
}

/// Alters a leaf or a step. The other tokens hold the concept together and
/// stay, and so may the only leaf of a small signature.
pub(super) fn alter_token(prng: &mut Prng, signature: Signature, tokens: &mut [Pair]) {
    let open: Vec<usize> = (0..tokens.len())
        .filter(|&place| token::is_leaf(tokens[place]) || token::is_step(tokens[place]))
        .collect();
    for _ in 0..TRIES {
        let Some(place) = prng.pick(&open) else {
            return;
        };
        let other = other_token(prng, signature, tokens[place]);
        if other != tokens[place] {
            tokens[place] = other;
            return;
        }
    }
}

/// A leaf that asks something for a leaf, often a mark for a mark; a step turned
/// round, or with any attribute.
fn other_token(prng: &mut Prng, signature: Signature, token: Pair) -> Pair {
    match token {
        (FORWARD, attribute) if prng.chance(50) => (BACKWARD, attribute),
        (BACKWARD, attribute) if prng.chance(50) => (FORWARD, attribute),
        (sort @ (FORWARD | BACKWARD), _) => (sort, prng.word_below(signature.attributes)),
        (MARK, _) if prng.chance(60) => token::mark(prng.word_below(MAX_MARKS)),
        _ if signature.constants > 0 && prng.chance(20) => {
            token::constant(prng.word_below(signature.constants))
        }
        _ if signature.classes > 0 => token::class(prng.word_below(signature.classes)),
        _ => EVERYTHING,
    }
}
