//! Random catalogues, whose records are accepted: views that are equal, the same
//! but written otherwise, narrower and wider than each other, or have nothing to
//! do with each other, in any order.

use super::repair::{model, Values};
use super::triple::{alter_token, Marks, Triple};
use super::{concept, schema, witness, Scale};
use crate::call::{Call, Entry};
use crate::prng::Prng;
use bikuvoa::layout::token::{self, BOTH, EMPTY, EVERYTHING, REACHED};
use bikuvoa::layout::{self, Pair, Signature};
use bikuvoa::layout::{MAX_CLASSES, MAX_CONSTANTS, MAX_TOKENS, MAX_VIEWS, VIEW_STEPS};
use reference::records::{self, Place};

/// A schema and views, as the entries of their records.
#[derive(Clone, Debug)]
pub struct Catalogue {
    pub signature: Signature,
    pub axioms: Vec<Pair>,
    pub views: Vec<Vec<Pair>>,
}

impl Catalogue {
    pub fn random(prng: &mut Prng) -> Self {
        let triple = Triple::random(prng, Marks::Without);
        let count = match prng.below(10) {
            0..=2 => prng.between(1, 4),
            3..=4 => MAX_VIEWS,
            _ => prng.between(1, MAX_VIEWS),
        };
        match prng.below(6) {
            0 => Catalogue::apart(prng, &triple, count),
            1 => Catalogue::chained(prng, count),
            _ => Catalogue::related(prng, &triple, count),
        }
    }

    /// Under the triple's schema, so many views that have nothing to do with each
    /// other.
    fn apart(prng: &mut Prng, triple: &Triple, count: usize) -> Self {
        let mut catalogue = Catalogue::under(triple);
        while catalogue.views.len() < count {
            let view = concept::tokens(prng, triple.signature, VIEW_STEPS, Scale::Small);
            catalogue.views.push(view);
        }
        catalogue
    }

    /// Views that mostly ask for a class more than the one before, of so many
    /// classes that a chain may have all of them.
    fn chained(prng: &mut Prng, count: usize) -> Self {
        let attributes = 1 + prng.word_below(3);
        let constants = prng.word_below(MAX_CONSTANTS + 1);
        let signature = schema::declaring(prng, [MAX_CLASSES, attributes, constants]);
        let axioms = schema::axioms(prng, signature, Scale::Small);
        let mut classes: Vec<u16> = (0..signature.classes).collect();
        prng.shuffle(&mut classes);
        let mut views = vec![concept::tokens(prng, signature, VIEW_STEPS, Scale::Small)];
        for &class in &classes[..count - 1] {
            let from = match prng.below(10) {
                0 => prng.below(views.len()),
                _ => views.len() - 1,
            };
            views.push(both(&views[from], &[token::class(class)]));
        }
        prng.shuffle(&mut views);
        Catalogue {
            signature,
            axioms,
            views,
        }
    }

    /// Under the triple's schema, its view and others that come of it, up to so
    /// many.
    pub fn related(prng: &mut Prng, triple: &Triple, count: usize) -> Self {
        let mut catalogue = Catalogue::under(triple);
        while catalogue.views.len() < count {
            let from = prng.below(catalogue.views.len());
            let from = catalogue.views[from].clone();
            let view = catalogue.another(prng, &from);
            catalogue.views.push(fitting(view).unwrap_or(from));
        }
        prng.shuffle(&mut catalogue.views);
        catalogue
    }

    /// The triple's schema, and its view alone.
    fn under(triple: &Triple) -> Self {
        Catalogue {
            signature: triple.signature,
            axioms: triple.axioms.clone(),
            views: vec![triple.view.clone()],
        }
    }

    /// A view that has to do with the one that is given. It may be too large.
    fn another(&self, prng: &mut Prng, from: &[Pair]) -> Vec<Pair> {
        let mut view = from.to_vec();
        match prng.below(12) {
            0..=1 => concept::tokens(prng, self.signature, VIEW_STEPS, Scale::Small),
            2 => view,
            3..=4 => written_otherwise(prng, from),
            5..=7 => {
                let steps = prng.below(2);
                both(
                    from,
                    &concept::tokens(prng, self.signature, steps, Scale::Small),
                )
            }
            8 => wider(prng, from),
            9 => {
                alter_token(prng, self.signature, &mut view);
                view
            }
            _ => self.followed(prng, from).unwrap_or(view),
        }
    }

    /// A view read off a legal state that was made for the one that is given, and
    /// often wider than it by the axioms; nothing if there is no such state.
    fn followed(&self, prng: &mut Prng, from: &[Pair]) -> Option<Vec<Pair>> {
        let schema = records::schema(&self.schema_words()).ok()?;
        let from = records::concept(&layout::concept(from), &schema, Place::View).ok()?;
        let (sketch, start) = model(self.signature, &schema, &from, Values::New, prng).ok()?;
        let budget = concept::budget(prng, Scale::Small);
        Some(witness::tokens(prng, &sketch, start, VIEW_STEPS, budget))
    }

    pub fn schema_words(&self) -> Vec<u16> {
        layout::schema(self.signature, &self.axioms)
    }

    /// The record of the views.
    pub fn words(&self) -> Vec<u16> {
        let views = self.views.iter().map(|tokens| layout::concept(tokens));
        layout::catalogue(&views.collect::<Vec<_>>())
    }

    /// A call with the catalogue, with so many words for rows and for order.
    pub fn call(&self, entry: Entry, rows: usize, order: usize) -> Call {
        Call {
            entry,
            schema: self.schema_words(),
            query: Vec::new(),
            view: Vec::new(),
            catalogue: self.words(),
            state: Vec::new(),
            attribute: 0,
            lent: rows,
            order,
        }
    }
}

/// What is in each of the two.
fn both(left: &[Pair], right: &[Pair]) -> Vec<Pair> {
    [left, right, &[BOTH]].concat()
}

/// The view, if it is not too large.
fn fitting(tokens: Vec<Pair>) -> Option<Vec<Pair>> {
    let steps = tokens.iter().filter(|&&token| token::is_step(token));
    let fits = tokens.len() <= MAX_TOKENS && steps.count() <= VIEW_STEPS;
    fits.then_some(tokens)
}

/// The same objects by other tokens.
fn written_otherwise(prng: &mut Prng, from: &[Pair]) -> Vec<Pair> {
    match prng.below(4) {
        0 => both(from, &[EVERYTHING]),
        1 => both(&[EVERYTHING], from),
        2 => both(&[EMPTY, REACHED], from),
        _ => both(from, from),
    }
}

/// Asks for nothing where a leaf stood: no object is lost by that.
fn wider(prng: &mut Prng, from: &[Pair]) -> Vec<Pair> {
    let mut tokens = from.to_vec();
    let leaves: Vec<usize> = (0..tokens.len())
        .filter(|&place| token::is_leaf(tokens[place]))
        .collect();
    if let Some(place) = prng.pick(&leaves) {
        tokens[place] = EVERYTHING;
    }
    tokens
}
