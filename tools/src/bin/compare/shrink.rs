//! Makes a call that is answered wrongly smaller, as long as it still is.

use bikuvoa::layout::token::{self, CONSTANT, EVERYTHING, MARK};
use bikuvoa::layout::{self, fact, Layout, Pair, Signature};
use bikuvoa::layout::{CLASS_FACTS, CONCEPT, MAX_MARKS, SCHEMA, STATE};
use std::ops::Range;
use std::time::{Duration, Instant};
use tools::call::{Call, Place};
use tools::word;

/// How long smaller calls are looked for.
const PATIENCE: Duration = Duration::from_secs(15);

/// A smaller call that differs. Given time, none of the attempts below makes it
/// smaller still.
pub fn shrink(call: Call, differs: &dyn Fn(&Call) -> bool) -> Call {
    let mut shrinker = Shrinker {
        call,
        differs,
        end: Instant::now() + PATIENCE,
    };
    while shrinker.pass() {}
    shrinker.call
}

/// Where a concept stands: a record by itself, or a view of the catalogue.
#[derive(Clone, Copy)]
enum Spot {
    Record(Place),
    View(usize),
}

struct Shrinker<'a> {
    call: Call,
    differs: &'a dyn Fn(&Call) -> bool,
    end: Instant,
}

impl Shrinker<'_> {
    /// Each attempt at each place once; tells whether any helped.
    fn pass(&mut self) -> bool {
        let mut helped = self.drop_constants() | self.drop_marks();
        for &place in self.call.entry.places {
            helped |= match place {
                Place::Schema | Place::State => self.drop_entries(place),
                Place::Query | Place::View => self.replace_tokens(Spot::Record(place)),
                Place::Catalogue => self.drop_views() | self.replace_views(),
                Place::Attribute => self.lower_attribute(),
                Place::Lent | Place::Rows => self.lend_fewer(),
                Place::Order => self.lend_less_order(),
            };
            helped |= self.drop_words(place) | self.lower_words(place);
        }
        helped
    }

    /// Takes the record if the call then still differs.
    fn take(&mut self, place: Place, words: Vec<u16>) -> bool {
        let mut call = self.call.clone();
        match call.record_mut(place) {
            Some(record) => *record = words,
            None => return false,
        }
        self.take_call(call)
    }

    /// Takes the call if it still differs. It must differ in the same way, so a count of
    /// class facts that is right stays right, and one that is wrong stays wrong.
    fn take_call(&mut self, call: Call) -> bool {
        let [before, after] = [&self.call, &call].map(|call| is_counted(&call.state));
        let is_other = before.is_some() && after.is_some() && before != after;
        let taken = Instant::now() < self.end && !is_other && (self.differs)(&call);
        if taken {
            self.call = call;
        }
        taken
    }

    fn words(&self, place: Place) -> Vec<u16> {
        self.call.record(place).unwrap_or_default().to_vec()
    }

    fn entries(&self, place: Place) -> Option<(&'static Layout, Vec<Pair>)> {
        let layout = place.layout()?;
        let entries = layout.entries(self.call.record(place)?)?;
        Some((layout, entries.collect()))
    }

    fn count(&self, place: Place) -> usize {
        self.entries(place).map_or(0, |(_, entries)| entries.len())
    }

    /// Drops runs of axioms or facts: halves first, single ones last.
    fn drop_entries(&mut self, place: Place) -> bool {
        let mut helped = false;
        let mut run = self.count(place);
        while run > 0 {
            let mut at = 0;
            while at < self.count(place) {
                let dropped = self.drop_run(place, at, run);
                helped |= dropped;
                at += if dropped { 0 } else { run };
            }
            run /= 2;
        }
        helped
    }

    fn drop_run(&mut self, place: Place, at: usize, run: usize) -> bool {
        let Some((layout, mut entries)) = self.entries(place) else {
            return false;
        };
        let end = entries.len().min(at + run);
        let dropped: Vec<Pair> = entries.drain(at..end).collect();
        let words = layout.record(&self.words(place), &entries);
        match place {
            Place::State => self.take_counted(words, &dropped),
            _ => self.take(place, words),
        }
    }

    /// Takes the state without the dropped facts, its count lower by those of classes,
    /// or as it is.
    fn take_counted(&mut self, words: Vec<u16>, dropped: &[Pair]) -> bool {
        let of_classes = class_facts(dropped.iter().copied());
        [of_classes, 0].into_iter().any(|fewer| {
            let mut words = words.clone();
            words[CLASS_FACTS] = words[CLASS_FACTS].wrapping_sub(word(fewer));
            self.take(Place::State, words)
        })
    }

    /// Puts nothing, or one leaf, for a run of tokens: long runs first.
    fn replace_tokens(&mut self, spot: Spot) -> bool {
        let mut helped = false;
        let count = self.tokens(spot).map_or(0, |tokens| tokens.len());
        for run in (1..=count).rev() {
            let mut at = 0;
            while let Some(tokens) = self.tokens(spot) {
                if at + run > tokens.len() {
                    break;
                }
                helped |= self.replace_run(spot, &tokens, at..at + run);
                at += 1;
            }
        }
        helped
    }

    /// The leaf is "everything" or one that stands in the run.
    fn replace_run(&mut self, spot: Spot, tokens: &[Pair], run: Range<usize>) -> bool {
        let own = tokens[run.clone()].iter().copied();
        let own = own.filter(|&token| token::is_leaf(token));
        let leaves = [EVERYTHING].into_iter().chain(own);
        let mut instead = vec![Vec::new()];
        instead.extend(leaves.map(|leaf| vec![leaf]));
        instead.into_iter().any(|instead| {
            let shorter = instead.len() < run.len();
            let mut tokens = tokens.to_vec();
            tokens.splice(run.clone(), instead);
            shorter && self.take_concept(spot, layout::concept(&tokens))
        })
    }

    /// The tokens of the concept at the spot, if its length fits their count.
    fn tokens(&self, spot: Spot) -> Option<Vec<Pair>> {
        let words = match spot {
            Spot::Record(place) => self.words(place),
            Spot::View(view) => self.views().get(view)?.clone(),
        };
        Some(CONCEPT.entries(&words)?.collect())
    }

    fn take_concept(&mut self, spot: Spot, words: Vec<u16>) -> bool {
        match spot {
            Spot::Record(place) => self.take(place, words),
            Spot::View(view) => {
                let mut views = self.views();
                views[view] = words;
                self.take(Place::Catalogue, layout::catalogue(&views))
            }
        }
    }

    /// The records of the catalogue's views; none if it is laid out in another way.
    fn views(&self) -> Vec<Vec<u16>> {
        let views = layout::views(&self.call.catalogue).unwrap_or_default();
        views.into_iter().map(Vec::from).collect()
    }

    /// Drops views: halves first, single ones last.
    fn drop_views(&mut self) -> bool {
        let mut helped = false;
        let mut run = self.views().len();
        while run > 0 {
            let mut at = 0;
            while at < self.views().len() {
                let mut views = self.views();
                views.drain(at..views.len().min(at + run));
                let dropped = self.take(Place::Catalogue, layout::catalogue(&views));
                helped |= dropped;
                at += if dropped { 0 } else { run };
            }
            run /= 2;
        }
        helped
    }

    fn replace_views(&mut self) -> bool {
        let views = 0..self.views().len();
        views.fold(false, |helped, view| {
            self.replace_tokens(Spot::View(view)) | helped
        })
    }

    /// Drops declared constants, with all that is said of them.
    fn drop_constants(&mut self) -> bool {
        let signature = Signature::of(&self.call.schema).unwrap_or_default();
        let constants = (0..signature.constants.min(u16::BITS as u16)).rev();
        constants.fold(false, |helped, constant| {
            let call = without_constant(&self.call, constant);
            call.is_some_and(|call| self.take_call(call)) | helped
        })
    }

    /// Drops marks, with the facts of them.
    fn drop_marks(&mut self) -> bool {
        (0..MAX_MARKS).rev().fold(false, |helped, mark| {
            let call = without_mark(&self.call, mark);
            call.is_some_and(|call| self.take_call(call)) | helped
        })
    }

    /// Drops single words, which only a damaged record can spare.
    fn drop_words(&mut self, place: Place) -> bool {
        let mut helped = false;
        for at in (0..self.words(place).len()).rev() {
            let mut words = self.words(place);
            words.remove(at);
            helped |= self.take(place, words);
        }
        helped
    }

    /// Puts 0 for a word, or one less than it.
    fn lower_words(&mut self, place: Place) -> bool {
        let mut helped = false;
        for at in 0..self.words(place).len() {
            let word = self.words(place)[at];
            for lower in [0, word / 256 * 256, word.saturating_sub(1)] {
                let mut words = self.words(place);
                let lowers = lower < words[at];
                words[at] = lower;
                helped |= lowers && self.take(place, words);
            }
        }
        helped
    }

    fn lower_attribute(&mut self) -> bool {
        let attribute = self.call.attribute.into();
        self.lower_number(attribute, |call, lower| call.attribute = word(lower))
    }

    fn lend_fewer(&mut self) -> bool {
        self.lower_number(self.call.lent, |call, fewer| call.lent = fewer)
    }

    fn lend_less_order(&mut self) -> bool {
        self.lower_number(self.call.order, |call, fewer| call.order = fewer)
    }

    /// Puts 0, half or one less for a number of the call.
    fn lower_number(&mut self, number: usize, put: fn(&mut Call, usize)) -> bool {
        let lowered = [0, number / 2, number.saturating_sub(1)];
        lowered.iter().any(|&lower| {
            let mut call = self.call.clone();
            put(&mut call, lower);
            lower < number && self.take_call(call)
        })
    }
}

/// Whether a state's count of class facts is right, if its length fits its facts.
fn is_counted(state: &[u16]) -> Option<bool> {
    let facts = STATE.entries(state)?;
    Some(usize::from(state[CLASS_FACTS]) == class_facts(facts))
}

/// How many of the facts are of classes.
fn class_facts(facts: impl Iterator<Item = Pair>) -> usize {
    facts.filter(|&fact| fact::is_class_fact(fact)).count()
}

/// The call without a constant, for which everything stands, if the schema's
/// length fits its axioms. Those after it are numbered anew.
fn without_constant(call: &Call, dropped: u16) -> Option<Call> {
    let declared = Signature::of(&call.schema)?;
    let axioms: Vec<Pair> = SCHEMA.entries(&call.schema)?.collect();
    let before = (1 << dropped) - 1;
    let signature = Signature {
        constants: declared.constants - 1,
        loose: declared.loose & before | declared.loose >> 1 & !before,
        ..declared
    };
    let mut call = call.clone();
    call.schema = layout::schema(signature, &axioms);
    let kinds = fact::CONSTANT_KINDS..fact::MARK_KINDS;
    drop_number(&mut call, CONSTANT, kinds, dropped);
    Some(call)
}

/// The call without a mark, for which everything stands, if a token or a fact is of
/// that mark or of a later one, which is numbered anew.
fn without_mark(call: &Call, dropped: u16) -> Option<Call> {
    let mut fewer = call.clone();
    let kinds = fact::MARK_KINDS..fact::FACT_KINDS;
    drop_number(&mut fewer, MARK, kinds, dropped);
    let places = call.entry.places.iter();
    let mut records = places.map(|&place| (call.record(place), fewer.record(place)));
    records
        .any(|(before, after)| before != after)
        .then_some(fewer)
}

/// Drops what tokens of the sort and facts of the kinds say of a number, and numbers
/// the later ones anew.
fn drop_number(call: &mut Call, sort: u16, kinds: Range<u16>, dropped: u16) {
    let views = layout::views(&call.catalogue).unwrap_or_default();
    let mut views: Vec<Vec<u16>> = views.into_iter().map(Vec::from).collect();
    let concepts = views.iter_mut().chain([&mut call.query, &mut call.view]);
    for concept in concepts {
        alter_entries(&CONCEPT, concept, |token| {
            Some(token_without(token, sort, dropped))
        });
    }
    if !views.is_empty() {
        call.catalogue = layout::catalogue(&views);
    }
    alter_entries(&STATE, &mut call.state, |fact| {
        fact_without(fact, &kinds, dropped)
    });
}

/// Puts others for the entries, or none, if the record's length fits their count.
fn alter_entries(layout: &Layout, words: &mut Vec<u16>, alter: impl Fn(Pair) -> Option<Pair>) {
    if let Some(entries) = layout.entries(words) {
        let entries: Vec<Pair> = entries.filter_map(alter).collect();
        *words = layout.record(words, &entries);
    }
}

fn token_without(token: Pair, sort: u16, dropped: u16) -> Pair {
    match token {
        (found, number) if found == sort && number == dropped => EVERYTHING,
        (found, number) if found == sort && number > dropped => (sort, number - 1),
        token => token,
    }
}

fn fact_without(fact: Pair, kinds: &Range<u16>, dropped: u16) -> Option<Pair> {
    let kind = fact::kind(fact);
    if !kinds.contains(&kind) || kind < kinds.start + dropped {
        return Some(fact);
    }
    // As if it were of a class: kinds begin with the classes.
    let (left, _) = fact::member(kind - 1, fact::object(fact));
    (kind > kinds.start + dropped).then_some((left, fact.1))
}
