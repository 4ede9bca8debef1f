//! Which word of a refused record is at fault. The library says what is refused;
//! where, is found by asking it about parts of the record.

use super::Role;
use bikuvoa::layout::{self, fact, token, Layout, Pair, Signature};
use bikuvoa::layout::{CLASS_FACTS, CONCEPT, LOOSE, SCHEMA, STATE, STEPS};
use bikuvoa::{catalogue, check_concept, check_query, check_view};
use bikuvoa::{Refusal, Schema, State, Token};

/// The sort of a record, with the schema that it was checked with.
#[derive(Clone, Copy, Debug)]
pub enum Sort<'a> {
    Schema,
    Concept { schema: &'a [u16], role: Role },
    State { schema: &'a [u16] },
    Catalogue { schema: &'a [u16] },
}

/// What of a record is at fault.
#[derive(Clone, Copy, Debug, PartialEq, Eq)]
pub enum Spot {
    Whole,
    /// A size word, from 0.
    Size(usize),
    /// An axiom, token or fact, or a view of a catalogue, from 0.
    Entry(usize),
}

impl Sort<'_> {
    /// The shape of such a record; a catalogue has another one.
    pub(super) fn layout(self) -> Option<Layout> {
        match self {
            Sort::Schema => Some(SCHEMA),
            Sort::Concept { .. } => Some(CONCEPT),
            Sort::State { .. } => Some(STATE),
            Sort::Catalogue { .. } => None,
        }
    }

    /// What the library says of such a record.
    fn refusal(self, words: Vec<u16>) -> Option<Refusal> {
        match self {
            Sort::Schema => Schema::from_words(words).err(),
            Sort::Concept { schema, role } => match role {
                Role::Plain => check_concept(schema, &words).err(),
                Role::Query => check_query(schema, &words).err(),
                Role::View => check_view(schema, &words).err(),
            },
            Sort::State { schema } => Schema::from_words(schema.to_vec())
                .and_then(|schema| State::from_words(&schema, words))
                .err(),
            Sort::Catalogue { schema } => catalogue(schema, &words).err(),
        }
    }
}

/// What of the record, which was refused so, is at fault.
pub fn spot(sort: Sort, words: &[u16], refusal: Refusal) -> Spot {
    let Some(layout) = sort.layout() else {
        return in_catalogue(sort, words, refusal);
    };
    let Some(sizes) = words.get(..layout.sizes) else {
        return Spot::Whole;
    };
    let entries = layout.entries(words).into_iter().flatten();
    let record = Record {
        sort,
        layout,
        sizes,
        entries: entries.collect(),
    };
    match refusal {
        Refusal::BAD_SCHEMA_SHAPE | Refusal::BAD_CONCEPT_SHAPE | Refusal::BAD_STATE_SHAPE => {
            Spot::Size(record.size(refusal))
        }
        Refusal::BAD_AXIOM | Refusal::BAD_TOKEN | Refusal::BAD_FACT | Refusal::BAD_ORDER => {
            record.first(0, refusal)
        }
        Refusal::BAD_LOOSE => Spot::Size(LOOSE),
        Refusal::BAD_CLASS_FACTS => Spot::Size(CLASS_FACTS),
        Refusal::BAD_PILE => record.pile(),
        Refusal::BAD_STEPS => record.steps(),
        Refusal::BAD_CONSTANTS => record.constants(),
        _ => Spot::Whole,
    }
}

/// The first view that is refused so, or the count of views.
fn in_catalogue(sort: Sort, words: &[u16], refusal: Refusal) -> Spot {
    let (Sort::Catalogue { schema }, Some(&count)) = (sort, words.first()) else {
        return Spot::Whole;
    };
    if refusal == Refusal::BAD_CATALOGUE {
        let everything = layout::concept(&[token::EVERYTHING]);
        let views = layout::catalogue(&vec![everything; count.into()]);
        return match sort.refusal(views) == Some(refusal) {
            true => Spot::Size(0),
            false => Spot::Whole,
        };
    }
    let views = layout::views(words).unwrap_or_default();
    let refused = |view: &&[u16]| check_view(schema, view).err() == Some(refusal);
    let place = views.iter().position(refused);
    place.map_or(Spot::Whole, Spot::Entry)
}

/// A record that is not cut off within its size words. It has no entries if their
/// count does not fit.
struct Record<'a> {
    sort: Sort<'a>,
    layout: Layout,
    sizes: &'a [u16],
    entries: Vec<Pair>,
}

impl Record<'_> {
    /// What the library says of the size words with these entries.
    fn asked(&self, sizes: &[u16], entries: &[Pair]) -> Option<Refusal> {
        self.sort.refusal(self.layout.record(sizes, entries))
    }

    /// The size that is refused also where all others are 0, or else the count of
    /// the entries, which is right in every record that is asked about.
    fn size(&self, refusal: Refusal) -> usize {
        let few: &[Pair] = match self.sort {
            Sort::Concept { .. } => &[token::EVERYTHING],
            _ => &[],
        };
        let is_refused = |(place, &size): &(usize, &u16)| {
            let mut alone = vec![0; self.layout.sizes];
            alone[*place] = size;
            self.asked(&alone, few) == Some(refusal)
        };
        let mut refused = self.sizes.iter().enumerate().filter(is_refused);
        refused
            .next()
            .map_or(self.layout.counter, |(place, _)| place)
    }

    /// The last of the fewest entries that are refused so, where these many are not.
    fn first(&self, accepted: usize, refusal: Refusal) -> Spot {
        let is_refused = |count: usize| {
            let some = self.entries.get(..count).unwrap_or(&self.entries);
            self.asked(self.sizes, some) == Some(refusal)
        };
        let (mut low, mut high) = (accepted, self.entries.len());
        if low >= high || !is_refused(high) {
            return Spot::Whole;
        }
        while high - low > 1 {
            let middle = low + (high - low) / 2;
            if is_refused(middle) {
                high = middle;
            } else {
                low = middle;
            }
        }
        Spot::Entry(high - 1)
    }

    /// The first token that does not find what it takes. The library cannot be asked
    /// for this: the first tokens of a concept are none.
    fn pile(&self) -> Spot {
        const CONCEPT: bool = false;
        const PATH: bool = true;
        let mut pile: Vec<bool> = Vec::new();
        for (place, &words) in self.entries.iter().enumerate() {
            let (takes, puts): (&[bool], bool) = match Token::from_words(words) {
                Some(Token::Empty) => (&[], PATH),
                Some(Token::Both) => (&[CONCEPT, CONCEPT], CONCEPT),
                Some(Token::Forward(_) | Token::Backward(_)) => (&[PATH, CONCEPT], PATH),
                Some(Token::Reached) => (&[PATH], CONCEPT),
                Some(Token::Common) => (&[PATH, PATH], CONCEPT),
                _ => (&[], CONCEPT),
            };
            if !pile.ends_with(takes) {
                return Spot::Entry(place);
            }
            pile.truncate(pile.len() - takes.len());
            pile.push(puts);
        }
        Spot::Whole
    }

    /// The count of the steps, or if they are too many the first above the limit.
    fn steps(&self) -> Spot {
        let counted = layout::concept(&self.entries);
        let Sort::Concept { role, .. } = self.sort else {
            return Spot::Whole;
        };
        if self.sort.refusal(counted).is_none() {
            return Spot::Size(STEPS);
        }
        let entries = self.entries.iter().enumerate();
        let mut steps = entries.filter(|&(_, &entry)| token::is_step(entry));
        let above = steps.nth(role.most_steps());
        above.map_or(Spot::Size(STEPS), |(place, _)| Spot::Entry(place))
    }

    /// The fact of a constant or a mark that has several, or of a constant whose
    /// object is another's.
    fn constants(&self) -> Spot {
        let kinds_below = |kind: u16| {
            self.entries
                .iter()
                .filter(move |&&entry| fact::kind(entry) < kind)
        };
        let signature = match self.sort {
            Sort::State { schema } => Signature::of(schema).unwrap_or_default(),
            _ => Signature::default(),
        };
        let objects = layout::objects(self.sizes).unwrap_or_default();
        for constants in 1..=signature.constants {
            let kind = fact::CONSTANT_KINDS.saturating_add(constants);
            let facts: Vec<Pair> = kinds_below(kind).copied().collect();
            if !accepts(signature, constants, layout::state(objects, &facts)) {
                let before = kinds_below(kind - 1).count();
                return match facts.len() > before {
                    true => Spot::Entry(facts.len() - 1),
                    false => Spot::Whole,
                };
            }
        }
        self.first(
            kinds_below(fact::MARK_KINDS).count(),
            Refusal::BAD_CONSTANTS,
        )
    }
}

/// Whether the library accepts the state, without marks, where only the first
/// constants are declared.
fn accepts(signature: Signature, constants: u16, state: Vec<u16>) -> bool {
    let declared = 1u16
        .checked_shl(constants.into())
        .unwrap_or(0)
        .wrapping_sub(1);
    let fewer = Signature {
        constants,
        loose: signature.loose & declared,
        ..signature
    };
    let schema = Schema::from_words(layout::schema(fewer, &[]));
    schema.is_ok_and(|schema| State::from_words(&schema, state).is_ok())
}
