//! States: the facts about some objects.

use crate::calls::counterexample;
use crate::concept::Mark;
use crate::error::{BuildError, Item};
use crate::layout::{self, fact, token, Pair, Signature};
use crate::layout::{MAX_FACTS, MAX_OBJECTS, STATE};
use crate::refusal::Refusal;
use crate::schema::{check, Attribute, Class, Constant, Schema};
use std::collections::{BTreeMap, BTreeSet};

/// An object of a state, by its number.
#[derive(Clone, Copy, Debug, PartialEq, Eq, PartialOrd, Ord, Hash)]
pub struct Object(pub u16);

/// What a state says; what it does not say is not so.
#[derive(Clone, Copy, Debug, PartialEq, Eq, Hash)]
pub enum Fact {
    /// The object is in the class.
    Member { class: Class, object: Object },
    /// The second object is a value of the attribute at the first.
    Pair {
        attribute: Attribute,
        first: Object,
        second: Object,
    },
    /// The constant names the object.
    Name { constant: Constant, object: Object },
    /// The mark is the object.
    Choice { mark: Mark, object: Object },
}

impl Fact {
    /// The fact's left and right word.
    pub fn words(self) -> Pair {
        match self {
            Fact::Member { class, object } => fact::member(class.0, object.0),
            Fact::Pair {
                attribute,
                first,
                second,
            } => fact::pair(attribute.0, first.0, second.0),
            Fact::Name { constant, object } => fact::name(constant.0, object.0),
            Fact::Choice { mark, object } => fact::choice(mark.0, object.0),
        }
    }

    /// The fact with these words, if they are of a known kind.
    pub fn from_words(words: Pair) -> Option<Self> {
        let (kind, object) = (fact::kind(words), Object(fact::object(words)));
        Some(match kind {
            0..fact::ATTRIBUTE_KINDS => Fact::Member {
                class: Class(kind),
                object,
            },
            fact::ATTRIBUTE_KINDS..fact::CONSTANT_KINDS => Fact::Pair {
                attribute: Attribute(kind - fact::ATTRIBUTE_KINDS),
                first: object,
                second: Object(words.1),
            },
            fact::CONSTANT_KINDS..fact::MARK_KINDS => Fact::Name {
                constant: Constant(kind - fact::CONSTANT_KINDS),
                object,
            },
            fact::MARK_KINDS..fact::FACT_KINDS => Fact::Choice {
                mark: Mark(kind - fact::MARK_KINDS),
                object,
            },
            _ => return None,
        })
    }

    /// The mark whose object this says.
    fn mark(self) -> Option<Mark> {
        match self {
            Fact::Choice { mark, .. } => Some(mark),
            _ => None,
        }
    }
}

/// Gathers objects and facts, in any order; a fact may be given twice.
#[derive(Clone, Debug)]
pub struct StateBuilder {
    signature: Signature,
    objects: u16,
    facts: BTreeSet<Pair>,
    names: BTreeMap<Constant, Object>,
    choices: BTreeMap<Mark, Object>,
}

impl StateBuilder {
    /// No objects.
    pub fn new(schema: &Schema) -> Self {
        StateBuilder {
            signature: schema.signature(),
            objects: 0,
            facts: BTreeSet::new(),
            names: BTreeMap::new(),
            choices: BTreeMap::new(),
        }
    }

    /// Adds an object, about which nothing is said yet. The first is
    /// [`Object`]`(0)`, and so forth.
    pub fn object(&mut self) -> Result<Object, BuildError> {
        if self.objects == MAX_OBJECTS {
            return Err(BuildError::TooMany {
                what: Item::Object,
                limit: MAX_OBJECTS.into(),
            });
        }
        self.objects += 1;
        Ok(Object(self.objects - 1))
    }

    /// Says a fact about objects that are there.
    pub fn fact(&mut self, fact: Fact) -> Result<&mut Self, BuildError> {
        match fact {
            Fact::Member { class, object } => {
                self.signature.check_class(class)?;
                self.check_object(object)?;
            }
            Fact::Pair {
                attribute,
                first,
                second,
            } => {
                self.signature.check_attribute(attribute)?;
                self.check_object(first)?;
                self.check_object(second)?;
            }
            Fact::Name { constant, object } => {
                self.signature.check_constant(constant)?;
                self.check_object(object)?;
                self.check_name(constant, object)?;
            }
            Fact::Choice { mark, object } => {
                mark.check()?;
                self.check_object(object)?;
                let known = self.choices.get(&mark);
                if known.is_some_and(|&known| known != object) {
                    return Err(BuildError::TwoChoices(mark));
                }
            }
        }
        let words = fact.words();
        if self.facts.len() == MAX_FACTS && !self.facts.contains(&words) {
            return Err(BuildError::TooMany {
                what: Item::Fact,
                limit: MAX_FACTS,
            });
        }
        self.facts.insert(words);
        match fact {
            Fact::Name { constant, object } => {
                self.names.insert(constant, object);
            }
            Fact::Choice { mark, object } => {
                self.choices.insert(mark, object);
            }
            Fact::Member { .. } | Fact::Pair { .. } => {}
        }
        Ok(self)
    }

    /// Says [`Fact::Member`].
    pub fn member(&mut self, class: Class, object: Object) -> Result<&mut Self, BuildError> {
        self.fact(Fact::Member { class, object })
    }

    /// Says [`Fact::Pair`].
    pub fn pair(
        &mut self,
        attribute: Attribute,
        first: Object,
        second: Object,
    ) -> Result<&mut Self, BuildError> {
        self.fact(Fact::Pair {
            attribute,
            first,
            second,
        })
    }

    /// Says [`Fact::Name`]. Each constant names one object, and different
    /// constants different objects unless one of the two is loose.
    pub fn name(&mut self, constant: Constant, object: Object) -> Result<&mut Self, BuildError> {
        self.fact(Fact::Name { constant, object })
    }

    /// Says [`Fact::Choice`]. Each mark is one object, and different marks may be
    /// the same.
    pub fn choose(&mut self, mark: Mark, object: Object) -> Result<&mut Self, BuildError> {
        self.fact(Fact::Choice { mark, object })
    }

    /// The state so far, if each declared constant names its object. Marks need
    /// not have one: which must depends on the query.
    pub fn build(&self) -> Result<State, BuildError> {
        let mut constants = (0..self.signature.constants).map(Constant);
        if let Some(constant) = constants.find(|constant| !self.names.contains_key(constant)) {
            return Err(BuildError::NamesNone(constant));
        }
        let facts: Vec<Pair> = self.facts.iter().copied().collect();
        Ok(State(layout::state(self.objects, &facts)))
    }

    fn check_object(&self, Object(number): Object) -> Result<(), BuildError> {
        check(Item::Object, number, self.objects)
    }

    fn check_name(&self, constant: Constant, object: Object) -> Result<(), BuildError> {
        let is_loose = |Constant(number)| self.signature.is_loose(number);
        for (&known, &named) in &self.names {
            let may_share = is_loose(known) || is_loose(constant);
            match (known == constant, named == object) {
                (true, false) => return Err(BuildError::NamesTwo(constant)),
                (false, true) if !may_share => return Err(BuildError::NamedByTwo(object)),
                _ => {}
            }
        }
        Ok(())
    }
}

/// A state whose record is accepted under the schema that it was made for. It
/// need not be legal. If it says which objects marks are, it can be a
/// counterexample for a query that uses just these marks, and every other call
/// refuses it.
#[derive(Clone, Debug, PartialEq, Eq, Hash)]
pub struct State(pub(crate) Vec<u16>);

impl State {
    /// The state of a record, which the library checks.
    pub fn from_words(schema: &Schema, words: Vec<u16>) -> Result<Self, Refusal> {
        let state = State(words);
        // Whether a fact of a mark is accepted is up to the query, so this one
        // uses just the marks that have such facts.
        let marks: BTreeSet<Mark> = state.facts().filter_map(Fact::mark).collect();
        let mut tokens = vec![token::EVERYTHING];
        for Mark(number) in marks {
            tokens.extend([token::mark(number), token::BOTH]);
        }
        let query = layout::concept(&tokens);
        let everything = layout::concept(&[token::EVERYTHING]);
        counterexample(schema.words(), &query, &everything, state.words())?;
        Ok(state)
    }

    /// The record.
    pub fn words(&self) -> &[u16] {
        &self.0
    }

    /// How many objects there are.
    pub fn objects(&self) -> u16 {
        layout::objects(&self.0).unwrap_or(0)
    }

    /// The facts in the order of the record: members, pairs, names, choices.
    pub fn facts(&self) -> impl Iterator<Item = Fact> + '_ {
        let entries = STATE.entries(&self.0).into_iter().flatten();
        entries.filter_map(Fact::from_words)
    }

    /// The class facts, which are the first ones: the members of classes. The record
    /// counts them, so the facts after them are not walked.
    pub fn class_facts(&self) -> impl Iterator<Item = Fact> + '_ {
        let count = layout::class_facts(&self.0).unwrap_or(0);
        self.facts().take(count.into())
    }
}
