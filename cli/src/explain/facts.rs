//! A state as its objects and facts, to leave some out or to number them anew.

use bikuvoa::layout::{self, Pair};
use bikuvoa::{Attribute, Fact, Object, State};

/// The facts ascend, as in a record.
#[derive(Clone, Debug, PartialEq, Eq)]
pub struct Facts {
    pub objects: u16,
    pub facts: Vec<Fact>,
}

/// A pair of an attribute: the first object has the second as a value.
#[derive(Clone, Copy, Debug, PartialEq, Eq, PartialOrd, Ord)]
pub struct Link {
    pub attribute: Attribute,
    pub first: Object,
    pub second: Object,
}

impl Facts {
    pub fn of(state: &State) -> Facts {
        Facts {
            objects: state.objects(),
            facts: state.facts().collect(),
        }
    }

    pub fn words(&self) -> Vec<u16> {
        self.record(|_| true)
    }

    /// The record without the objects of marks, for the calls that take none.
    pub fn without_choices(&self) -> Vec<u16> {
        self.record(|fact| !matches!(fact, Fact::Choice { .. }))
    }

    fn record(&self, keep: impl Fn(&Fact) -> bool) -> Vec<u16> {
        let facts = self.facts.iter().filter(|&fact| keep(fact));
        let facts: Vec<Pair> = facts.map(|fact| fact.words()).collect();
        layout::state(self.objects, &facts)
    }

    pub fn links(&self) -> impl Iterator<Item = Link> + '_ {
        self.facts.iter().filter_map(|&fact| match fact {
            Fact::Pair {
                attribute,
                first,
                second,
            } => Some(Link {
                attribute,
                first,
                second,
            }),
            _ => None,
        })
    }

    /// So many objects, each with the number that `number` gives it; one without a
    /// number is left out, with all that is said of it.
    pub fn numbered(&self, objects: u16, number: impl Fn(Object) -> Option<Object>) -> Facts {
        let renumbered = self.facts.iter().filter_map(|&fact| {
            Some(match fact {
                Fact::Member { class, object } => Fact::Member {
                    class,
                    object: number(object)?,
                },
                Fact::Pair {
                    attribute,
                    first,
                    second,
                } => Fact::Pair {
                    attribute,
                    first: number(first)?,
                    second: number(second)?,
                },
                Fact::Name { constant, object } => Fact::Name {
                    constant,
                    object: number(object)?,
                },
                Fact::Choice { mark, object } => Fact::Choice {
                    mark,
                    object: number(object)?,
                },
            })
        });
        let mut facts: Vec<Fact> = renumbered.collect();
        facts.sort_by_key(|fact| fact.words());
        Facts { objects, facts }
    }
}
