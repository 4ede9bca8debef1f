//! What is counted of schemas and states to see that constants are loose and share
//! objects, and that marks do.

use bikuvoa::layout::{fact, Signature, STATE};
use std::collections::BTreeSet;
use std::fmt;
use std::iter::Sum;
use std::ops::Range;

/// How many schemas were drawn, and how many of them have loose constants.
#[derive(Clone, Copy, Default)]
pub struct Schemas {
    pub drawn: usize,
    pub loose: usize,
}

impl Schemas {
    pub fn count(&mut self, signature: Signature) {
        self.drawn += 1;
        self.loose += usize::from(signature.loose > 0);
    }
}

impl Sum for Schemas {
    fn sum<I: Iterator<Item = Self>>(all: I) -> Self {
        all.fold(Schemas::default(), |sum, schemas| Schemas {
            drawn: sum.drawn + schemas.drawn,
            loose: sum.loose + schemas.loose,
        })
    }
}

impl fmt::Display for Schemas {
    fn fmt(&self, f: &mut fmt::Formatter) -> fmt::Result {
        let Schemas { drawn, loose } = self;
        write!(f, "schemas {drawn}, with loose constants {loose}")
    }
}

/// Whether two constants name one object in the state with which the words begin.
pub fn shares(words: &[u16]) -> bool {
    repeats(words, fact::CONSTANT_KINDS..fact::MARK_KINDS)
}

/// Whether two marks are one object in the state with which the words begin.
pub fn meets(words: &[u16]) -> bool {
    repeats(words, fact::MARK_KINDS..fact::FACT_KINDS)
}

/// Whether two facts of these kinds have one object.
fn repeats(words: &[u16], kinds: Range<u16>) -> bool {
    let record = STATE.length(words).and_then(|length| words.get(..length));
    let Some(facts) = record.and_then(|words| STATE.entries(words)) else {
        return false;
    };
    let mut facts = facts.filter(|&fact| kinds.contains(&fact::kind(fact)));
    let mut objects = BTreeSet::new();
    facts.any(|fact| !objects.insert(fact::object(fact)))
}
