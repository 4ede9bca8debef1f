//! Refused calls.

use std::error::Error;
use std::fmt;

/// The first of the library's refusals that applies to a call.
#[derive(Clone, Copy, Debug, PartialEq, Eq, PartialOrd, Ord, Hash)]
pub struct Refusal(u16);

impl Refusal {
    pub const BAD_SCHEMA_SHAPE: Refusal = Refusal(1);
    pub const BAD_AXIOM: Refusal = Refusal(2);
    pub const BAD_CONCEPT_SHAPE: Refusal = Refusal(3);
    pub const BAD_TOKEN: Refusal = Refusal(4);
    pub const BAD_PILE: Refusal = Refusal(5);
    pub const BAD_STEPS: Refusal = Refusal(6);
    pub const BAD_STATE_SHAPE: Refusal = Refusal(7);
    pub const BAD_FACT: Refusal = Refusal(8);
    pub const BAD_ORDER: Refusal = Refusal(9);
    pub const BAD_CONSTANTS: Refusal = Refusal(10);
    pub const FEW_LENT_WORDS: Refusal = Refusal(11);
    pub const BAD_ATTRIBUTE: Refusal = Refusal(12);
    pub const BAD_CATALOGUE: Refusal = Refusal(13);
    /// Looked for directly after [`Refusal::BAD_SCHEMA_SHAPE`].
    pub const BAD_LOOSE: Refusal = Refusal(14);
    /// Looked for directly after [`Refusal::BAD_ORDER`].
    pub const BAD_CLASS_FACTS: Refusal = Refusal(15);

    /// The refusal with the highest number.
    pub const LAST: Refusal = Refusal::BAD_CLASS_FACTS;

    /// The refusal's number, from 1 on.
    pub const fn number(self) -> u16 {
        self.0
    }

    /// What a returned number means: 0 is no refusal.
    pub(crate) fn check(returned: u16) -> Result<(), Refusal> {
        match returned {
            0 => Ok(()),
            number => Err(Refusal(number)),
        }
    }

    /// As `check`, of a call that was made to be refused as `later`: that says
    /// that all before it is accepted.
    pub(crate) fn check_before(later: Refusal, returned: u16) -> Result<(), Refusal> {
        Refusal::check(returned).or_else(|refusal| {
            if refusal == later {
                Ok(())
            } else {
                Err(refusal)
            }
        })
    }

    /// The header's text (tests/header.rs holds it to that).
    fn text(self) -> &'static str {
        match self {
            Refusal::BAD_SCHEMA_SHAPE => {
                "schema: cut off, a size above its limit, or a length that does not fit the count of axioms"
            }
            Refusal::BAD_AXIOM => {
                "schema: an axiom of unknown kind, or with a class or attribute that is not declared"
            }
            Refusal::BAD_CONCEPT_SHAPE => {
                "query or view: cut off, no token, too many, or a length that does not fit the count of tokens"
            }
            Refusal::BAD_TOKEN => {
                "query or view: a token of unknown sort, with an argument that is not declared or should be 0, or a mark where none may be"
            }
            Refusal::BAD_PILE => {
                "query or view: a token without the concepts or paths that it takes, or not one concept at the end"
            }
            Refusal::BAD_STEPS => {
                "query or view: a false count of steps, or more steps than it may have"
            }
            Refusal::BAD_STATE_SHAPE => {
                "state: cut off, a size above its limit, or a length that does not fit the count of facts"
            }
            Refusal::BAD_FACT => {
                "state: a fact of a kind that is not declared or of a mark that is not used, with an object that is not there, or with a right word that should be 0"
            }
            Refusal::BAD_ORDER => {
                "state: facts that do not ascend, or a fact twice"
            }
            Refusal::BAD_CONSTANTS => {
                "state: a declared constant or a used mark without an object or with several, or two constants that are not loose with the same object"
            }
            Refusal::FEW_LENT_WORDS => {
                "lent words: too few"
            }
            Refusal::BAD_ATTRIBUTE => {
                "attribute: not declared"
            }
            Refusal::BAD_CATALOGUE => {
                "catalogue: no view, too many, or a length that does not fit the count and the length words"
            }
            Refusal::BAD_LOOSE => {
                "schema: a constant that is loose and not declared"
            }
            Refusal::BAD_CLASS_FACTS => {
                "state: a false count of class facts"
            }
            // A library later than this crate may have more of them.
            _ => "a refusal that is not known here",
        }
    }
}

impl fmt::Display for Refusal {
    fn fmt(&self, f: &mut fmt::Formatter) -> fmt::Result {
        write!(f, "refused as {}: {}", self.0, self.text())
    }
}

impl Error for Refusal {}
