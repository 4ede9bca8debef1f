//! What a builder does not build.

use crate::concept::Mark;
use crate::schema::Constant;
use crate::state::Object;
use std::error::Error;
use std::fmt;

/// What a record is made of.
#[derive(Clone, Copy, Debug, PartialEq, Eq, Hash)]
pub enum Item {
    Class,
    Attribute,
    Constant,
    Mark,
    Axiom,
    Token,
    Step,
    Object,
    Fact,
}

/// Why a builder turned something down. Whatever it takes makes a record that
/// the library accepts.
#[derive(Clone, Debug, PartialEq, Eq)]
#[non_exhaustive]
pub enum BuildError {
    /// More than the limit.
    TooMany { what: Item, limit: usize },
    /// A number that is not below the count of what is declared, of the objects, or
    /// of the marks.
    Undeclared { what: Item, number: u16 },
    /// A name that is not declared.
    UnknownName { what: Item, name: String },
    /// A name that is declared already.
    NameTaken { what: Item, name: String },
    /// The constant names another object already.
    NamesTwo(Constant),
    /// Another constant names the object already, and neither of the two is loose.
    NamedByTwo(Object),
    /// The state is complete but for the constant's object.
    NamesNone(Constant),
    /// The mark is another object already.
    TwoChoices(Mark),
    /// A query may have marks, and a view none.
    MarkInView(Mark),
}

impl fmt::Display for Item {
    fn fmt(&self, f: &mut fmt::Formatter) -> fmt::Result {
        f.write_str(match self {
            Item::Class => "class",
            Item::Attribute => "attribute",
            Item::Constant => "constant",
            Item::Mark => "mark",
            Item::Axiom => "axiom",
            Item::Token => "token",
            Item::Step => "step",
            Item::Object => "object",
            Item::Fact => "fact",
        })
    }
}

impl fmt::Display for BuildError {
    fn fmt(&self, f: &mut fmt::Formatter) -> fmt::Result {
        match self {
            BuildError::TooMany { what, limit } => {
                let plural = if *what == Item::Class { "es" } else { "s" };
                write!(f, "there may be at most {limit} {what}{plural}")
            }
            BuildError::Undeclared { what, number } => write!(f, "there is no {what} {number}"),
            BuildError::UnknownName { what, name } => write!(f, "no {what} is named {name:?}"),
            BuildError::NameTaken { what, name } => {
                write!(f, "{what} {name:?} is declared already")
            }
            BuildError::NamesTwo(Constant(number)) => {
                write!(f, "constant {number} names another object already")
            }
            BuildError::NamedByTwo(Object(number)) => {
                write!(
                    f,
                    "object {number} is another constant's already, and neither is loose"
                )
            }
            BuildError::NamesNone(Constant(number)) => {
                write!(f, "constant {number} names no object")
            }
            BuildError::TwoChoices(Mark(number)) => {
                write!(f, "mark {number} is another object already")
            }
            BuildError::MarkInView(Mark(number)) => {
                write!(f, "mark {number} may stand in a query, and in no view")
            }
        }
    }
}

impl Error for BuildError {}
