//! Frames to the model: every name is looked up, and what the language forbids
//! beyond its grammar is told with its place.

mod inlined;
mod marks;
mod query;
mod schema;
mod scope;
mod state;

use crate::fault::Fault;
use crate::model::{File, Name, Names};
use crate::near::hint;
use crate::source::{Source, Span};
use crate::syntax::{Frame, Role};
use bikuvoa::{Attribute, Class, Constant};
use scope::{Scope, What};

/// A file of which so much is resolved, and its names.
pub struct Resolver {
    pub file: File,
    scope: Scope,
}

impl Resolver {
    /// Declares all that the frames declare, and states the axioms.
    pub fn new(source: Source, frames: &[Frame]) -> Result<Self, Fault> {
        let file = File {
            source,
            names: Names::default(),
            axioms: Vec::new(),
            queries: Vec::new(),
            states: Vec::new(),
        };
        let scope = Scope::default();
        let mut resolver = Resolver { file, scope };
        resolver.declare(frames)?;
        resolver.state_axioms(frames)?;
        Ok(resolver)
    }

    fn fault(&self, span: Span, message: impl Into<String>) -> Fault {
        Fault::at(&self.file.source, span, message)
    }

    fn line(&self, span: Span) -> usize {
        self.file.source.place(span).line
    }

    fn class(&self, name: &Name) -> Result<Class, Fault> {
        match self.scope.framed(&name.text) {
            Some(What::Class(class)) => Ok(class),
            _ => Err(self.unknown(name, "class", |what| matches!(what, What::Class(_)))),
        }
    }

    fn attribute(&self, name: &Name) -> Result<Attribute, Fault> {
        match self.scope.attribute(&name.text) {
            Some(What::Attribute(attribute)) => Ok(attribute),
            _ => Err(self.unknown(name, "attribute", |what| matches!(what, What::Attribute(_)))),
        }
    }

    fn constant(&self, name: &Name) -> Result<Constant, Fault> {
        match self.scope.constant(&name.text) {
            Some(constant) => Ok(constant),
            None => Err(self.unknown(name, "constant", |what| matches!(what, What::Constant(_)))),
        }
    }

    /// The attribute, and whether it is gone against its direction.
    fn role(&self, role: &Role) -> Result<(Attribute, bool), Fault> {
        let name = &role.name;
        match self.scope.attribute(&name.text) {
            Some(What::Attribute(attribute)) => Ok((attribute, role.against)),
            Some(What::Inverse(attribute)) if !role.against => Ok((attribute, true)),
            Some(What::Inverse(attribute)) => {
                let (inverse, forward) = (&name.text, self.file.names.attribute(attribute));
                let message =
                    format!("`{inverse}` is an inverse name and takes no `^`; write `{forward}`");
                Err(self.fault(name.span, message))
            }
            _ => Err(self.unknown(name, "attribute", What::is_role)),
        }
    }

    /// The fault that nothing of the wanted sort has the name.
    fn unknown(&self, name: &Name, wanted: &str, is_wanted: fn(What) -> bool) -> Fault {
        let text = &name.text;
        let message = match self.scope.any(text) {
            Some(what) => {
                let (is, wanted) = (what.noun(), with_article(wanted));
                format!("`{text}` is {is}; {wanted} is expected here")
            }
            None => {
                let hint = hint(text, self.scope.names(is_wanted));
                format!("no {wanted} is called `{text}`{hint}")
            }
        };
        self.fault(name.span, message)
    }
}

fn with_article(noun: &str) -> String {
    let article = if noun.starts_with(['a', 'i', 'o']) {
        "an"
    } else {
        "a"
    };
    format!("{article} {noun}")
}

/// The number as in `21st`, with a comma between thousands.
fn ordinal(number: usize) -> String {
    let ending = match (number % 10, number % 100) {
        (_, 11..=13) => "th",
        (1, _) => "st",
        (2, _) => "nd",
        (3, _) => "rd",
        _ => "th",
    };
    format!("{}{ending}", grouped(number))
}

/// The number with a comma between thousands.
fn grouped(number: usize) -> String {
    if number < 1000 {
        return number.to_string();
    }
    format!("{},{:03}", grouped(number / 1000), number % 1000)
}
