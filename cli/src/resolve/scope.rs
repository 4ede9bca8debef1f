//! The names of a file. Classes, queries, views and states have one space of names,
//! attributes and their inverses one, and constants one.

use crate::model::Name;
use crate::source::Span;
use bikuvoa::{Attribute, Class, Constant};
use std::collections::BTreeMap;

/// What a name stands for.
#[derive(Clone, Copy, Debug)]
pub enum What {
    Class(Class),
    /// A query or a view by its place among them.
    Query(usize),
    View(usize),
    State,
    Attribute(Attribute),
    /// A name of the attribute against its direction.
    Inverse(Attribute),
    Constant(Constant),
}

impl What {
    pub fn noun(self) -> &'static str {
        match self {
            What::Class(_) => "a class",
            What::Query(_) => "a query",
            What::View(_) => "a view",
            What::State => "a state",
            What::Attribute(_) => "an attribute",
            What::Inverse(_) => "an inverse name",
            What::Constant(_) => "a constant",
        }
    }

    /// Whether a step may go by it.
    pub fn is_role(self) -> bool {
        matches!(self, What::Attribute(_) | What::Inverse(_))
    }

    /// Whether a concept may be made of it.
    pub fn is_member(self) -> bool {
        matches!(self, What::Class(_) | What::Query(_) | What::View(_))
    }
}

type Space = BTreeMap<String, (What, Span)>;

#[derive(Debug, Default)]
pub struct Scope {
    frames: Space,
    attributes: Space,
    constants: Space,
}

impl Scope {
    /// Takes the name, or says what has it already and where.
    pub fn declare(&mut self, name: &Name, what: What) -> Result<(), (What, Span)> {
        let space = match what {
            What::Attribute(_) | What::Inverse(_) => &mut self.attributes,
            What::Constant(_) => &mut self.constants,
            _ => &mut self.frames,
        };
        if let Some(&known) = space.get(&name.text) {
            return Err(known);
        }
        space.insert(name.text.clone(), (what, name.span));
        Ok(())
    }

    /// The class, query, view or state of that name.
    pub fn framed(&self, name: &str) -> Option<What> {
        self.frames.get(name).map(|&(what, _)| what)
    }

    /// The attribute of that name, or the one with that inverse name.
    pub fn attribute(&self, name: &str) -> Option<What> {
        self.attributes.get(name).map(|&(what, _)| what)
    }

    pub fn constant(&self, name: &str) -> Option<Constant> {
        match self.constants.get(name) {
            Some(&(What::Constant(constant), _)) => Some(constant),
            _ => None,
        }
    }

    /// Whatever has that name.
    pub fn any(&self, name: &str) -> Option<What> {
        let spaces = [&self.frames, &self.attributes, &self.constants];
        let mut found = spaces.into_iter().filter_map(|space| space.get(name));
        found.next().map(|&(what, _)| what)
    }

    /// The names of what is wanted.
    pub fn names(&self, is_wanted: impl Fn(What) -> bool) -> impl Iterator<Item = &str> {
        let all = self
            .frames
            .iter()
            .chain(&self.attributes)
            .chain(&self.constants);
        all.filter(move |(_, &(what, _))| is_wanted(what))
            .map(|(name, _)| name.as_str())
    }
}
