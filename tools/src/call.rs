//! A call of an entry, as the words that are passed.

pub use crate::entries::Entry;

use bikuvoa::layout::{Layout, CONCEPT, SCHEMA, STATE};

/// What a caller passes, in the order in which it is checked.
#[derive(Clone, Copy, Debug, PartialEq, Eq)]
pub enum Place {
    Schema,
    Query,
    View,
    Catalogue,
    State,
    Attribute,
    Lent,
    Rows,
    Order,
}

impl Place {
    /// How the place's record is laid out; a catalogue is laid out in its own way,
    /// and an attribute and lent words have no layout.
    pub fn layout(self) -> Option<&'static Layout> {
        match self {
            Place::Schema => Some(&SCHEMA),
            Place::Query | Place::View => Some(&CONCEPT),
            Place::State => Some(&STATE),
            Place::Catalogue | Place::Attribute => None,
            Place::Lent | Place::Rows | Place::Order => None,
        }
    }

    pub fn name(self) -> &'static str {
        match self {
            Place::Schema => "schema",
            Place::Query => "query",
            Place::View => "view",
            Place::Catalogue => "catalogue",
            Place::State => "state",
            Place::Attribute => "attribute",
            Place::Lent => "lent",
            Place::Rows => "rows",
            Place::Order => "order",
        }
    }
}

/// A call; what its entry does not take is not looked at. The concept of
/// check_concept, of select and of the counts of links stands in the place of the
/// query, whose step limit it has, without marks.
#[derive(Clone, Debug)]
pub struct Call {
    pub entry: Entry,
    pub schema: Vec<u16>,
    pub query: Vec<u16>,
    pub view: Vec<u16>,
    pub catalogue: Vec<u16>,
    pub state: Vec<u16>,
    /// The number of an attribute, which need not be declared.
    pub attribute: u16,
    /// How many words are lent; for a catalogue, those of its rows.
    pub lent: usize,
    /// How many words are lent for the order of a catalogue.
    pub order: usize,
}

impl Call {
    /// How many words the records have that the entry takes.
    pub fn words(&self) -> usize {
        let places = self.entry.places.iter();
        let records = places.filter_map(|&place| self.record(place));
        records.map(<[u16]>::len).sum()
    }

    /// The record at a place; an attribute and lent words are none.
    pub fn record(&self, place: Place) -> Option<&[u16]> {
        match place {
            Place::Schema => Some(&self.schema),
            Place::Query => Some(&self.query),
            Place::View => Some(&self.view),
            Place::Catalogue => Some(&self.catalogue),
            Place::State => Some(&self.state),
            Place::Attribute | Place::Lent | Place::Rows | Place::Order => None,
        }
    }

    pub fn record_mut(&mut self, place: Place) -> Option<&mut Vec<u16>> {
        match place {
            Place::Schema => Some(&mut self.schema),
            Place::Query => Some(&mut self.query),
            Place::View => Some(&mut self.view),
            Place::Catalogue => Some(&mut self.catalogue),
            Place::State => Some(&mut self.state),
            Place::Attribute | Place::Lent | Place::Rows | Place::Order => None,
        }
    }
}
