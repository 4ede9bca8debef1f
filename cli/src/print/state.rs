//! States as text: a line for each object, then the objects of the constants and
//! of the marks.

use super::concept;
use crate::model::{File, StateFrame};
use bikuvoa::layout::Pair;
use bikuvoa::{Attribute, Fact, Mark, Object};

/// The state's frame. It is `for` a query if it says which objects the query's marks
/// are.
pub fn state(file: &File, state: &StateFrame) -> String {
    let mut lines = Lines::new(file, state);
    for fact in ascending(state) {
        lines.say(fact);
    }
    let header = match lines.query {
        Some(query) if lines.has_choices => format!("{} for {query}", state.name.text),
        _ => state.name.text.clone(),
    };
    let objects = state.objects.iter().zip(&lines.objects);
    let objects = objects.map(|(name, said)| format!("  {}{}\n", name.text, said.text()));
    let body: String = objects.chain(lines.called).collect();
    format!("State {header}\n{body}end {}\n", state.name.text)
}

/// Each fact once, as in the record.
fn ascending(state: &StateFrame) -> impl Iterator<Item = Fact> {
    let mut facts: Vec<Pair> = state.facts.iter().map(|(fact, _)| fact.words()).collect();
    facts.sort_unstable();
    facts.dedup();
    facts.into_iter().filter_map(Fact::from_words)
}

/// What a state says, by the objects.
struct Lines<'a> {
    file: &'a File,
    state: &'a StateFrame,
    query: Option<&'a str>,
    marks: &'a [(String, Mark)],
    has_choices: bool,
    objects: Vec<Said<'a>>,
    called: Vec<String>,
}

/// What is said of one object: its classes, and the values of each attribute with its
/// name, as they are written.
#[derive(Clone, Default)]
struct Said<'a> {
    classes: Vec<&'a str>,
    values: Vec<(Attribute, String)>,
}

impl<'a> Lines<'a> {
    fn new(file: &'a File, state: &'a StateFrame) -> Self {
        let query = state.query.and_then(|place| file.queries.get(place));
        Lines {
            file,
            state,
            query: query.map(|query| query.name.text.as_str()),
            marks: query.map_or(&[], concept::marks),
            has_choices: false,
            objects: vec![Said::default(); state.objects.len()],
            called: Vec::new(),
        }
    }

    fn say(&mut self, fact: Fact) {
        let names = &self.file.names;
        match fact {
            Fact::Member { class, object } => {
                let said = &mut self.objects[usize::from(object.0)];
                said.classes.push(names.class(class));
            }
            Fact::Pair {
                attribute,
                first,
                second,
            } => {
                let value = self.name(second);
                let said = &mut self.objects[usize::from(first.0)];
                said.value(attribute, names.attribute(attribute), value);
            }
            Fact::Name { constant, object } => self.call(names.constant(constant), object),
            Fact::Choice { mark, object } => {
                self.call(&concept::mark(self.marks, mark), object);
                self.has_choices = true;
            }
        }
    }

    fn call(&mut self, what: &str, object: Object) {
        let line = format!("  {what} is {}\n", self.name(object));
        self.called.push(line);
    }

    fn name(&self, Object(number): Object) -> &'a str {
        &self.state.objects[usize::from(number)].text
    }
}

impl Said<'_> {
    /// The values of an attribute come one after the other.
    fn value(&mut self, attribute: Attribute, name: &str, value: &str) {
        match self.values.last_mut() {
            Some((last, values)) if *last == attribute => {
                *values += ", ";
                *values += value;
            }
            _ => self.values.push((attribute, format!("{name}: {value}"))),
        }
    }

    fn text(&self) -> String {
        let mut text = String::new();
        if !self.classes.is_empty() {
            text += " in ";
            text += &self.classes.join(", ");
        }
        if !self.values.is_empty() {
            let values: Vec<&str> = self.values.iter().map(|(_, text)| text.as_str()).collect();
            text += " with ";
            text += &values.join("; ");
        }
        text
    }
}
