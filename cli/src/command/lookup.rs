//! What the arguments of a command name in a file, and records that the library
//! accepts in their place.

use super::help::unknown;
use crate::fault::Fault;
use crate::model::{Concept, File, Name, Node, QueryClass, StateFrame};
use crate::refused::{self, Role};
use crate::source::Span;
use bikuvoa::{Attribute, Class, Refusal};

/// The name of the class of all objects.
const OBJECT: &str = "Object";

/// The query or view of that name, or a class or `Object` as a query of its own.
pub fn concept(file: &File, name: &str) -> Result<QueryClass, Fault> {
    if let Some(query) = file.query(name) {
        return Ok(query.clone());
    }
    if name == OBJECT {
        return Ok(query_of(name, Span::default(), Node::Everything));
    }
    let mut classes = (0..).zip(&file.names.classes);
    match classes.find(|(_, class)| class.text == name) {
        Some((number, class)) => Ok(query_of(name, class.span, Node::Class(Class(number)))),
        None if file.state(name).is_some() => Err(Fault::of(format!(
            "`{name}` is a state of {}, and no query or view",
            file.source.name
        ))),
        None => Err(missing(file, "no query or view", name, concepts(file))),
    }
}

fn query_of(name: &str, span: Span, node: Node) -> QueryClass {
    let text = name.to_string();
    QueryClass {
        name: Name { text, span },
        is_view: false,
        concept: Concept { span, node },
        marks: Vec::new(),
    }
}

fn concepts(file: &File) -> impl Iterator<Item = &str> {
    let queries = file.queries.iter().map(|query| &query.name);
    let names = queries.chain(&file.names.classes);
    names.map(|name| name.text.as_str()).chain([OBJECT])
}

pub fn state<'a>(file: &'a File, name: &str) -> Result<&'a StateFrame, Fault> {
    let states = file.states.iter().map(|state| state.name.text.as_str());
    file.state(name)
        .ok_or_else(|| missing(file, "no state", name, states))
}

/// The attribute of that name. The name of an inverse is none: it counts nothing of
/// its own.
pub fn attribute(file: &File, name: &str) -> Result<Attribute, Fault> {
    let attributes = &file.names.attributes;
    let is_called = |known: &Name| known.text == name;
    if let Some(found) = attributes.iter().position(|known| is_called(&known.name)) {
        return Ok(Attribute(found as u16));
    }
    let is_inverse = |inverse: &Option<Name>| inverse.as_ref().is_some_and(is_called);
    if let Some(known) = attributes.iter().find(|known| is_inverse(&known.inverse)) {
        let attribute = &known.name.text;
        return Err(Fault::of(format!(
            "`{name}` is the inverse of an attribute; did you mean `{attribute}`?"
        )));
    }
    let known = attributes.iter().map(|known| known.name.text.as_str());
    Err(missing(file, "no attribute", name, known))
}

/// That the file has no such name.
pub fn missing<'a>(
    file: &File,
    none: &str,
    name: &str,
    known: impl Iterator<Item = &'a str>,
) -> Fault {
    let place = format!(" in {}", file.source.name);
    Fault::of(unknown(none, name, &place, known))
}

/// The query's record, if the library accepts it in this place.
pub fn accepted(file: &File, query: &QueryClass, role: Role) -> Result<Vec<u16>, Fault> {
    let (schema, words) = (file.schema(), query.concept.words());
    let checked = match role {
        Role::Plain => bikuvoa::check_concept(&schema, &words),
        Role::Query => bikuvoa::check_query(&schema, &words),
        Role::View => bikuvoa::check_view(&schema, &words),
    };
    match checked {
        Ok(_) => Ok(words),
        Err(refusal) => Err(refused::concept(file, query, role, refusal)),
    }
}

/// A refusal of records that were all accepted before: the library contradicts
/// itself.
pub fn broken(refusal: Refusal) -> Fault {
    Fault::of(format!(
        "the library is broken: it accepted a record that is now {refusal}"
    ))
}
