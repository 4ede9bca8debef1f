//! Text from a model: valid input again, with the same records.

mod concept;
mod state;

use crate::model::{AttributeNames, Concept, ConstantName, File, Name, Names, QueryClass};
use bikuvoa::{Axiom, Mark};
use concept::Printer;

pub use state::state;

/// The whole file. Each axiom has a line of its own, also where a frame stated it.
pub fn file(file: &File) -> String {
    let mut blocks = vec![declarations(&file.names), axioms(file)];
    blocks.extend(file.queries.iter().map(|query| frame(&file.names, query)));
    blocks.extend(file.states.iter().map(|frame| state(file, frame)));
    blocks.retain(|block| !block.is_empty());
    blocks.join("\n")
}

/// The axiom as it stands after the word `axiom`.
pub fn axiom(names: &Names, axiom: Axiom) -> String {
    let of = |class| names.class(class);
    let by = |attribute| names.attribute(attribute);
    match axiom {
        Axiom::Subclass { class, superclass } => format!("{} isA {}", of(class), of(superclass)),
        Axiom::Typing {
            class,
            attribute,
            values,
        } => {
            let (class, values) = (of(class), of(values));
            format!("{class} types {}: {values}", by(attribute))
        }
        Axiom::Necessary { class, attribute } => format!("{} needs {}", of(class), by(attribute)),
        Axiom::Single { class, attribute } => format!("{} single {}", of(class), by(attribute)),
        Axiom::Relates {
            attribute,
            domain,
            range,
        } => {
            let (domain, range) = (of(domain), of(range));
            format!("{} relates {domain} to {range}", by(attribute))
        }
    }
}

/// One part of a concept as a reader would say it, with the paths of an equation
/// written out.
pub fn part(names: &Names, marks: &[(String, Mark)], part: &Concept) -> String {
    Printer { names, marks }.part(part)
}

fn declarations(names: &Names) -> String {
    let classes = names.classes.iter().map(|class| {
        let name = &class.text;
        format!("Class {name} end {name}\n")
    });
    let attributes = names.attributes.iter().map(attribute);
    let constants = names.constants.iter().map(constant);
    classes.chain(attributes).chain(constants).collect()
}

fn attribute(AttributeNames { name, inverse }: &AttributeNames) -> String {
    let name = &name.text;
    match inverse {
        None => format!("Attribute {name} end {name}\n"),
        Some(Name { text, .. }) => format!("Attribute {name} with inverse: {text} end {name}\n"),
    }
}

fn constant(ConstantName { name, loose }: &ConstantName) -> String {
    let loose = if *loose { " loose" } else { "" };
    format!("Constant {}{loose}\n", name.text)
}

fn axioms(file: &File) -> String {
    let stated = file.axioms.iter();
    let lines = stated.map(|stated| format!("axiom {}\n", axiom(&file.names, stated.axiom)));
    lines.collect()
}

fn frame(names: &Names, query: &QueryClass) -> String {
    let marks = concept::marks(query);
    let sort = if query.is_view { "View" } else { "QueryClass" };
    let body = Printer { names, marks }.body(&query.concept).in_frame();
    format!("{sort} {name} {body}end {name}\n", name = query.name.text)
}
