//! What fails, in words.

use super::fails::{Ends, Lack, Miss};
use super::instance::OBJECT;
use crate::model::{Concept, File, Names, Node, Path, StateFrame, Step};
use crate::print;
use bikuvoa::{Constant, Fact, Object};

/// Of more objects than these only their number is told.
const LISTED: usize = 5;

/// The names of the schema and of the state's objects.
#[derive(Clone, Copy, Debug)]
pub struct Wording<'a> {
    file: &'a File,
    names: &'a Names,
    frame: &'a StateFrame,
}

impl<'a> Wording<'a> {
    pub fn of(file: &'a File, frame: &'a StateFrame) -> Self {
        Wording {
            file,
            names: &file.names,
            frame,
        }
    }

    /// The object's name.
    pub fn object(&self, Object(number): Object) -> &str {
        self.frame
            .objects
            .get(usize::from(number))
            .map_or("object", |name| &name.text)
    }

    /// `a, b and c`.
    fn list(&self, objects: &[Object]) -> String {
        self.joined(objects, "and")
    }

    /// `a, b or c`.
    pub fn any_of(&self, objects: &[Object]) -> String {
        self.joined(objects, "or")
    }

    /// The names of the first ones, and how many more there are.
    fn joined(&self, objects: &[Object], word: &str) -> String {
        let mut names: Vec<String> = objects
            .iter()
            .take(LISTED)
            .map(|&object| self.object(object).to_string())
            .collect();
        if objects.len() > LISTED {
            names.push(format!("{} more", objects.len() - LISTED));
        }
        match names.split_last() {
            Some((last, rest)) if !rest.is_empty() => format!("{} {word} {last}", rest.join(", ")),
            _ => names.concat(),
        }
    }

    /// A part of a view, which has no marks.
    pub fn part(&self, concept: &Concept) -> String {
        match self.meant(concept) {
            Some(name) => format!("isA {name}"),
            None => print::part(self.names, &[], concept),
        }
    }

    /// The query or view that the text names for this concept.
    fn meant(&self, concept: &Concept) -> Option<&str> {
        let name = self.file.source.at(concept.span);
        let named = self.file.query(name)?;
        // What stands inside of it has the same place in the text.
        (named.concept.tokens() == concept.tokens()).then_some(name)
    }

    /// What a step lands on, or a class or constant by itself.
    pub fn landing(&self, concept: &Concept) -> String {
        if let Some(name) = self.meant(concept) {
            return name.to_string();
        }
        match &concept.node {
            Node::Class(class) => self.names.class(*class).to_string(),
            Node::Constant(constant) => format!("{{{}}}", self.names.constant(*constant)),
            Node::Everything => "Object".to_string(),
            Node::All(parts) => {
                let parts: Vec<String> = parts.iter().map(|part| self.landing(part)).collect();
                parts.join(" & ")
            }
            _ => format!("[{}]", self.part(concept)),
        }
    }

    fn step(&self, step: &Step) -> String {
        let path = Path {
            span: step.span,
            steps: vec![step.clone()],
        };
        self.part(&Concept {
            span: step.span,
            node: Node::Reached(path),
        })
    }

    /// The name by which the step goes: against an attribute's direction its inverse.
    fn relation(&self, step: &Step) -> String {
        let attribute = self.names.attribute(step.attribute);
        match self.inverse(step) {
            Some(inverse) => inverse.to_string(),
            None if step.backward => format!("{attribute}^"),
            None => attribute.to_string(),
        }
    }

    fn inverse(&self, step: &Step) -> Option<&str> {
        let names = self.names.attributes.get(usize::from(step.attribute.0))?;
        let inverse = names.inverse.as_ref().filter(|_| step.backward)?;
        Some(&inverse.text)
    }

    /// What the view asks for there.
    pub fn asked(&self, miss: &Miss) -> String {
        match &miss.lack {
            Lack::Being(concept) => self.landing(concept),
            Lack::Value(step) | Lack::Landing(step, _) => self.step(step),
            Lack::Meeting(equation, _) => self.part(equation),
        }
    }

    /// Why that is not so.
    pub fn why(&self, miss: &Miss) -> String {
        match &miss.lack {
            Lack::Being(concept) => self.why_not(&miss.objects, concept),
            Lack::Value(step) => self.why_no_value(&miss.objects, step),
            Lack::Landing(step, values) => {
                let objects = self.list(&miss.objects);
                let none = if values.len() > 1 {
                    "none in"
                } else {
                    "not in"
                };
                let relation = self.relation(step);
                let (values, landing) = (self.list(values), self.landing(&step.landing));
                format!("{relation} of {objects}: {values}, {none} {landing}")
            }
            Lack::Meeting(_, ends) => self.why_apart(&miss.objects, ends),
        }
    }

    fn why_apart(&self, objects: &[Object], ends: &[Ends]) -> String {
        let from = self.list(objects);
        let [Ends { left, right }] = ends else {
            return format!("from each of {from} the two sides lead to different objects");
        };
        let (left, right) = (self.list(left), self.list(right));
        let sides = format!("one side leads to {left}, the other to {right}");
        match objects {
            // Of the object that all is about this need not be said.
            [OBJECT] => sides,
            _ => format!("from {from} {sides}"),
        }
    }

    fn why_not(&self, objects: &[Object], concept: &Concept) -> String {
        let (names, landing) = (self.list(objects), self.landing(concept));
        match &concept.node {
            Node::Constant(constant) => {
                let named = self.named(*constant).map(|object| self.object(object));
                let named = named.unwrap_or("another object");
                format!("{landing} is {named}, not {}", self.any_of(objects))
            }
            _ if objects.len() > 1 => format!("{names} are not in {landing}"),
            _ => format!("{names} is not in {landing}"),
        }
    }

    fn why_no_value(&self, objects: &[Object], step: &Step) -> String {
        let several = objects.len() > 1;
        let names = self.list(objects);
        let attribute = self.names.attribute(step.attribute);
        match (step.backward && self.inverse(step).is_none(), several) {
            (true, false) => format!("{names} is no value of {attribute}"),
            (true, true) => format!("{names} are no values of {attribute}"),
            (false, false) => format!("{names} has no value of {}", self.relation(step)),
            (false, true) => format!("{names} have no value of {}", self.relation(step)),
        }
    }

    /// The object that the constant names.
    pub fn named(&self, wanted: Constant) -> Option<Object> {
        self.frame.facts.iter().find_map(|(fact, _)| match fact {
            Fact::Name { constant, object } if *constant == wanted => Some(*object),
            _ => None,
        })
    }
}
