//! States.

use super::scope::What;
use super::{grouped, ordinal, Resolver};
use crate::fault::Fault;
use crate::model::{Name, QueryClass, StateFrame};
use crate::near::{hint, nearest};
use crate::source::Span;
use crate::syntax::{Line, ObjectLine, StateText};
use bikuvoa::layout::{Pair, MAX_FACTS, MAX_OBJECTS};
use bikuvoa::{Constant, Fact, Mark, Object};
use std::collections::{BTreeMap, BTreeSet};

impl Resolver {
    /// The state; all queries of the file are resolved.
    pub fn state(&self, frame: &StateText) -> Result<StateFrame, Fault> {
        let query = match &frame.query {
            Some(name) => Some(self.query_place(name)?),
            None => None,
        };
        let mut told = Told {
            resolver: self,
            name: &frame.name,
            query: query.and_then(|place| self.file.queries.get(place)),
            objects: BTreeMap::new(),
            facts: Vec::new(),
            distinct: BTreeSet::new(),
        };
        let objects = told.objects(&frame.lines)?;
        for line in &frame.lines {
            match line {
                Line::Object(line) => told.object_line(line)?,
                Line::Constant(constant, object) => told.constant_line(constant, object)?,
                Line::Mark(mark, object) => told.mark_line(mark, object)?,
            }
        }
        told.all_constants()?;
        Ok(StateFrame {
            name: frame.name.clone(),
            query,
            objects,
            facts: told.facts,
        })
    }

    fn query_place(&self, name: &Name) -> Result<usize, Fault> {
        let is_query = |what| matches!(what, What::Query(_) | What::View(_));
        match self.scope.framed(&name.text) {
            Some(What::Query(place) | What::View(place)) => Ok(place),
            _ => Err(self.unknown(name, "query", is_query)),
        }
    }
}

/// A state while it is resolved.
struct Told<'a> {
    resolver: &'a Resolver,
    name: &'a Name,
    query: Option<&'a QueryClass>,
    objects: BTreeMap<&'a str, (Object, Span)>,
    facts: Vec<(Fact, Span)>,
    distinct: BTreeSet<Pair>,
}

impl<'a> Told<'a> {
    /// Numbers the objects in the order of their lines.
    fn objects(&mut self, lines: &'a [Line]) -> Result<Vec<Name>, Fault> {
        let mut names = Vec::new();
        for line in lines {
            let Line::Object(ObjectLine { name, .. }) = line else {
                continue;
            };
            let (text, span) = (name.text.as_str(), name.span);
            // Lines have no sign between them, so `o im C` would be three objects.
            if let Some(What::Class(_)) = self.resolver.scope.framed(text) {
                let message = format!("`{text}` is a class, and no object has a class's name; is a word before it misspelt?");
                return Err(self.resolver.fault(span, message));
            }
            let number = match u16::try_from(names.len()) {
                Ok(number) if number < MAX_OBJECTS => number,
                _ => {
                    let (state, nth) = (&self.name.text, ordinal(names.len() + 1));
                    let most = format!("a state has at most {MAX_OBJECTS} objects");
                    let message = format!("`{text}` is the {nth} object of `{state}`; {most}");
                    return Err(self.resolver.fault(span, message));
                }
            };
            if let Some((_, known)) = self.objects.insert(text, (Object(number), span)) {
                let line = self.resolver.line(known);
                let message =
                    format!("the object `{text}` has a line of its own already, line {line}");
                return Err(self.resolver.fault(span, message));
            }
            names.push(name.clone());
        }
        Ok(names)
    }

    fn object(&self, name: &Name) -> Result<Object, Fault> {
        let text = name.text.as_str();
        match self.objects.get(text) {
            Some(&(object, _)) => Ok(object),
            None => {
                let hint = hint(text, self.objects.keys().copied());
                let message = format!("no object of `{}` is called `{text}`{hint}", self.name.text);
                Err(self.resolver.fault(name.span, message))
            }
        }
    }

    fn say(&mut self, fact: Fact, span: Span) -> Result<(), Fault> {
        self.distinct.insert(fact.words());
        if self.distinct.len() > MAX_FACTS {
            let (state, nth) = (&self.name.text, ordinal(self.distinct.len()));
            let most = grouped(MAX_FACTS);
            let message =
                format!("this is the {nth} fact of `{state}`; a state has at most {most} facts");
            return Err(self.resolver.fault(span, message));
        }
        self.facts.push((fact, span));
        Ok(())
    }

    fn object_line(&mut self, line: &ObjectLine) -> Result<(), Fault> {
        let object = self.object(&line.name)?;
        for name in &line.classes {
            let class = self.resolver.class(name)?;
            self.say(Fact::Member { class, object }, name.span)?;
        }
        for (role, values) in &line.values {
            let (attribute, backward) = self.resolver.role(role)?;
            for name in values {
                let value = self.object(name)?;
                let (first, second) = match backward {
                    false => (object, value),
                    true => (value, object),
                };
                let pair = Fact::Pair {
                    attribute,
                    first,
                    second,
                };
                self.say(pair, name.span)?;
            }
        }
        Ok(())
    }

    fn constant_line(&mut self, name: &Name, object_name: &Name) -> Result<(), Fault> {
        let resolver = self.resolver;
        let constant = resolver.constant(name)?;
        let object = self.object(object_name)?;
        let names = &resolver.file.names;
        let is_loose = |number: u16| names.signature().is_loose(number);
        for &(fact, said) in &self.facts {
            let Fact::Name {
                constant: known,
                object: named,
            } = fact
            else {
                continue;
            };
            let (text, span) = (&name.text, name.span.to(object_name.span));
            if known == constant {
                let line = resolver.line(said);
                let message = format!("`{text}` is an object already, in line {line}");
                return Err(resolver.fault(name.span, message));
            }
            if named == object && !is_loose(known.0) && !is_loose(constant.0) {
                let (other, shared) = (names.constant(known), &object_name.text);
                let message =
                    format!("`{other}` and `{text}` are both `{shared}`, and neither is loose");
                return Err(resolver.fault(span, message));
            }
        }
        self.say(
            Fact::Name { constant, object },
            name.span.to(object_name.span),
        )
    }

    fn mark_line(&mut self, name: &Name, object_name: &Name) -> Result<(), Fault> {
        let mark = self.mark(name)?;
        let object = self.object(object_name)?;
        for &(fact, span) in &self.facts {
            if matches!(fact, Fact::Choice { mark: known, .. } if known == mark) {
                let (text, line) = (&name.text, self.resolver.line(span));
                let message = format!("`?{text}` is an object already, in line {line}");
                return Err(self.resolver.fault(name.span, message));
            }
        }
        self.say(
            Fact::Choice { mark, object },
            name.span.to(object_name.span),
        )
    }

    fn mark(&self, name: &Name) -> Result<Mark, Fault> {
        if let Some(mark) = self.resolver.mark_number(name)? {
            return Ok(mark);
        }
        let (text, state) = (name.text.as_str(), &self.name.text);
        let Some(query) = self.query else {
            let message =
                format!("the mark `?{text}` is not known; write `State {state} for` and its query");
            return Err(self.resolver.fault(name.span, message));
        };
        let known = query.marks.iter().find(|(known, _)| known == text);
        known.map(|&(_, mark)| mark).ok_or_else(|| {
            let near = nearest(text, query.marks.iter().map(|(known, _)| known.as_str()));
            let hint = near.map_or(String::new(), |near| format!("; did you mean `?{near}`?"));
            let message = format!("`{}` has no mark `?{text}`{hint}", query.name.text);
            self.resolver.fault(name.span, message)
        })
    }

    /// Each declared constant must have its object.
    fn all_constants(&self) -> Result<(), Fault> {
        let named = self.facts.iter().filter_map(|&(fact, _)| match fact {
            Fact::Name { constant, .. } => Some(constant),
            _ => None,
        });
        let named: BTreeSet<Constant> = named.collect();
        let constants = (0..).map(Constant).zip(&self.resolver.file.names.constants);
        for (constant, declared) in constants {
            if !named.contains(&constant) {
                let (state, text) = (&self.name.text, &declared.name.text);
                let message = format!("State `{state}` does not say which object `{text}` is");
                return Err(self.resolver.fault(self.name.span, message));
            }
        }
        Ok(())
    }
}
