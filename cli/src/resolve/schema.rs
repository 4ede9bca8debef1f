//! Declarations and axioms.

use super::scope::What;
use super::{ordinal, Resolver};
use crate::fault::Fault;
use crate::model::{AttributeNames, ConstantName, Name, Stated};
use crate::source::Span;
use crate::syntax::{AttributeFrame, AxiomLine, AxiomRest, ClassFrame, Frame};
use bikuvoa::layout::{MAX_ATTRIBUTES, MAX_AXIOMS, MAX_CLASSES, MAX_CONSTANTS};
use bikuvoa::{Attribute, Axiom, Class, Constant};

impl Resolver {
    pub(super) fn declare(&mut self, frames: &[Frame]) -> Result<(), Fault> {
        let mut queries = 0;
        for frame in frames {
            match frame {
                Frame::Class(frame) => self.declare_class(&frame.name)?,
                Frame::Attribute(frame) => self.declare_attribute(frame)?,
                Frame::Constant(frame) => self.declare_constant(&frame.name, frame.loose)?,
                Frame::Axiom(_) => {}
                Frame::Query(frame) => {
                    let what = if frame.is_view {
                        What::View
                    } else {
                        What::Query
                    };
                    self.take_name(&frame.name, what(queries))?;
                    queries += 1;
                }
                Frame::State(frame) => self.take_name(&frame.name, What::State)?,
            }
        }
        Ok(())
    }

    fn take_name(&mut self, name: &Name, what: What) -> Result<(), Fault> {
        self.scope.declare(name, what).map_err(|(known, span)| {
            let (text, noun, line) = (&name.text, known.noun(), self.line(span));
            self.fault(
                name.span,
                format!("`{text}` is {noun} already, declared in line {line}"),
            )
        })
    }

    /// The number of what is declared next, if there may be so many.
    fn number(&self, count: usize, most: u16, one: &str, name: &Name) -> Result<u16, Fault> {
        match u16::try_from(count) {
            Ok(number) if number < most => Ok(number),
            _ => {
                let (text, nth) = (&name.text, ordinal(count + 1));
                let several = if one == "class" {
                    "classes".to_string()
                } else {
                    format!("{one}s")
                };
                let message =
                    format!("`{text}` is the {nth} {one}; a schema has at most {most} {several}");
                Err(self.fault(name.span, message))
            }
        }
    }

    fn declare_class(&mut self, name: &Name) -> Result<(), Fault> {
        let count = self.file.names.classes.len();
        let number = self.number(count, MAX_CLASSES, "class", name)?;
        self.take_name(name, What::Class(Class(number)))?;
        self.file.names.classes.push(name.clone());
        Ok(())
    }

    fn declare_attribute(&mut self, frame: &AttributeFrame) -> Result<(), Fault> {
        let (name, inverse) = (frame.name.clone(), frame.inverse.clone());
        let count = self.file.names.attributes.len();
        let number = Attribute(self.number(count, MAX_ATTRIBUTES, "attribute", &name)?);
        self.take_name(&name, What::Attribute(number))?;
        if let Some(inverse) = &inverse {
            self.take_name(inverse, What::Inverse(number))?;
        }
        self.file
            .names
            .attributes
            .push(AttributeNames { name, inverse });
        Ok(())
    }

    fn declare_constant(&mut self, name: &Name, loose: bool) -> Result<(), Fault> {
        let count = self.file.names.constants.len();
        let number = self.number(count, MAX_CONSTANTS, "constant", name)?;
        self.take_name(name, What::Constant(Constant(number)))?;
        let name = name.clone();
        self.file.names.constants.push(ConstantName { name, loose });
        Ok(())
    }

    pub(super) fn state_axioms(&mut self, frames: &[Frame]) -> Result<(), Fault> {
        for frame in frames {
            match frame {
                Frame::Class(frame) => self.class_axioms(frame)?,
                Frame::Attribute(frame) => self.attribute_axiom(frame)?,
                Frame::Axiom(line) => self.axiom_line(line)?,
                Frame::Constant(_) | Frame::Query(_) | Frame::State(_) => {}
            }
        }
        Ok(())
    }

    fn state_axiom(&mut self, axiom: Axiom, span: Span) -> Result<(), Fault> {
        let count = self.file.axioms.len() + 1;
        if count > MAX_AXIOMS {
            let nth = ordinal(count);
            let message =
                format!("this is the {nth} axiom; a schema has at most {MAX_AXIOMS} axioms");
            return Err(self.fault(span, message));
        }
        self.file.axioms.push(Stated { axiom, span });
        Ok(())
    }

    fn class_axioms(&mut self, frame: &ClassFrame) -> Result<(), Fault> {
        let class = self.class(&frame.name)?;
        for name in &frame.superclasses {
            let superclass = self.class(name)?;
            self.state_axiom(Axiom::Subclass { class, superclass }, name.span)?;
        }
        for group in &frame.groups {
            for (name, values) in &group.attributes {
                let attribute = self.attribute(name)?;
                if let Some(values_name) = values {
                    let values = self.class(values_name)?;
                    let typing = Axiom::Typing {
                        class,
                        attribute,
                        values,
                    };
                    self.state_axiom(typing, name.span.to(values_name.span))?;
                }
                if group.necessary {
                    self.state_axiom(Axiom::Necessary { class, attribute }, name.span)?;
                }
                if group.single {
                    self.state_axiom(Axiom::Single { class, attribute }, name.span)?;
                }
            }
        }
        Ok(())
    }

    fn attribute_axiom(&mut self, frame: &AttributeFrame) -> Result<(), Fault> {
        let Some(relates) = &frame.relates else {
            return Ok(());
        };
        let axiom = Axiom::Relates {
            attribute: self.attribute(&frame.name)?,
            domain: self.class(&relates.domain)?,
            range: self.class(&relates.range)?,
        };
        self.state_axiom(axiom, relates.span)
    }

    fn axiom_line(&mut self, line: &AxiomLine) -> Result<(), Fault> {
        let subject = &line.subject;
        let axiom = match &line.rest {
            AxiomRest::IsA(superclass) => Axiom::Subclass {
                class: self.class(subject)?,
                superclass: self.class(superclass)?,
            },
            AxiomRest::Types { attribute, values } => Axiom::Typing {
                class: self.class(subject)?,
                attribute: self.attribute(attribute)?,
                values: self.class(values)?,
            },
            AxiomRest::Needs(attribute) => Axiom::Necessary {
                class: self.class(subject)?,
                attribute: self.attribute(attribute)?,
            },
            AxiomRest::Single(attribute) => Axiom::Single {
                class: self.class(subject)?,
                attribute: self.attribute(attribute)?,
            },
            AxiomRest::Relates { domain, range } => Axiom::Relates {
                attribute: self.attribute(subject)?,
                domain: self.class(domain)?,
                range: self.class(range)?,
            },
        };
        self.state_axiom(axiom, line.span)
    }
}
