//! The frames of the schema: classes, attributes, constants and axioms.

use super::{Parser, AN_ATTRIBUTE, A_CLASS, A_CONSTANT};
use crate::fault::Fault;
use crate::syntax::{AttributeFrame, AxiomLine, AxiomRest, ClassFrame, ConstantFrame};
use crate::syntax::{Group, Relates};

impl Parser<'_> {
    pub(super) fn class(&mut self) -> Result<ClassFrame, Fault> {
        let name = self.begin(A_CLASS)?;
        let mut superclasses = Vec::new();
        if self.take("isA") {
            superclasses = self.names(A_CLASS)?;
        }
        let mut groups = Vec::new();
        if self.take("with") {
            while self.take("attribute") {
                groups.push(self.group()?);
            }
        }
        self.end()?;
        Ok(ClassFrame {
            name,
            superclasses,
            groups,
        })
    }

    fn group(&mut self) -> Result<Group, Fault> {
        let mut group = Group::default();
        while self.take(",") {
            if self.take("necessary") {
                group.necessary = true;
            } else if self.take("single") {
                group.single = true;
            } else {
                return Err(self.unexpected());
            }
        }
        while self.is_name(AN_ATTRIBUTE) {
            let attribute = self.name(AN_ATTRIBUTE)?;
            let values = match self.take(":") {
                true => Some(self.name(A_CLASS)?),
                false => None,
            };
            group.attributes.push((attribute, values));
        }
        Ok(group)
    }

    pub(super) fn attribute(&mut self) -> Result<AttributeFrame, Fault> {
        let name = self.begin(AN_ATTRIBUTE)?;
        let (mut relates, mut inverse) = (None, None);
        if self.take("with") {
            if self.is("domain") {
                relates = Some(self.relates()?);
            }
            if self.take("inverse") {
                self.expect(":")?;
                inverse = Some(self.name("an inverse name")?);
            }
        }
        self.end()?;
        Ok(AttributeFrame {
            name,
            relates,
            inverse,
        })
    }

    fn relates(&mut self) -> Result<Relates, Fault> {
        let start = self.peek().span;
        self.expect("domain")?;
        self.expect(":")?;
        let domain = self.name(A_CLASS)?;
        self.expect("range")?;
        self.expect(":")?;
        let range = self.name(A_CLASS)?;
        Ok(Relates {
            span: self.since(start),
            domain,
            range,
        })
    }

    pub(super) fn constant(&mut self) -> Result<ConstantFrame, Fault> {
        self.advance();
        let name = self.name(A_CONSTANT)?;
        let loose = self.take("loose");
        Ok(ConstantFrame { name, loose })
    }

    pub(super) fn axiom(&mut self) -> Result<AxiomLine, Fault> {
        self.advance();
        let start = self.peek().span;
        let subject = self.name("the name of a class or an attribute")?;
        let rest = if self.take("isA") {
            AxiomRest::IsA(self.name(A_CLASS)?)
        } else if self.take("types") {
            let attribute = self.name(AN_ATTRIBUTE)?;
            self.expect(":")?;
            let values = self.name(A_CLASS)?;
            AxiomRest::Types { attribute, values }
        } else if self.take("needs") {
            AxiomRest::Needs(self.name(AN_ATTRIBUTE)?)
        } else if self.take("single") {
            AxiomRest::Single(self.name(AN_ATTRIBUTE)?)
        } else {
            self.expect("relates")?;
            let domain = self.name(A_CLASS)?;
            self.expect("to")?;
            let range = self.name(A_CLASS)?;
            AxiomRest::Relates { domain, range }
        };
        Ok(AxiomLine {
            span: self.since(start),
            subject,
            rest,
        })
    }
}
