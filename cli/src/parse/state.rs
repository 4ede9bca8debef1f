//! States.

use super::{mark, Parser, AN_OBJECT, A_CLASS, A_QUERY};
use crate::fault::Fault;
use crate::lex::Kind;
use crate::model::Name;
use crate::syntax::{Line, ObjectLine, StateText};

impl Parser<'_> {
    pub(super) fn state(&mut self) -> Result<StateText, Fault> {
        let name = self.begin("the name of a state")?;
        let query = match self.take("for") {
            true => Some(self.name(A_QUERY)?),
            false => None,
        };
        let mut lines = Vec::new();
        loop {
            if self.peek().kind == Kind::Mark {
                let mark = mark(self.advance());
                lines.push(Line::Mark(mark, self.named_object()?));
            } else if self.is_name(AN_OBJECT) {
                lines.push(self.line()?);
            } else {
                break;
            }
        }
        self.end()?;
        Ok(StateText { name, query, lines })
    }

    /// An object with what is said of it, or a constant with its object.
    fn line(&mut self) -> Result<Line, Fault> {
        let name = self.name(AN_OBJECT)?;
        if self.is("is") {
            return Ok(Line::Constant(name, self.named_object()?));
        }
        let classes = match self.take("in") {
            true => self.names(A_CLASS)?,
            false => Vec::new(),
        };
        let mut values = Vec::new();
        if self.take("with") {
            loop {
                let role = self.role()?;
                self.expect(":")?;
                values.push((role, self.names(AN_OBJECT)?));
                if !self.take(";") {
                    break;
                }
            }
        }
        Ok(Line::Object(ObjectLine {
            name,
            classes,
            values,
        }))
    }

    fn named_object(&mut self) -> Result<Name, Fault> {
        self.expect("is")?;
        self.name(AN_OBJECT)
    }
}
