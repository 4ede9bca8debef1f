//! Queries and views.

use super::{mark, Parser, AN_ATTRIBUTE, A_CONSTANT, A_QUERY};
use crate::fault::Fault;
use crate::lex::Kind;
use crate::syntax::{Body, Derived, Equation, Member, MemberSort, Path, QueryFrame};
use crate::syntax::{Role, Side, Step};
use bikuvoa::layout::MAX_TOKENS;

const A_MEMBER: &str = "a class, query or view";
const A_LABEL: &str = "a label";

impl Parser<'_> {
    pub(super) fn query(&mut self) -> Result<QueryFrame, Fault> {
        let is_view = self.peek().text == "View";
        let name = self.begin(if is_view {
            "the name of a view"
        } else {
            A_QUERY
        })?;
        self.marks.clear();
        let body = self.body()?;
        self.end()?;
        Ok(QueryFrame {
            name,
            is_view,
            body,
            marks: std::mem::take(&mut self.marks),
        })
    }

    fn body(&mut self) -> Result<Body, Fault> {
        let (start, first) = (self.peek().span, self.next);
        let (mut members, mut derived, mut equations) = (Vec::new(), Vec::new(), Vec::new());
        if self.take("isA") {
            members = self.members(",")?;
        }
        if self.take("with") {
            if self.take("derived") {
                while self.is_path() {
                    derived.push(self.derived()?);
                }
            }
            if self.take("where") {
                while self.is("this") || self.is_name(A_LABEL) {
                    equations.push(self.equation()?);
                }
            }
        }
        // An empty body stands where its name or bracket does.
        let span = match self.next > first {
            true => self.since(start),
            false => self.last(),
        };
        Ok(Body {
            span,
            members,
            derived,
            equations,
        })
    }

    fn derived(&mut self) -> Result<Derived, Fault> {
        let mut label = None;
        if self.peek().kind == Kind::Name && self.ahead(1).text == ":" {
            label = Some(self.name(A_LABEL)?);
            self.expect(":")?;
        }
        let path = self.path()?;
        Ok(Derived { label, path })
    }

    /// Whether a path stands next, with a label or without.
    fn is_path(&mut self) -> bool {
        let token = self.peek();
        let is = token.kind == Kind::Name || matches!(token.text, "(" | "this");
        if !is {
            self.tried.push("a path");
        }
        is
    }

    fn path(&mut self) -> Result<Path, Fault> {
        let start = self.peek().span;
        if !self.is_path() {
            return Err(self.unexpected());
        }
        let mut steps = Vec::new();
        if self.peek().text == "this" {
            self.advance();
        } else {
            steps.push(self.step()?);
            while self.take(".") {
                steps.push(self.step()?);
            }
        }
        let span = self.since(start);
        Ok(Path { span, steps })
    }

    fn step(&mut self) -> Result<Step, Fault> {
        let start = self.peek().span;
        let (role, landing) = if self.take("(") {
            let role = self.role()?;
            self.expect(":")?;
            let landing = self.members("&")?;
            self.expect(")")?;
            (role, landing)
        } else {
            (self.role()?, Vec::new())
        };
        Ok(Step {
            span: self.since(start),
            role,
            landing,
        })
    }

    pub(super) fn role(&mut self) -> Result<Role, Fault> {
        let name = self.name(AN_ATTRIBUTE)?;
        let against = self.take("^");
        Ok(Role { name, against })
    }

    fn members(&mut self, between: &'static str) -> Result<Vec<Member>, Fault> {
        let mut members = vec![self.member()?];
        while self.take(between) {
            members.push(self.member()?);
        }
        Ok(members)
    }

    fn member(&mut self) -> Result<Member, Fault> {
        let token = self.peek();
        let sort = match (token.kind, token.text) {
            (_, "Object") => {
                self.advance();
                MemberSort::Object
            }
            (_, "{") => {
                self.advance();
                let constant = self.name(A_CONSTANT)?;
                self.expect("}")?;
                MemberSort::Constant(constant)
            }
            (_, "[") => self.bracket()?,
            (Kind::Mark, _) => {
                let mark = mark(self.advance());
                self.marks.push(mark.clone());
                MemberSort::Mark(mark)
            }
            _ => MemberSort::Named(self.name(A_MEMBER)?),
        };
        let span = self.since(token.span);
        Ok(Member { span, sort })
    }

    /// A body in brackets. They need not nest deeper than a concept has tokens, and
    /// must not nest so deep that the call stack is used up.
    fn bracket(&mut self) -> Result<MemberSort, Fault> {
        let bracket = self.advance();
        if self.depth == MAX_TOKENS {
            let message = format!("brackets nest at most {MAX_TOKENS} deep");
            return Err(self.fault(bracket.span, message));
        }
        self.depth += 1;
        let body = self.body()?;
        self.depth -= 1;
        self.expect("]")?;
        Ok(MemberSort::Body(body))
    }

    fn equation(&mut self) -> Result<Equation, Fault> {
        let start = self.peek().span;
        let left = self.side()?;
        self.expect("=")?;
        let right = self.side()?;
        Ok(Equation {
            span: self.since(start),
            left,
            right,
        })
    }

    fn side(&mut self) -> Result<Side, Fault> {
        let span = self.peek().span;
        if self.take("this") {
            return Ok(Side::This(span));
        }
        Ok(Side::Label(self.name(A_LABEL)?))
    }
}
