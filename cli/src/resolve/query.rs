//! Queries and views.

use super::Resolver;
use crate::fault::Fault;
use crate::model::{Concept, Name, Node, Path, QueryClass, Step};
use crate::near::hint;
use crate::source::Span;
use crate::syntax::{self, Body, Equation, Member, MemberSort, QueryFrame, Side};
use bikuvoa::Mark;
use std::collections::BTreeMap;

impl Resolver {
    /// The query or view; those above it in the file are resolved.
    pub fn query(&self, frame: &QueryFrame) -> Result<QueryClass, Fault> {
        let marks = self.marks(frame)?;
        let mut asked = Asked {
            resolver: self,
            frame,
            marks: &marks,
            inlined: 0,
        };
        let concept = asked.body(&frame.body)?;
        Ok(QueryClass {
            name: frame.name.clone(),
            is_view: frame.is_view,
            concept,
            marks,
        })
    }
}

/// A query while it is resolved.
pub(super) struct Asked<'a> {
    pub(super) resolver: &'a Resolver,
    pub(super) frame: &'a QueryFrame,
    marks: &'a [(String, Mark)],
    /// How many tokens of other queries stand in it so far.
    pub(super) inlined: usize,
}

impl Asked<'_> {
    fn body(&mut self, body: &Body) -> Result<Concept, Fault> {
        let mut parts = self.members(&body.members)?;
        let mut paths = Vec::new();
        for derived in &body.derived {
            paths.push(self.path(&derived.path)?);
        }
        let labels = self.labels(body)?;
        let mut used = vec![None; paths.len()];
        let mut common = Vec::new();
        for (place, equation) in body.equations.iter().enumerate() {
            let mut side = |side| self.side(side, place, &labels, &mut used);
            common.push((side(&equation.left)?, side(&equation.right)?));
        }
        let unused = paths.iter().zip(&used).filter(|(_, used)| used.is_none());
        parts.extend(unused.map(|(path, _)| Concept {
            span: path.span,
            node: Node::Reached(path.clone()),
        }));
        for (Equation { span, left, right }, (one, other)) in body.equations.iter().zip(common) {
            let one = led(left, one.and_then(|place| paths.get(place)));
            let other = led(right, other.and_then(|place| paths.get(place)));
            parts.push(Concept {
                span: *span,
                node: Node::Common(one, other),
            });
        }
        Ok(joined(parts, body.span))
    }

    /// The place of each labelled path.
    fn labels<'b>(&self, body: &'b Body) -> Result<BTreeMap<&'b str, (usize, Span)>, Fault> {
        let mut labels = BTreeMap::new();
        for (place, derived) in body.derived.iter().enumerate() {
            let Some(label) = &derived.label else {
                continue;
            };
            if let Some((_, span)) = labels.insert(label.text.as_str(), (place, label.span)) {
                let (text, line) = (&label.text, self.resolver.line(span));
                let message =
                    format!("`{text}` is the label of another path already, in line {line}");
                return Err(self.resolver.fault(label.span, message));
            }
        }
        Ok(labels)
    }

    /// The place of the path of a side; of `this` there is none. Each path is used
    /// by one equation.
    fn side(
        &self,
        side: &Side,
        equation: usize,
        labels: &BTreeMap<&str, (usize, Span)>,
        used: &mut [Option<usize>],
    ) -> Result<Option<usize>, Fault> {
        let Side::Label(label) = side else {
            return Ok(None);
        };
        let text = label.text.as_str();
        let Some(&(place, _)) = labels.get(text) else {
            let hint = hint(text, labels.keys().copied());
            let message = format!("no path is labelled `{text}`{hint}");
            return Err(self.resolver.fault(label.span, message));
        };
        if let Some(user) = used.get_mut(place) {
            if user.is_some_and(|other| other != equation) {
                let message = format!(
                    "the label `{text}` stands in another equation already; it may stand in one"
                );
                return Err(self.resolver.fault(label.span, message));
            }
            *user = Some(equation);
        }
        Ok(Some(place))
    }

    fn path(&mut self, path: &syntax::Path) -> Result<Path, Fault> {
        let mut steps = Vec::new();
        for step in &path.steps {
            let (attribute, backward) = self.resolver.role(&step.role)?;
            let ends = step.landing.first().zip(step.landing.last());
            let span = ends.map_or(step.span, |(first, last)| first.span.to(last.span));
            steps.push(Step {
                span: step.span,
                attribute,
                backward,
                landing: joined(self.members(&step.landing)?, span),
            });
        }
        let span = path.span;
        Ok(Path { span, steps })
    }

    fn members(&mut self, members: &[Member]) -> Result<Vec<Concept>, Fault> {
        members.iter().map(|member| self.member(member)).collect()
    }

    fn member(&mut self, member: &Member) -> Result<Concept, Fault> {
        let node = match &member.sort {
            MemberSort::Named(name) => return self.named(name),
            MemberSort::Object => Node::Everything,
            MemberSort::Constant(name) => Node::Constant(self.resolver.constant(name)?),
            MemberSort::Mark(name) => Node::Mark(self.mark(name)?),
            MemberSort::Body(body) => self.body(body)?.node,
        };
        let span = member.span;
        Ok(Concept { span, node })
    }

    fn mark(&self, name: &Name) -> Result<Mark, Fault> {
        let known = self.marks.iter().find(|(text, _)| *text == name.text);
        let unknown = || format!("no mark is called `?{}`", name.text);
        let mark = known.map(|&(_, mark)| mark);
        mark.ok_or_else(|| self.resolver.fault(name.span, unknown()))
    }
}

/// What is in each of the parts.
fn joined(mut parts: Vec<Concept>, span: Span) -> Concept {
    if parts.len() > 1 {
        let node = Node::All(parts);
        return Concept { span, node };
    }
    let everything = Concept {
        span,
        node: Node::Everything,
    };
    parts.pop().unwrap_or(everything)
}

/// The path of a side of an equation.
fn led(side: &Side, path: Option<&Path>) -> Path {
    let span = match side {
        Side::This(span) => *span,
        Side::Label(label) => label.span,
    };
    let empty = Path {
        span,
        steps: Vec::new(),
    };
    path.cloned().unwrap_or(empty)
}
