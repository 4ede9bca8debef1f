//! Concepts and paths as text. A concept is joined from its parts in their order,
//! and a body joins what `isA` lists before its derived paths, and these before its
//! equations. So the parts that stand in another order are listed under `isA`, in
//! brackets where they are no names.

use crate::model::{Concept, Names, Node, Path, QueryClass, Step};
use bikuvoa::{Mark, Token};

pub(super) struct Printer<'a> {
    pub(super) names: &'a Names,
    pub(super) marks: &'a [(String, Mark)],
}

/// The three lists of a body.
#[derive(Default)]
pub(super) struct Body {
    members: Vec<String>,
    derived: Vec<String>,
    equations: Vec<String>,
    labels: usize,
}

/// The names of the query's marks, if these are numbered as they are when the
/// printed text is read: by the order in which they stand there, which need not be
/// the order of the text that was read. Otherwise numbers stand for them all.
pub(super) fn marks(query: &QueryClass) -> &[(String, Mark)] {
    let mut used = Vec::new();
    for token in query.concept.tokens() {
        match token {
            Token::Mark(mark) if !used.contains(&mark) => used.push(mark),
            _ => {}
        }
    }
    let is_named = |&mark: &Mark| name(&query.marks, mark).is_some();
    let (named, numbered): (Vec<Mark>, Vec<Mark>) = used.into_iter().partition(is_named);
    let free = (0..).map(Mark).filter(|mark| !numbered.contains(mark));
    if named.iter().copied().eq(free.take(named.len())) {
        &query.marks
    } else {
        &[]
    }
}

/// The mark as it is written, by its name if that is no number.
pub(super) fn mark(marks: &[(String, Mark)], mark: Mark) -> String {
    match name(marks, mark) {
        Some(name) => format!("?{name}"),
        None => format!("?{}", mark.0),
    }
}

fn name(marks: &[(String, Mark)], mark: Mark) -> Option<&str> {
    let (name, _) = marks.iter().find(|&&(_, known)| known == mark)?;
    let is_number = name.starts_with(|first: char| first.is_ascii_digit());
    (!is_number).then_some(name)
}

impl Printer<'_> {
    pub(super) fn body(&self, concept: &Concept) -> Body {
        let parts = concept.parts();
        let equations = trailing(parts, |node| matches!(node, Node::Common(..)));
        let paths = trailing(&parts[..equations], |node| matches!(node, Node::Reached(_)));
        let mut body = Body::default();
        for part in &parts[..paths] {
            body.members.push(self.member(part));
        }
        for part in &parts[paths..] {
            match &part.node {
                Node::Reached(path) => body.derived.push(self.path(path)),
                Node::Common(left, right) => {
                    let left = body.label(left, || self.path(left));
                    let right = body.label(right, || self.path(right));
                    body.equations.push(format!("{left} = {right}"));
                }
                _ => {}
            }
        }
        body
    }

    pub(super) fn part(&self, part: &Concept) -> String {
        match &part.node {
            Node::Reached(path) => self.path(path),
            Node::Common(left, right) => format!("{} = {}", self.path(left), self.path(right)),
            _ => format!("isA {}", self.member(part)),
        }
    }

    fn member(&self, concept: &Concept) -> String {
        match &concept.node {
            Node::Class(class) => self.names.class(*class).to_string(),
            Node::Everything => "Object".to_string(),
            Node::Constant(constant) => format!("{{{}}}", self.names.constant(*constant)),
            Node::Mark(number) => mark(self.marks, *number),
            Node::All(_) | Node::Reached(_) | Node::Common(..) => {
                format!("[{}]", self.body(concept).in_line())
            }
        }
    }

    fn path(&self, path: &Path) -> String {
        if path.steps.is_empty() {
            return "this".to_string();
        }
        let steps: Vec<String> = path.steps.iter().map(|step| self.step(step)).collect();
        steps.join(".")
    }

    fn step(&self, step: &Step) -> String {
        let direction = self.direction(step);
        if let Node::Everything = step.landing.node {
            return direction;
        }
        let landings = step.landing.parts().iter();
        let landings: Vec<String> = landings.map(|part| self.member(part)).collect();
        format!("({direction}: {})", landings.join(" & "))
    }

    fn direction(&self, step: &Step) -> String {
        let names = &self.names.attributes[usize::from(step.attribute.0)];
        match (step.backward, &names.inverse) {
            (false, _) => names.name.text.clone(),
            (true, Some(inverse)) => inverse.text.clone(),
            (true, None) => format!("{}^", names.name.text),
        }
    }
}

/// Where the last parts begin that are all of a sort.
fn trailing(parts: &[Concept], is_of_sort: impl Fn(&Node) -> bool) -> usize {
    let others = parts.iter().rposition(|part| !is_of_sort(&part.node));
    others.map_or(0, |last| last + 1)
}

impl Body {
    /// What an equation calls the path, which is derived under that label.
    fn label(&mut self, path: &Path, text: impl FnOnce() -> String) -> String {
        if path.steps.is_empty() {
            return "this".to_string();
        }
        self.labels += 1;
        let label = format!("l{}", self.labels);
        self.derived.push(format!("{label}: {}", text()));
        label
    }

    /// As it stands in brackets.
    fn in_line(&self) -> String {
        self.laid_out(" ", " ")
    }

    /// As it stands in a frame, up to its `end`.
    pub(super) fn in_frame(&self) -> String {
        let text = self.laid_out("\n  ", "\n    ");
        let last = if text.contains('\n') { "\n" } else { " " };
        text + last
    }

    /// With this before each group, and this before each line of it.
    fn laid_out(&self, group: &str, line: &str) -> String {
        let mut text = String::new();
        if !self.members.is_empty() {
            text += "isA ";
            text += &self.members.join(", ");
        }
        if self.derived.is_empty() && self.equations.is_empty() {
            return text;
        }
        text += if text.is_empty() { "with" } else { " with" };
        for (word, lines) in [("derived", &self.derived), ("where", &self.equations)] {
            if !lines.is_empty() {
                text += group;
                text += word;
            }
            for each in lines {
                text += line;
                text += each;
            }
        }
        text
    }
}
