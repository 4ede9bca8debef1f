//! What a file says, with every name looked up and the place of each thing in the
//! text. Numbers are those of the records: classes, attributes, constants and
//! objects in the order of their declaration.

use crate::source::{Source, Span};
use bikuvoa::layout::{self, Pair, Signature};
use bikuvoa::{Attribute, Axiom, Class, Constant, Fact, Mark, Token};

/// A file that the library accepts: its schema, every query and view in its own
/// place, and every state.
#[derive(Clone, Debug)]
pub struct File {
    pub source: Source,
    pub names: Names,
    /// In the order of the record.
    pub axioms: Vec<Stated>,
    /// Queries and views in the order of the text.
    pub queries: Vec<QueryClass>,
    pub states: Vec<StateFrame>,
}

/// What the schema declares, by number.
#[derive(Clone, Debug, Default)]
pub struct Names {
    pub classes: Vec<Name>,
    pub attributes: Vec<AttributeNames>,
    pub constants: Vec<ConstantName>,
}

#[derive(Clone, Debug, PartialEq, Eq)]
pub struct Name {
    pub text: String,
    pub span: Span,
}

#[derive(Clone, Debug, PartialEq, Eq)]
pub struct AttributeNames {
    pub name: Name,
    /// The name of a step against the attribute's direction.
    pub inverse: Option<Name>,
}

#[derive(Clone, Debug, PartialEq, Eq)]
pub struct ConstantName {
    pub name: Name,
    pub loose: bool,
}

/// An axiom and the words of the text that state it.
#[derive(Clone, Copy, Debug, PartialEq, Eq)]
pub struct Stated {
    pub axiom: Axiom,
    pub span: Span,
}

/// A query or a view.
#[derive(Clone, Debug)]
pub struct QueryClass {
    pub name: Name,
    /// Whether it is a `View`: `serve` and `order` are about these.
    pub is_view: bool,
    pub concept: Concept,
    /// The names of its marks, without the `?`.
    pub marks: Vec<(String, Mark)>,
}

#[derive(Clone, Debug)]
pub struct Concept {
    pub span: Span,
    pub node: Node,
}

#[derive(Clone, Debug)]
pub enum Node {
    Class(Class),
    /// All objects, `Object` in the text.
    Everything,
    Constant(Constant),
    Mark(Mark),
    /// What is in each of the parts, of which there are two or more. The first
    /// two are joined, then that and the third, and so forth.
    All(Vec<Concept>),
    Reached(Path),
    Common(Path, Path),
}

/// A path; without steps it leads to the object itself, `this` in the text.
#[derive(Clone, Debug)]
pub struct Path {
    pub span: Span,
    pub steps: Vec<Step>,
}

#[derive(Clone, Debug)]
pub struct Step {
    pub span: Span,
    pub attribute: Attribute,
    pub backward: bool,
    pub landing: Concept,
}

/// A state, and the object of each mark of a query if it is a state for one.
#[derive(Clone, Debug)]
pub struct StateFrame {
    pub name: Name,
    /// The query, by its place in the file, whose marks it names.
    pub query: Option<usize>,
    /// By number.
    pub objects: Vec<Name>,
    /// In the order of the text; a fact may stand there twice.
    pub facts: Vec<(Fact, Span)>,
}

impl Name {
    /// A name that stands nowhere in a text.
    pub fn unplaced(text: String) -> Name {
        let span = Span::default();
        Name { text, span }
    }
}

impl Names {
    pub fn signature(&self) -> Signature {
        let loose = self.constants.iter().enumerate();
        let loose = loose.filter(|(_, constant)| constant.loose);
        Signature {
            classes: self.classes.len() as u16,
            attributes: self.attributes.len() as u16,
            constants: self.constants.len() as u16,
            loose: loose.fold(0, |set, (k, _)| {
                set | 1u16.checked_shl(k as u32).unwrap_or(0)
            }),
        }
    }

    pub fn class(&self, Class(number): Class) -> &str {
        &self.classes[usize::from(number)].text
    }

    pub fn attribute(&self, Attribute(number): Attribute) -> &str {
        &self.attributes[usize::from(number)].name.text
    }

    pub fn constant(&self, Constant(number): Constant) -> &str {
        &self.constants[usize::from(number)].name.text
    }
}

impl File {
    /// The schema's record.
    pub fn schema(&self) -> Vec<u16> {
        self.schema_with(self.names.signature(), |_| true)
    }

    /// The record of a schema with this signature, and with those of the axioms, by
    /// their place, that are kept.
    pub fn schema_with(&self, signature: Signature, is_kept: impl Fn(usize) -> bool) -> Vec<u16> {
        let stated = self.axioms.iter().enumerate();
        let kept = stated.filter(|&(place, _)| is_kept(place));
        let axioms: Vec<Pair> = kept.map(|(_, stated)| stated.axiom.words()).collect();
        layout::schema(signature, &axioms)
    }

    /// The views in the order of the text.
    pub fn views(&self) -> impl Iterator<Item = &QueryClass> {
        self.queries.iter().filter(|query| query.is_view)
    }

    pub fn query(&self, name: &str) -> Option<&QueryClass> {
        self.queries.iter().find(|query| query.name.text == name)
    }

    pub fn state(&self, name: &str) -> Option<&StateFrame> {
        self.states.iter().find(|state| state.name.text == name)
    }
}

impl Concept {
    /// A concept that stands nowhere in a text.
    pub fn unplaced(node: Node) -> Concept {
        let span = Span::default();
        Concept { span, node }
    }

    /// The parts that an object must all be in: those of `All`, or itself.
    pub fn parts(&self) -> &[Concept] {
        match &self.node {
            Node::All(parts) => parts,
            _ => std::slice::from_ref(self),
        }
    }

    /// The tokens in postfix order.
    pub fn tokens(&self) -> Vec<Token> {
        let mut tokens = Vec::new();
        self.push(&mut tokens);
        tokens
    }

    /// The record.
    pub fn words(&self) -> Vec<u16> {
        let entries: Vec<Pair> = self.tokens().iter().map(|token| token.words()).collect();
        layout::concept(&entries)
    }

    fn push(&self, tokens: &mut Vec<Token>) {
        match &self.node {
            Node::Class(class) => tokens.push(Token::Class(*class)),
            Node::Everything => tokens.push(Token::Everything),
            Node::Constant(constant) => tokens.push(Token::Constant(*constant)),
            Node::Mark(mark) => tokens.push(Token::Mark(*mark)),
            Node::All(parts) => {
                for (i, part) in parts.iter().enumerate() {
                    part.push(tokens);
                    if i > 0 {
                        tokens.push(Token::Both);
                    }
                }
            }
            Node::Reached(path) => {
                path.push(tokens);
                tokens.push(Token::Reached);
            }
            Node::Common(left, right) => {
                left.push(tokens);
                right.push(tokens);
                tokens.push(Token::Common);
            }
        }
    }
}

impl Path {
    fn push(&self, tokens: &mut Vec<Token>) {
        tokens.push(Token::Empty);
        for step in &self.steps {
            step.landing.push(tokens);
            tokens.push(match step.backward {
                false => Token::Forward(step.attribute),
                true => Token::Backward(step.attribute),
            });
        }
    }
}

impl StateFrame {
    /// The record, with the object of each mark that it says.
    pub fn words(&self) -> Vec<u16> {
        self.record(|_| true)
    }

    /// The record without the objects of marks, for the calls that take none.
    pub fn without_choices(&self) -> Vec<u16> {
        self.record(|fact| !matches!(fact, Fact::Choice { .. }))
    }

    fn record(&self, keep: impl Fn(&Fact) -> bool) -> Vec<u16> {
        let facts = self
            .facts
            .iter()
            .map(|(fact, _)| fact)
            .filter(|fact| keep(fact));
        let mut facts: Vec<Pair> = facts.map(|fact| fact.words()).collect();
        facts.sort_unstable();
        facts.dedup();
        layout::state(self.objects.len() as u16, &facts)
    }
}
