//! What a text says before any name is looked up.

use crate::model::Name;
use crate::source::Span;

#[derive(Debug)]
pub enum Frame {
    Class(ClassFrame),
    Attribute(AttributeFrame),
    Constant(ConstantFrame),
    Axiom(AxiomLine),
    Query(QueryFrame),
    State(StateText),
}

#[derive(Debug)]
pub struct ClassFrame {
    pub name: Name,
    pub superclasses: Vec<Name>,
    pub groups: Vec<Group>,
}

/// Attributes of a class that are all necessary, or all single, or both or neither.
#[derive(Debug, Default)]
pub struct Group {
    pub necessary: bool,
    pub single: bool,
    /// Each with the class of its values, if that is said.
    pub attributes: Vec<(Name, Option<Name>)>,
}

#[derive(Debug)]
pub struct AttributeFrame {
    pub name: Name,
    pub relates: Option<Relates>,
    pub inverse: Option<Name>,
}

#[derive(Debug)]
pub struct Relates {
    pub span: Span,
    pub domain: Name,
    pub range: Name,
}

#[derive(Debug)]
pub struct ConstantFrame {
    pub name: Name,
    pub loose: bool,
}

/// An axiom by itself; the span is what stands after the word `axiom`.
#[derive(Debug)]
pub struct AxiomLine {
    pub span: Span,
    pub subject: Name,
    pub rest: AxiomRest,
}

/// What an axiom says of its subject.
#[derive(Debug)]
pub enum AxiomRest {
    IsA(Name),
    Types { attribute: Name, values: Name },
    Needs(Name),
    Single(Name),
    Relates { domain: Name, range: Name },
}

/// A query or a view.
#[derive(Debug)]
pub struct QueryFrame {
    pub name: Name,
    pub is_view: bool,
    pub body: Body,
    /// Its marks without the `?`, in the order of the text, as often as they stand
    /// there.
    pub marks: Vec<Name>,
}

#[derive(Debug)]
pub struct Body {
    pub span: Span,
    pub members: Vec<Member>,
    pub derived: Vec<Derived>,
    pub equations: Vec<Equation>,
}

#[derive(Debug)]
pub struct Derived {
    pub label: Option<Name>,
    pub path: Path,
}

#[derive(Debug)]
pub struct Equation {
    pub span: Span,
    pub left: Side,
    pub right: Side,
}

#[derive(Debug)]
pub enum Side {
    This(Span),
    Label(Name),
}

#[derive(Debug)]
pub struct Path {
    pub span: Span,
    /// None for `this`.
    pub steps: Vec<Step>,
}

#[derive(Debug)]
pub struct Step {
    pub span: Span,
    pub role: Role,
    /// None for a step that may land anywhere.
    pub landing: Vec<Member>,
}

/// An attribute, or an inverse name, or an attribute with `^`.
#[derive(Debug)]
pub struct Role {
    pub name: Name,
    pub against: bool,
}

/// What an object may be asked to be in.
#[derive(Debug)]
pub struct Member {
    pub span: Span,
    pub sort: MemberSort,
}

#[derive(Debug)]
pub enum MemberSort {
    Named(Name),
    Object,
    Constant(Name),
    Mark(Name),
    Body(Body),
}

#[derive(Debug)]
pub struct StateText {
    pub name: Name,
    /// The query whose marks the state names.
    pub query: Option<Name>,
    pub lines: Vec<Line>,
}

#[derive(Debug)]
pub enum Line {
    Object(ObjectLine),
    /// A constant and its object.
    Constant(Name, Name),
    /// A mark without the `?`, and its object.
    Mark(Name, Name),
}

#[derive(Debug)]
pub struct ObjectLine {
    pub name: Name,
    pub classes: Vec<Name>,
    pub values: Vec<(Role, Vec<Name>)>,
}
