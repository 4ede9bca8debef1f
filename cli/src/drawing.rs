//! A state as it is drawn: what the picture and the graph file are made from.

/// Objects and pairs of a state, with what the query uses, what the view uses and
/// what it misses.
#[derive(Clone, Debug, PartialEq, Eq)]
pub struct Drawing {
    /// One line, such as `OPEN  some object of Recorded need not be in Rowers`.
    pub title: String,
    /// The first is the object that the answer is about; none if nothing is drawn.
    pub nodes: Vec<Node>,
    pub edges: Vec<Edge>,
    /// What is not drawn and why, if anything: one line.
    pub note: Option<String>,
}

#[derive(Clone, Debug, PartialEq, Eq)]
pub struct Node {
    /// The object's name; of a missing one what it should have been, such as
    /// `Session`.
    pub name: String,
    /// Its classes, in the order of their declaration.
    pub classes: Vec<String>,
    /// The constants and marks that it is, such as `{Strap7}` and `?stroke`.
    pub called: Vec<String>,
    /// What the view asks of it and it is not, such as `Rower`.
    pub lacks: Vec<String>,
    /// No object of the state: the end of a step that the view misses.
    pub missing: bool,
}

/// A pair of an attribute. What the query uses, what the view uses and what the view
/// misses are told apart; a pair may be used by both.
#[derive(Clone, Debug, PartialEq, Eq)]
pub struct Edge {
    /// The places of the two ends among the nodes, first and second of the pair.
    pub from: usize,
    pub to: usize,
    pub attribute: String,
    pub in_query: bool,
    pub in_view: bool,
    /// No pair of the state: a step that the view misses.
    pub missing: bool,
}
