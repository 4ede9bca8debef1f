//! A concept from its tokens, read from the first to the last over a pile.

use crate::model::{Concept, Node, Path, Step};
use crate::source::Span;
use bikuvoa::layout::{CONCEPT, MAX_TOKENS};
use bikuvoa::{Attribute, Token};

const NOWHERE: Span = Span { start: 0, end: 0 };

enum Item {
    Concept(Concept),
    Path(Path),
}

/// The concept of an accepted record; nothing where the words are of none.
pub fn concept(words: &[u16]) -> Option<Concept> {
    let entries = CONCEPT.entries(words)?;
    if entries.len() > MAX_TOKENS {
        return None;
    }
    let mut pile = Pile(Vec::new());
    for entry in entries {
        let item = pile.item(Token::from_words(entry)?)?;
        pile.0.push(item);
    }
    let concept = pile.concept()?;
    pile.0.is_empty().then_some(concept)
}

struct Pile(Vec<Item>);

impl Pile {
    /// What the token puts, without what it takes.
    fn item(&mut self, token: Token) -> Option<Item> {
        let node = match token {
            Token::Empty => {
                return Some(Item::Path(Path {
                    span: NOWHERE,
                    steps: Vec::new(),
                }))
            }
            Token::Forward(attribute) => return self.step(attribute, false),
            Token::Backward(attribute) => return self.step(attribute, true),
            Token::Class(class) => Node::Class(class),
            Token::Everything => Node::Everything,
            Token::Constant(constant) => Node::Constant(constant),
            Token::Mark(mark) => Node::Mark(mark),
            Token::Both => self.both()?,
            Token::Reached => Node::Reached(self.path()?),
            Token::Common => {
                let right = self.path()?;
                Node::Common(self.path()?, right)
            }
        };
        Some(Item::Concept(Concept::unplaced(node)))
    }

    /// The second concept is one part, and the first may have several already.
    fn both(&mut self) -> Option<Node> {
        let second = self.concept()?;
        let first = self.concept()?;
        let mut parts = match first.node {
            Node::All(parts) => parts,
            node => vec![Concept::unplaced(node)],
        };
        parts.push(second);
        Some(Node::All(parts))
    }

    fn step(&mut self, attribute: Attribute, backward: bool) -> Option<Item> {
        let landing = self.concept()?;
        let mut path = self.path()?;
        path.steps.push(Step {
            span: NOWHERE,
            attribute,
            backward,
            landing,
        });
        Some(Item::Path(path))
    }

    fn concept(&mut self) -> Option<Concept> {
        match self.0.pop()? {
            Item::Concept(concept) => Some(concept),
            Item::Path(_) => None,
        }
    }

    fn path(&mut self) -> Option<Path> {
        match self.0.pop()? {
            Item::Path(path) => Some(path),
            Item::Concept(_) => None,
        }
    }
}
