//! Concept records: refusals 3 to 6, each looked for over the whole record
//! before the next.

use super::entries;
use crate::syntax::{Concept, Direction, Path, Role, Schema, Step};

const TOKENS: u16 = 64;

/// Where a concept stands, which says what it may have.
#[derive(Clone, Copy, Debug, PartialEq, Eq)]
pub enum Place {
    /// By itself, for a selection or a count of links.
    Concept,
    /// Before a view.
    Query,
    View,
}

impl Place {
    fn step_limit(self) -> u16 {
        match self {
            Place::Concept | Place::Query => 16,
            Place::View => 6,
        }
    }

    /// How many marks there are.
    fn marks(self) -> usize {
        match self {
            Place::Query => 4,
            Place::Concept | Place::View => 0,
        }
    }
}

#[derive(Clone, Copy)]
enum Token {
    Class(usize),
    Everything,
    Constant(usize),
    Mark(usize),
    Both,
    Empty,
    Step(Role),
    Reached,
    Common,
}

enum Item {
    Concept(Concept),
    Path(Path),
}

/// Decodes a concept record or gives the number of its refusal.
pub fn concept(words: &[u16], schema: &Schema, place: Place) -> Result<Concept, u16> {
    let &[count, steps, ..] = words else {
        return Err(3);
    };
    if count == 0 || count > TOKENS {
        return Err(3);
    }
    let pairs = entries(words, 2, count).ok_or(3u16)?;
    let tokens = pairs
        .iter()
        .map(|&(sort, argument)| token(schema, place, sort, argument))
        .collect::<Option<Vec<Token>>>()
        .ok_or(4u16)?;
    let concept = build(&tokens).ok_or(5u16)?;
    let counted = tokens
        .iter()
        .filter(|token| matches!(token, Token::Step(_)))
        .count();
    if counted != usize::from(steps) || steps > place.step_limit() {
        return Err(6);
    }
    Ok(concept)
}

fn token(schema: &Schema, place: Place, sort: u16, argument: u16) -> Option<Token> {
    let number = usize::from(argument);
    let step = |direction| Role {
        attribute: number,
        direction,
    };
    let (token, arguments) = match sort {
        1 => (Token::Class(number), schema.classes),
        2 => (Token::Everything, 1),
        3 => (Token::Constant(number), schema.constants),
        4 => (Token::Both, 1),
        5 => (Token::Empty, 1),
        6 => (Token::Step(step(Direction::Forward)), schema.attributes),
        7 => (Token::Step(step(Direction::Backward)), schema.attributes),
        8 => (Token::Reached, 1),
        9 => (Token::Common, 1),
        10 => (Token::Mark(number), place.marks()),
        _ => return None,
    };
    // A token without an argument allows 0 alone, hence the count of 1 above.
    (number < arguments).then_some(token)
}

fn build(tokens: &[Token]) -> Option<Concept> {
    let mut pile = Vec::new();
    for &token in tokens {
        let item = put(&mut pile, token)?;
        pile.push(item);
    }
    let concept = take_concept(&mut pile)?;
    pile.is_empty().then_some(concept)
}

/// What the token puts on the pile, after it has taken what it needs.
fn put(pile: &mut Vec<Item>, token: Token) -> Option<Item> {
    Some(match token {
        Token::Class(number) => Item::Concept(Concept::Class(number)),
        Token::Everything => Item::Concept(Concept::Everything),
        Token::Constant(number) => Item::Concept(Concept::Constant(number)),
        Token::Mark(number) => Item::Concept(Concept::Mark(number)),
        Token::Both => {
            let right = take_concept(pile)?;
            let left = take_concept(pile)?;
            Item::Concept(Concept::Both(Box::new(left), Box::new(right)))
        }
        Token::Empty => Item::Path(Path::Empty),
        Token::Step(role) => {
            let landing = take_concept(pile)?;
            let before = take_path(pile)?;
            let step = Step { role, landing };
            Item::Path(Path::Then(Box::new(before), Box::new(step)))
        }
        Token::Reached => Item::Concept(Concept::Reached(take_path(pile)?)),
        Token::Common => {
            let right = take_path(pile)?;
            let left = take_path(pile)?;
            Item::Concept(Concept::Common(left, right))
        }
    })
}

fn take_concept(pile: &mut Vec<Item>) -> Option<Concept> {
    match pile.pop()? {
        Item::Concept(concept) => Some(concept),
        Item::Path(_) => None,
    }
}

fn take_path(pile: &mut Vec<Item>) -> Option<Path> {
    match pile.pop()? {
        Item::Path(path) => Some(path),
        Item::Concept(_) => None,
    }
}
