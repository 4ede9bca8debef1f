//! Concepts and paths, and the queries and views made from them.

use crate::calls::{check_query, check_view};
use crate::error::{BuildError, Item};
use crate::layout::{self, token, Pair};
use crate::layout::{CONCEPT, MAX_MARKS, MAX_TOKENS, QUERY_STEPS, VIEW_STEPS};
use crate::refusal::Refusal;
use crate::schema::{check, Attribute, Class, Constant, Schema};

/// A mark of a query, by its number, which is below [`MAX_MARKS`]. All places of a
/// query with the same mark are the same object; different marks may be one object.
///
/// ```
/// use bikuvoa::{Concept, Mark, Path, Query, SchemaBuilder, View};
///
/// # fn main() -> Result<(), bikuvoa::BuildError> {
/// let mut builder = SchemaBuilder::new();
/// let wearer = builder.attribute("wearer")?;
/// let stroke = builder.attribute("stroke")?;
/// let schema = builder.build();
/// let to = |attribute, landing| Path::empty().forward(attribute, landing);
/// let asked = |one: Mark, other: Mark| {
///     let worn = Concept::reached(to(wearer, Concept::mark(one)));
///     let stroked = Concept::reached(to(stroke, Concept::mark(other)));
///     Query::new(&schema, &Concept::both(worn, stroked))
/// };
///
/// // Those whose wearer is also their stroke.
/// let (any, else_any) = (Concept::everything(), Concept::everything());
/// let same = Concept::common(to(wearer, any), to(stroke, else_any));
/// let view = View::new(&schema, &same)?;
/// assert_eq!(schema.holds(&asked(Mark(0), Mark(0))?, &view), Ok(true));
/// assert_eq!(schema.holds(&asked(Mark(0), Mark(1))?, &view), Ok(false));
/// # Ok(())
/// # }
/// ```
#[derive(Clone, Copy, Debug, PartialEq, Eq, PartialOrd, Ord, Hash)]
pub struct Mark(pub u16);

impl Mark {
    pub(crate) fn check(self) -> Result<(), BuildError> {
        check(Item::Mark, self.0, MAX_MARKS)
    }
}

/// A token of a concept in postfix order: what it works on stands before it.
#[derive(Clone, Copy, Debug, PartialEq, Eq, Hash)]
pub enum Token {
    Class(Class),
    Everything,
    Constant(Constant),
    Both,
    Empty,
    Forward(Attribute),
    Backward(Attribute),
    Reached,
    Common,
    Mark(Mark),
}

impl Token {
    /// The token's left and right word.
    pub fn words(self) -> Pair {
        match self {
            Token::Class(class) => token::class(class.0),
            Token::Everything => token::EVERYTHING,
            Token::Constant(constant) => token::constant(constant.0),
            Token::Both => token::BOTH,
            Token::Empty => token::EMPTY,
            Token::Forward(attribute) => token::forward(attribute.0),
            Token::Backward(attribute) => token::backward(attribute.0),
            Token::Reached => token::REACHED,
            Token::Common => token::COMMON,
            Token::Mark(mark) => token::mark(mark.0),
        }
    }

    /// The token with these words, if they are of a known sort.
    pub fn from_words(words: Pair) -> Option<Self> {
        Some(match words {
            (token::CLASS, number) => Token::Class(Class(number)),
            token::EVERYTHING => Token::Everything,
            (token::CONSTANT, number) => Token::Constant(Constant(number)),
            token::BOTH => Token::Both,
            token::EMPTY => Token::Empty,
            (token::FORWARD, number) => Token::Forward(Attribute(number)),
            (token::BACKWARD, number) => Token::Backward(Attribute(number)),
            token::REACHED => Token::Reached,
            token::COMMON => Token::Common,
            (token::MARK, number) => Token::Mark(Mark(number)),
            _ => return None,
        })
    }
}

/// A concept: it selects objects. It is kept as its tokens, so that it is flat
/// however deeply it nests; they always build one concept.
#[derive(Clone, Debug, PartialEq, Eq, Hash)]
pub struct Concept(Vec<Token>);

/// A path: it leads from an object to others, along its steps.
#[derive(Clone, Debug, PartialEq, Eq, Hash)]
pub struct Path(Vec<Token>);

impl Concept {
    /// The objects of the class.
    pub fn class(class: Class) -> Self {
        Concept(vec![Token::Class(class)])
    }

    /// All objects.
    pub fn everything() -> Self {
        Concept(vec![Token::Everything])
    }

    /// The object that the constant names.
    pub fn constant(constant: Constant) -> Self {
        Concept(vec![Token::Constant(constant)])
    }

    /// The object of the mark. A query may have marks, and a view none.
    pub fn mark(mark: Mark) -> Self {
        Concept(vec![Token::Mark(mark)])
    }

    /// The objects that are in each of the two.
    pub fn both(left: Concept, right: Concept) -> Self {
        Concept(joined(left.0, right.0, Token::Both))
    }

    /// The objects from which the path leads to some object.
    pub fn reached(Path(mut tokens): Path) -> Self {
        tokens.push(Token::Reached);
        Concept(tokens)
    }

    /// The objects from which both paths lead to one and the same object.
    pub fn common(left: Path, right: Path) -> Self {
        Concept(joined(left.0, right.0, Token::Common))
    }

    /// The tokens in postfix order.
    pub fn tokens(&self) -> &[Token] {
        &self.0
    }
}

impl Path {
    /// The path without steps, which leads to the object itself.
    pub fn empty() -> Self {
        Path(vec![Token::Empty])
    }

    /// With a step more: to a value of the attribute that is in `landing`.
    pub fn forward(self, attribute: Attribute, landing: Concept) -> Self {
        Path(joined(self.0, landing.0, Token::Forward(attribute)))
    }

    /// With a step more: to an object in `landing` that has this one as a value
    /// of the attribute.
    pub fn backward(self, attribute: Attribute, landing: Concept) -> Self {
        Path(joined(self.0, landing.0, Token::Backward(attribute)))
    }
}

fn joined(mut left: Vec<Token>, right: Vec<Token>, last: Token) -> Vec<Token> {
    left.extend(right);
    left.push(last);
    left
}

/// The record of a concept that has at most so many steps.
fn encode(schema: &Schema, concept: &Concept, limit: usize) -> Result<Vec<u16>, BuildError> {
    let signature = schema.signature();
    let tokens = concept.tokens();
    if tokens.len() > MAX_TOKENS {
        return Err(BuildError::TooMany {
            what: Item::Token,
            limit: MAX_TOKENS,
        });
    }
    for &token in tokens {
        match token {
            Token::Class(class) => signature.check_class(class)?,
            Token::Constant(constant) => signature.check_constant(constant)?,
            Token::Mark(mark) => mark.check()?,
            Token::Forward(attribute) | Token::Backward(attribute) => {
                signature.check_attribute(attribute)?;
            }
            Token::Everything | Token::Both | Token::Empty | Token::Reached | Token::Common => {}
        }
    }
    let entries: Vec<Pair> = tokens.iter().map(|token| token.words()).collect();
    let steps = entries.iter().filter(|&&entry| token::is_step(entry));
    if steps.count() > limit {
        let what = Item::Step;
        return Err(BuildError::TooMany { what, limit });
    }
    Ok(layout::concept(&entries))
}

/// The concept of an accepted record.
fn decode(words: &[u16]) -> Concept {
    let entries = CONCEPT.entries(words).into_iter().flatten();
    Concept(entries.filter_map(Token::from_words).collect())
}

/// A query whose record is accepted under the schema that it was made for. It may
/// have marks; then it can be decided on, and no objects can be selected by it.
#[derive(Clone, Debug, PartialEq, Eq, Hash)]
pub struct Query(Vec<u16>);

impl Query {
    /// A query may have [`QUERY_STEPS`] steps.
    pub fn new(schema: &Schema, concept: &Concept) -> Result<Self, BuildError> {
        encode(schema, concept, QUERY_STEPS).map(Query)
    }

    /// The query of a record, which the library checks.
    pub fn from_words(schema: &Schema, words: Vec<u16>) -> Result<Self, Refusal> {
        check_query(schema.words(), &words)?;
        Ok(Query(words))
    }

    /// The record.
    pub fn words(&self) -> &[u16] {
        &self.0
    }

    pub fn concept(&self) -> Concept {
        decode(&self.0)
    }
}

/// A view whose record is accepted under the schema that it was made for.
#[derive(Clone, Debug, PartialEq, Eq, Hash)]
pub struct View(Vec<u16>);

impl View {
    /// A view may have [`VIEW_STEPS`] steps, and no marks.
    pub fn new(schema: &Schema, concept: &Concept) -> Result<Self, BuildError> {
        for &token in concept.tokens() {
            if let Token::Mark(mark) = token {
                return Err(BuildError::MarkInView(mark));
            }
        }
        encode(schema, concept, VIEW_STEPS).map(View)
    }

    /// The view of a record, which the library checks.
    pub fn from_words(schema: &Schema, words: Vec<u16>) -> Result<Self, Refusal> {
        check_view(schema.words(), &words)?;
        Ok(View(words))
    }

    /// The record.
    pub fn words(&self) -> &[u16] {
        &self.0
    }

    pub fn concept(&self) -> Concept {
        decode(&self.0)
    }
}

/// A view may be asked for as a query: it has no more steps than one, and no marks.
impl From<View> for Query {
    fn from(View(words): View) -> Self {
        Query(words)
    }
}
