//! Tokens to frames. What may stand next is gathered while it is tried, so that a
//! fault can say what is expected.

mod expected;
mod query;
mod schema;
mod state;

use crate::fault::Fault;
use crate::lex::{self, Kind, Token};
use crate::model::Name;
use crate::near::hint;
use crate::source::{Source, Span};
use crate::syntax::Frame;

/// The words with which something new begins.
const BEGINNINGS: [&str; 7] = [
    "Class",
    "Attribute",
    "Constant",
    "axiom",
    "QueryClass",
    "View",
    "State",
];

const A_CLASS: &str = "the name of a class";
const AN_ATTRIBUTE: &str = "the name of an attribute";
const A_CONSTANT: &str = "the name of a constant";
const A_QUERY: &str = "the name of a query";
const AN_OBJECT: &str = "the name of an object";

/// The frames in the order of the text.
pub fn parse(source: &Source) -> Result<Vec<Frame>, Fault> {
    let mut parser = Parser::new(source);
    let mut frames = Vec::new();
    while parser.peek().kind != Kind::End {
        frames.push(parser.frame()?);
    }
    Ok(frames)
}

struct Parser<'a> {
    source: &'a Source,
    tokens: Vec<Token<'a>>,
    next: usize,
    /// What was tried of the next token.
    tried: Vec<&'static str>,
    /// The word and the name with which the frame at hand was begun.
    begun: Option<(&'a str, Name)>,
    /// How many brackets are open.
    depth: usize,
    /// The marks of the query at hand so far.
    marks: Vec<Name>,
}

impl<'a> Parser<'a> {
    fn new(source: &'a Source) -> Self {
        Parser {
            source,
            tokens: lex::tokens(&source.text),
            next: 0,
            tried: Vec::new(),
            begun: None,
            depth: 0,
            marks: Vec::new(),
        }
    }

    fn frame(&mut self) -> Result<Frame, Fault> {
        match self.peek().text {
            "Class" => self.class().map(Frame::Class),
            "Attribute" => self.attribute().map(Frame::Attribute),
            "Constant" => self.constant().map(Frame::Constant),
            "axiom" => self.axiom().map(Frame::Axiom),
            "QueryClass" | "View" => self.query().map(Frame::Query),
            "State" => self.state().map(Frame::State),
            _ => {
                self.tried.extend(BEGINNINGS);
                Err(self.unexpected())
            }
        }
    }

    /// The token so many places ahead; after the last there is only the end.
    fn ahead(&self, places: usize) -> Token<'a> {
        let end = Token {
            kind: Kind::End,
            text: "",
            span: Span::default(),
        };
        let place = self.next.saturating_add(places);
        let token = self.tokens.get(place).or(self.tokens.last());
        token.copied().unwrap_or(end)
    }

    fn peek(&self) -> Token<'a> {
        self.ahead(0)
    }

    fn advance(&mut self) -> Token<'a> {
        let token = self.peek();
        self.next += 1;
        self.tried.clear();
        token
    }

    /// Where the token stands that was read last.
    fn last(&self) -> Span {
        let last = self
            .next
            .checked_sub(1)
            .and_then(|last| self.tokens.get(last));
        last.map_or(Span::default(), |last| last.span)
    }

    /// From the start to the end of what was read last.
    fn since(&self, start: Span) -> Span {
        start.to(self.last())
    }

    /// Whether this word or sign stands next.
    fn is(&mut self, text: &'static str) -> bool {
        let is = self.peek().text == text;
        if !is {
            self.tried.push(text);
        }
        is
    }

    fn take(&mut self, text: &'static str) -> bool {
        let is = self.is(text);
        if is {
            self.advance();
        }
        is
    }

    fn expect(&mut self, text: &'static str) -> Result<(), Fault> {
        if self.take(text) {
            Ok(())
        } else {
            Err(self.unexpected())
        }
    }

    /// Whether a name stands next, here that of such a thing.
    fn is_name(&mut self, what: &'static str) -> bool {
        let is = self.peek().kind == Kind::Name;
        if !is {
            self.tried.push(what);
        }
        is
    }

    fn name(&mut self, what: &'static str) -> Result<Name, Fault> {
        if self.is_name(what) {
            Ok(named(self.advance()))
        } else {
            Err(self.unexpected())
        }
    }

    /// Names with commas between them.
    fn names(&mut self, what: &'static str) -> Result<Vec<Name>, Fault> {
        let mut names = vec![self.name(what)?];
        while self.take(",") {
            names.push(self.name(what)?);
        }
        Ok(names)
    }

    /// The word of a frame and its name.
    fn begin(&mut self, what: &'static str) -> Result<Name, Fault> {
        let word = self.advance().text;
        let name = self.name(what)?;
        self.begun = Some((word, name.clone()));
        Ok(name)
    }

    /// The end of the frame at hand, with its name or without.
    fn end(&mut self) -> Result<(), Fault> {
        self.expect("end")?;
        let begun = self.begun.take();
        if self.peek().kind != Kind::Name {
            return Ok(());
        }
        let token = self.advance();
        match begun {
            Some((_, name)) if name.text != token.text => {
                let line = self.source.place(name.span).line;
                let (ended, begun) = (token.text, name.text);
                let hint = hint(ended, BEGINNINGS.into_iter());
                let message =
                    format!("this ends `{ended}`, but `{begun}` was begun in line {line}{hint}");
                Err(self.fault(token.span, message))
            }
            _ => Ok(()),
        }
    }

    fn fault(&self, span: Span, message: impl Into<String>) -> Fault {
        Fault::at(self.source, span, message)
    }
}

fn named(token: Token) -> Name {
    Name {
        text: token.text.to_string(),
        span: token.span,
    }
}

/// The mark's name or number without the `?`.
fn mark(token: Token) -> Name {
    Name {
        text: token.text.trim_start_matches('?').to_string(),
        span: token.span,
    }
}
