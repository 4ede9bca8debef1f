//! A model from records. They have no names, so numbers and the names of their
//! files stand for these.

mod concept;
mod naming;

use crate::fault::Fault;
use crate::model::{AttributeNames, ConstantName, File, Name, Names};
use crate::model::{QueryClass, StateFrame, Stated};
use crate::refused::{in_record, Role, Sort};
use crate::source::{Source, Span};
use bikuvoa::layout::{self, Signature, CONCEPT, MAX_VIEWS, STATE};
use bikuvoa::{Mark, Schema, State, Token};
use naming::Naming;

pub use concept::concept;

/// The words of a record's file, in which the low byte of each comes first.
pub fn words(file: &str, bytes: &[u8]) -> Result<Vec<u16>, Fault> {
    let pairs = bytes.chunks_exact(2);
    if !pairs.remainder().is_empty() {
        let message = format!("{} bytes are no words, which have two each", bytes.len());
        return Err(Fault::in_record(file, None, message));
    }
    let words = pairs.filter_map(|pair| pair.try_into().ok());
    Ok(words.map(u16::from_le_bytes).collect())
}

/// The bytes of a record's file.
pub fn bytes(words: &[u16]) -> Vec<u8> {
    words.iter().flat_map(|word| word.to_le_bytes()).collect()
}

/// The model of a schema's record and of further ones, each with the name of its
/// file. A concept is a query, and the views of a catalogue are views.
pub fn file(schema: (&str, Vec<u16>), others: Vec<(&str, Vec<u16>)>) -> Result<File, Fault> {
    let mut decoder = Decoder::new(schema)?;
    for (file, words) in others {
        match sort(&words) {
            Shape::Concept => decoder.query(file, &words)?,
            Shape::Catalogue => decoder.catalogue(file, &words)?,
            Shape::State => decoder.state(file, words)?,
        }
    }
    Ok(decoder.file)
}

enum Shape {
    Concept,
    State,
    Catalogue,
}

/// The sort of a record that is accepted, and otherwise the one as which its refusal
/// is told. The length of an accepted record fits the counts of one sort alone, but
/// for a catalogue of two views of one length, which could be a state: there the views
/// themselves tell.
fn sort(words: &[u16]) -> Shape {
    let views = layout::views(words);
    let has_views = views.as_ref().is_some_and(|views| {
        views.len() <= MAX_VIEWS && views.iter().all(|view| may_be_concept(view))
    });
    if may_be_concept(words) {
        Shape::Concept
    } else if has_views {
        Shape::Catalogue
    } else if STATE.entries(words).is_some() {
        Shape::State
    } else if views.is_some() {
        Shape::Catalogue
    } else if words.len() % 2 == 0 {
        Shape::Concept
    } else {
        Shape::State
    }
}

fn may_be_concept(words: &[u16]) -> bool {
    let entries = CONCEPT.entries(words).map_or(0, |entries| entries.len());
    (1..=CONCEPT.max).contains(&entries)
}

struct Decoder {
    schema: Schema,
    naming: Naming,
    file: File,
}

impl Decoder {
    fn new((file, words): (&str, Vec<u16>)) -> Result<Self, Fault> {
        let refused = |refusal| in_record(file, Sort::Schema, &words, refusal);
        let schema = Schema::from_words(words.clone()).map_err(refused)?;
        let span = Span::default();
        let axioms = schema.axioms().map(|axiom| Stated { axiom, span });
        let names = names(schema.signature());
        let classes = names.classes.iter().map(|class| class.text.clone());
        Ok(Decoder {
            naming: Naming::besides(classes),
            file: File {
                source: Source {
                    name: file.to_string(),
                    text: String::new(),
                },
                axioms: axioms.collect(),
                names,
                queries: Vec::new(),
                states: Vec::new(),
            },
            schema,
        })
    }

    fn query(&mut self, file: &str, words: &[u16]) -> Result<(), Fault> {
        let schema = self.schema.words();
        bikuvoa::check_query(schema, words).map_err(|refusal| {
            let role = Role::Query;
            in_record(file, Sort::Concept { schema, role }, words, refusal)
        })?;
        let name = self.naming.of_file(file);
        self.push(name, words, false);
        Ok(())
    }

    fn catalogue(&mut self, file: &str, words: &[u16]) -> Result<(), Fault> {
        let schema = self.schema.words();
        bikuvoa::catalogue(schema, words)
            .map_err(|refusal| in_record(file, Sort::Catalogue { schema }, words, refusal))?;
        for (number, view) in layout::views(words).into_iter().flatten().enumerate() {
            let name = self.naming.of_view(file, number);
            self.push(name, view, true);
        }
        Ok(())
    }

    /// The query or view of an accepted record.
    fn push(&mut self, name: Name, words: &[u16], is_view: bool) {
        let Some(concept) = concept(words) else {
            return;
        };
        let tokens = concept.tokens();
        let used = |mark: &Mark| tokens.contains(&Token::Mark(*mark));
        let marks = (0..layout::MAX_MARKS).map(Mark).filter(used);
        self.file.queries.push(QueryClass {
            name,
            is_view,
            marks: marks.map(|mark| (mark.0.to_string(), mark)).collect(),
            concept,
        });
    }

    fn state(&mut self, file: &str, words: Vec<u16>) -> Result<(), Fault> {
        let schema = self.schema.words();
        let refused = |refusal| in_record(file, Sort::State { schema }, &words, refusal);
        let state = State::from_words(&self.schema, words.clone()).map_err(refused)?;
        self.file.states.push(StateFrame {
            name: self.naming.of_file(file),
            query: None,
            objects: numbered("object", state.objects()).collect(),
            facts: state.facts().map(|fact| (fact, Span::default())).collect(),
        });
        Ok(())
    }
}

fn names(signature: Signature) -> Names {
    let attributes = numbered("attribute", signature.attributes);
    let constants = (0..).zip(numbered("constant", signature.constants));
    Names {
        classes: numbered("Class", signature.classes).collect(),
        attributes: attributes
            .map(|name| AttributeNames {
                name,
                inverse: None,
            })
            .collect(),
        constants: constants
            .map(|(number, name)| ConstantName {
                name,
                loose: signature.is_loose(number),
            })
            .collect(),
    }
}

fn numbered(what: &'static str, count: u16) -> impl Iterator<Item = Name> {
    (0..count).map(move |number| Name::unplaced(format!("{what}{number}")))
}
