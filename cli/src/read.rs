//! A text to the model. The library checks all of it: the schema, each query and
//! view in its own place, and each state.

use crate::fault::Fault;
use crate::model::{File, QueryClass, StateFrame};
use crate::parse::parse;
use crate::refused::{self, Role};
use crate::resolve::Resolver;
use crate::source::{Source, Span};
use crate::syntax::Frame;
use bikuvoa::{check_query, check_view, Schema, State};

/// The file that the text says, if the library accepts all of it.
pub fn read(source: Source) -> Result<File, Fault> {
    let frames = parse(&source)?;
    let mut resolver = Resolver::new(source, &frames)?;
    let schema = checked_schema(&resolver.file)?;
    for frame in &frames {
        if let Frame::Query(frame) = frame {
            let query = resolver.query(frame)?;
            check_concept(&resolver.file, &schema, &query)?;
            resolver.file.queries.push(query);
        }
    }
    for frame in &frames {
        if let Frame::State(frame) = frame {
            let state = resolver.state(frame)?;
            check_state(&resolver.file, &schema, &state)?;
            resolver.file.states.push(state);
        }
    }
    Ok(resolver.file)
}

fn checked_schema(file: &File) -> Result<Schema, Fault> {
    let start = Span::default();
    let refused = |refusal| Fault::at(&file.source, start, format!("the schema is {refusal}"));
    Schema::from_words(file.schema()).map_err(refused)
}

fn check_concept(file: &File, schema: &Schema, query: &QueryClass) -> Result<(), Fault> {
    let words = query.concept.words();
    let (checked, role) = match query.is_view {
        true => (check_view(schema.words(), &words), Role::View),
        false => (check_query(schema.words(), &words), Role::Query),
    };
    checked.map_err(|refusal| refused::concept(file, query, role, refusal))?;
    Ok(())
}

fn check_state(file: &File, schema: &Schema, state: &StateFrame) -> Result<(), Fault> {
    State::from_words(schema, state.words()).map_err(|refusal| {
        let name = &state.name;
        Fault::at(
            &file.source,
            name.span,
            format!("`{}` is {refusal}", name.text),
        )
    })?;
    Ok(())
}
