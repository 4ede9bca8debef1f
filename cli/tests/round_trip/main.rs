//! Words to text to words is the identity on every accepted record of the tests and
//! on random ones, and the text that is printed from what was read is the same text.

mod damaged;
mod drawn;
mod names;
mod stored;
mod texts;

use bik::model::{File, QueryClass};
use bik::source::Source;
use bik::{decode, print, read};
use bikuvoa::layout;

/// The text is read, or the test fails and shows it.
fn reading(text: &str) -> File {
    let source = Source {
        name: "printed".to_string(),
        text: text.to_string(),
    };
    read::read(source).unwrap_or_else(|fault| panic!("{fault}\n{text}"))
}

/// All records of a file: its schema, its queries, the catalogue of its views if it
/// has any, and its states.
fn records(file: &File) -> Vec<Vec<u16>> {
    let words = |query: &QueryClass| query.concept.words();
    let queries = file.queries.iter().filter(|query| !query.is_view);
    let mut records = vec![file.schema()];
    records.extend(queries.map(words));
    let views: Vec<Vec<u16>> = file.views().map(words).collect();
    if !views.is_empty() {
        records.push(layout::catalogue(&views));
    }
    records.extend(file.states.iter().map(|state| state.words()));
    records
}

/// Holds that the records, in the order of `records`, are the same after they were
/// made a model and after they were printed and read. Gives the text.
fn there_and_back(given: &[Vec<u16>]) -> String {
    let (schema, others) = given.split_first().expect("a schema");
    let others = others.iter().map(|words| ("record.bin", words.clone()));
    let decoded = decode::file(("schema.bin", schema.clone()), others.collect());
    let decoded = decoded.unwrap_or_else(|fault| panic!("{fault}: {given:?}"));
    assert_eq!(records(&decoded), given, "as a model");
    let text = print::file(&decoded);
    let read = reading(&text);
    assert_eq!(records(&read), given, "{text}");
    assert_eq!(print::file(&read), text);
    text
}
