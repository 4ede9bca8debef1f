//! `words`: text to records.

use super::arguments::Arguments;
use super::{input, lookup, order, Command};
use crate::decode;
use crate::fault::Fault;
use crate::model::File;
use crate::output::Answer;
use bikuvoa::layout::{self, Layout, CONCEPT, SCHEMA, STATE};
use std::io::{self, IsTerminal};

pub const COMMAND: Command = Command {
    name: "words",
    takes: "FILE NAME [--numbers]",
    counts: 2..=2,
    options: &["--numbers"],
    about: "the record of a query, view or state, of the `schema` or the `catalogue`",
    more: "
  --numbers   prints decimal numbers; so it does on a terminal

Without that the record's bytes are written, two for a word, the low one first. The
numbers are the sizes, then the left words, then the right words, each from a new line.
The catalogue has the views of the file in their order.
",
    run,
};

/// How many numbers a line has.
const LINE: usize = 16;

/// The words of a record, in the parts that it has.
type Parts = Vec<Vec<u16>>;

fn run(arguments: &Arguments) -> Result<Answer, Fault> {
    let file = input::file(arguments.path(0))?;
    let parts = record(&file, &arguments.name(1))?;
    if arguments.has("--numbers") || io::stdout().is_terminal() {
        let lines: String = parts.iter().map(|part| numbers(part)).collect();
        return Ok(Answer::yes(lines));
    }
    Ok(Answer::yes(decode::bytes(&parts.concat())))
}

fn record(file: &File, name: &str) -> Result<Parts, Fault> {
    match name {
        "schema" => return Ok(parts(SCHEMA, &file.schema())),
        "catalogue" => return catalogue(file),
        _ => {}
    }
    if let Some(state) = file.state(name) {
        return Ok(parts(STATE, &state.words()));
    }
    let known = file.queries.iter().map(|query| query.name.text.as_str());
    let known = known.chain(file.states.iter().map(|state| state.name.text.as_str()));
    let known = known.chain(["schema", "catalogue"]);
    match file.query(name) {
        Some(query) => Ok(parts(CONCEPT, &query.concept.words())),
        None => Err(lookup::missing(
            file,
            "no query, view or state",
            name,
            known,
        )),
    }
}

/// The sizes, the left words and the right words.
fn parts(layout: Layout, words: &[u16]) -> Parts {
    let (sizes, entries) = words.split_at(layout.sizes.min(words.len()));
    let (lefts, rights) = entries.split_at(entries.len() / 2);
    vec![sizes.to_vec(), lefts.to_vec(), rights.to_vec()]
}

/// The number of views, their lengths, and the parts of each.
fn catalogue(file: &File) -> Result<Parts, Fault> {
    let (words, _) = order::catalogue(file)?;
    let views = layout::views(&words).unwrap_or_default();
    let (counts, _) = words.split_at((1 + views.len()).min(words.len()));
    let (count, lengths) = counts.split_at(counts.len().min(1));
    let mut all = vec![count.to_vec(), lengths.to_vec()];
    all.extend(views.iter().flat_map(|view| parts(CONCEPT, view)));
    Ok(all)
}

/// Lines of numbers; none for no words.
fn numbers(words: &[u16]) -> String {
    let line = |words: &[u16]| {
        let words: Vec<String> = words.iter().map(u16::to_string).collect();
        words.join(" ") + "\n"
    };
    words.chunks(LINE).map(line).collect()
}
