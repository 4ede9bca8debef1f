//! `text`: records to text.

use super::arguments::Arguments;
use super::{input, Command};
use crate::fault::Fault;
use crate::output::Answer;
use crate::{decode, print};

pub const COMMAND: Command = Command {
    name: "text",
    takes: "SCHEMA.bin [RECORD.bin ..]",
    counts: 1..=usize::MAX,
    options: &[],
    about: "the text of a schema's record, and of further records under it",
    more: "
A further record is that of a query, a view, a state or a catalogue. What is printed is a
file for every other command, and its words are these records again.
",
    run,
};

fn run(arguments: &Arguments) -> Result<Answer, Fault> {
    let names: Vec<String> = arguments
        .paths()
        .iter()
        .map(|path| input::name(path))
        .collect();
    let mut records = Vec::new();
    for (path, name) in arguments.paths().iter().zip(&names) {
        records.push((name.as_str(), decode::words(name, &input::bytes(path)?)?));
    }
    let mut records = records.into_iter();
    // There is always one, by the count of arguments.
    let schema = records.next().unwrap_or_default();
    let file = decode::file(schema, records.collect())?;
    Ok(Answer::yes(print::file(&file)))
}
