//! `links`: how many links of an attribute begin at objects of a concept.

use super::arguments::Arguments;
use super::{input, lookup, Command};
use crate::fault::Fault;
use crate::output::Answer;
use crate::refused::Role;
use bikuvoa::Attribute;

pub const COMMAND: Command = Command {
    name: "links",
    takes: "FILE CONCEPT STATE ATTRIBUTE",
    counts: 4..=4,
    options: &[],
    about: "how many values of the attribute the selected objects have in all",
    more: "
The concept has no marks, and the state need not be legal. The links are counted by
their first objects and by their second ones, which is the same number.
",
    run,
};

fn run(arguments: &Arguments) -> Result<Answer, Fault> {
    let file = input::file(arguments.path(0))?;
    let concept = lookup::concept(&file, &arguments.name(1))?;
    let state = lookup::state(&file, &arguments.name(2))?.without_choices();
    let Attribute(number) = lookup::attribute(&file, &arguments.name(3))?;
    let words = lookup::accepted(&file, &concept, Role::Plain)?;
    let schema = file.schema();
    let by_first = bikuvoa::links_by_first(&schema, &words, &state, number);
    let by_second = bikuvoa::links_by_second(&schema, &words, &state, number);
    match (
        by_first.map_err(lookup::broken)?,
        by_second.map_err(lookup::broken)?,
    ) {
        (first, second) if first == second => Ok(Answer::yes(format!("{first}\n"))),
        (first, second) => Err(Fault::of(format!(
            "the library is broken: it counts {first} links by first objects and {second} by second"
        ))),
    }
}
