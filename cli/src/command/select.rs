//! `select`: which objects of a state are in a concept.

use super::arguments::Arguments;
use super::{input, lookup, Command};
use crate::fault::Fault;
use crate::output::Answer;
use crate::refused::Role;
use bikuvoa::Object;

pub const COMMAND: Command = Command {
    name: "select",
    takes: "FILE CONCEPT STATE",
    counts: 3..=3,
    options: &[],
    about: "the objects of the state that the concept selects, one a line",
    more: "
The concept has no marks. The state need not be legal, and which objects it says that
marks are is of no matter.
",
    run,
};

fn run(arguments: &Arguments) -> Result<Answer, Fault> {
    let file = input::file(arguments.path(0))?;
    let concept = lookup::concept(&file, &arguments.name(1))?;
    let state = lookup::state(&file, &arguments.name(2))?;
    let words = lookup::accepted(&file, &concept, Role::Plain)?;
    let selected = bikuvoa::select(&file.schema(), &words, &state.without_choices());
    let selected = selected.map_err(lookup::broken)?.into_iter();
    let names = selected.filter_map(|Object(number)| state.objects.get(usize::from(number)));
    let lines: String = names.map(|name| format!("{}\n", name.text)).collect();
    Ok(Answer::yes(lines))
}
