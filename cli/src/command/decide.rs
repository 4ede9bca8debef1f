//! `decide`: whether the query may be read from the view.

use super::arguments::Arguments;
use super::{input, lookup, Command};
use crate::fault::Fault;
use crate::output::Answer;
use crate::refused::Role;

pub const COMMAND: Command = Command {
    name: "decide",
    takes: "FILE QUERY VIEW",
    counts: 3..=3,
    options: &[],
    about: "whether every object of the query is in the view: HELD or OPEN",
    more: "
HELD says it of every state that obeys the schema, of any size. OPEN says that some such
state has an object of the query outside the view; `bik explain` shows one. Status 1 if
it is open.
",
    run,
};

fn run(arguments: &Arguments) -> Result<Answer, Fault> {
    let file = input::file(arguments.path(0))?;
    let query = lookup::concept(&file, &arguments.name(1))?;
    let view = lookup::concept(&file, &arguments.name(2))?;
    let asked = lookup::accepted(&file, &query, Role::Query)?;
    let stored = lookup::accepted(&file, &view, Role::View)?;
    let is_held = bikuvoa::holds(&file.schema(), &asked, &stored).map_err(lookup::broken)?;
    let (query, view) = (&query.name.text, &view.name.text);
    let verdict = match is_held {
        true => format!("HELD  every object of {query} is in {view}\n"),
        false => format!("OPEN  some object of {query} need not be in {view}\n"),
    };
    Ok(Answer::of(is_held, verdict))
}
