//! `serve`: the view from which a query is to be read.

use super::arguments::Arguments;
use super::{input, lookup, Command};
use crate::fault::Fault;
use crate::model::{File, QueryClass};
use crate::output::Answer;
use crate::progress::Progress;
use crate::refused::Role;

pub const COMMAND: Command = Command {
    name: "serve",
    takes: "FILE QUERY",
    counts: 2..=2,
    options: &[],
    about: "the first view of the file that holds the query, to be filtered or equal",
    more: "
The views are tried in the order of the file. `filter`: the view's list has every object
of the query, and maybe more. `equal`: the list is the answer itself. Status 1 if no view
holds the query.
",
    run,
};

fn run(arguments: &Arguments) -> Result<Answer, Fault> {
    let file = input::file(arguments.path(0))?;
    let query = lookup::concept(&file, &arguments.name(1))?;
    let name = &query.name.text;
    Ok(match first(&file, &query)? {
        None => Answer::no(format!("no view holds {name}: read the whole store\n")),
        Some((view, false)) => {
            let view = &view.name.text;
            Answer::yes(format!(
                "{view}  filter  every object of {name} is there, and maybe others\n"
            ))
        }
        Some((view, true)) => {
            let view = &view.name.text;
            Answer::yes(format!(
                "{view}  equal  every object of {name} is there, and no others\n"
            ))
        }
    })
}

/// The first view that holds the query, and whether the query holds it too.
fn first<'a>(file: &'a File, query: &QueryClass) -> Result<Option<(&'a QueryClass, bool)>, Fault> {
    let schema = file.schema();
    let asked = lookup::accepted(file, query, Role::Query)?;
    // A query with marks or many steps cannot stand as a view: then filter always.
    let may_be_equal = bikuvoa::check_view(&schema, &asked).is_ok();
    let holds =
        |query: &[u16], view: &[u16]| bikuvoa::holds(&schema, query, view).map_err(lookup::broken);
    let mut progress = Progress::new();
    for view in file.views() {
        progress.show(&format!("view {}", view.name.text));
        let stored = view.concept.words();
        if holds(&asked, &stored)? {
            let is_equal = may_be_equal && holds(&stored, &asked)?;
            return Ok(Some((view, is_equal)));
        }
    }
    Ok(None)
}
