//! `order`: the views of a file, narrow ones first.

use super::arguments::Arguments;
use super::{input, lookup, table, Command};
use crate::fault::Fault;
use crate::model::{File, QueryClass};
use crate::output::Answer;
use bikuvoa::layout::{self, MAX_VIEWS};
use bikuvoa::{Catalogued, Refusal};

pub const COMMAND: Command = Command {
    name: "order",
    takes: "FILE",
    counts: 1..=1,
    options: &[],
    about: "the views of the file, narrow ones first, and which hold which",
    more: "
A line has the views that hold each other, a narrower line before a wider one. Then it
says of each view by which others it is held. `check` says how many views there may be.
",
    run,
};

fn run(arguments: &Arguments) -> Result<Answer, Fault> {
    let file = input::file(arguments.path(0))?;
    let (_, catalogued) = catalogue(&file)?;
    let names: Vec<&str> = file.views().map(|view| view.name.text.as_str()).collect();
    let groups = catalogued
        .in_order()
        .map(|group| called(&names, group, " = ") + "\n");
    let groups: String = groups.collect();
    let rows = names.iter().enumerate().map(|(view, name)| {
        let is_held = |&other: &usize| other != view && catalogued.is_held(view, other);
        let others = (0..names.len()).filter(is_held);
        let held = match called(&names, others, ", ") {
            none if none.is_empty() => "no other".to_string(),
            others => others,
        };
        vec![name.to_string(), format!("held by {held}")]
    });
    let rows: Vec<Vec<String>> = rows.collect();
    Ok(Answer::yes(format!("{groups}\n{}", table::lines(&rows))))
}

/// The names of these views.
fn called(names: &[&str], views: impl IntoIterator<Item = usize>, between: &str) -> String {
    let views = views
        .into_iter()
        .filter_map(|view| names.get(view).copied());
    views.collect::<Vec<_>>().join(between)
}

/// The record of the file's views, and what the library says of it.
pub fn catalogue(file: &File) -> Result<(Vec<u16>, Catalogued), Fault> {
    let views: Vec<Vec<u16>> = file.views().map(|view| view.concept.words()).collect();
    let words = layout::catalogue(&views);
    match bikuvoa::catalogue(&file.schema(), &words) {
        Ok(catalogued) => Ok((words, catalogued)),
        Err(Refusal::BAD_CATALOGUE) => Err(uncounted(file, file.views().nth(MAX_VIEWS))),
        Err(refusal) => Err(lookup::broken(refusal)),
    }
}

/// That there are no views, or that this one is too many.
fn uncounted(file: &File, extra: Option<&QueryClass>) -> Fault {
    let refusal = Refusal::BAD_CATALOGUE;
    match extra {
        None => Fault::of(format!("{} has no view: {refusal}", file.source.name)),
        Some(view) => {
            let name = &view.name.text;
            let message = format!("View `{name}` is one more than {MAX_VIEWS}: {refusal}");
            Fault::at(&file.source, view.name.span, message)
        }
    }
}
