//! `check`: what a file has, and how much of each limit it uses.

use super::arguments::Arguments;
use super::{input, lookup, table, Command};
use crate::fault::Fault;
use crate::model::{File, QueryClass, StateFrame};
use crate::output::Answer;
use bikuvoa::layout::{token, CONCEPT};
use bikuvoa::layout::{
    MAX_ATTRIBUTES, MAX_AXIOMS, MAX_CLASSES, MAX_CONSTANTS, MAX_FACTS, MAX_MARKS, MAX_OBJECTS,
    MAX_TOKENS, MAX_VIEWS, QUERY_STEPS, STATE, VIEW_STEPS,
};

pub const COMMAND: Command = Command {
    name: "check",
    takes: "FILE",
    counts: 1..=1,
    options: &[],
    about: "what the file has, what its queries name, and how much of each limit is used",
    more: "
Every command checks its file whole; this one says what it found. More views than the
limit matter only to `order` and to the words of the `catalogue`.
",
    run,
};

type Row = Vec<String>;

fn run(arguments: &Arguments) -> Result<Answer, Fault> {
    let file = input::file(arguments.path(0))?;
    let mut text = table::lines(&schema(&file));
    if !file.queries.is_empty() {
        let heads = ["", "tokens", "steps", "marks", "classes", "attributes"];
        let rows = file.queries.iter().map(|one| query(&file, one));
        text += &section(heads, rows.collect::<Result<Vec<Row>, Fault>>()?);
    }
    if !file.states.is_empty() {
        let rows = file.states.iter().map(state).collect();
        text += &section(["", "objects", "facts"], rows);
    }
    Ok(Answer::yes(text))
}

fn section<const N: usize>(heads: [&str; N], rows: Vec<Row>) -> String {
    let heads = heads.map(str::to_string).to_vec();
    let rows: Vec<Row> = std::iter::once(heads).chain(rows).collect();
    format!("\n{}", table::lines(&rows))
}

fn schema(file: &File) -> Vec<Row> {
    let names = &file.names;
    let classes = names.classes.iter().map(|class| class.text.clone());
    let attributes = names.attributes.iter().map(|attribute| {
        let name = &attribute.name.text;
        match &attribute.inverse {
            Some(inverse) => format!("{name} (inverse {})", inverse.text),
            None => name.clone(),
        }
    });
    let constants = names.constants.iter().map(|constant| {
        let name = &constant.name.text;
        match constant.loose {
            true => format!("{name} (loose)"),
            false => name.clone(),
        }
    });
    let views = file.views().map(|view| view.name.text.clone());
    vec![
        declared("classes", classes, MAX_CLASSES.into()),
        declared("attributes", attributes, MAX_ATTRIBUTES.into()),
        declared("constants", constants, MAX_CONSTANTS.into()),
        vec!["axioms".to_string(), used(2, file.axioms.len(), MAX_AXIOMS)],
        declared("views", views, MAX_VIEWS),
    ]
}

fn declared(what: &str, names: impl Iterator<Item = String>, limit: usize) -> Row {
    let names: Vec<String> = names.collect();
    vec![
        what.to_string(),
        used(2, names.len(), limit),
        names.join(", "),
    ]
}

/// So much of a limit, the number in a field of this width.
fn used(width: usize, count: usize, limit: usize) -> String {
    format!("{count:width$} of {limit}")
}

fn query(file: &File, query: &QueryClass) -> Result<Row, Fault> {
    let (schema, words) = (file.schema(), query.concept.words());
    let (sort, steps, named) = match query.is_view {
        false => (
            "QueryClass",
            QUERY_STEPS,
            bikuvoa::check_query(&schema, &words),
        ),
        true => ("View", VIEW_STEPS, bikuvoa::check_view(&schema, &words)),
    };
    let named = named.map_err(lookup::broken)?;
    let tokens: Vec<_> = CONCEPT.entries(&words).into_iter().flatten().collect();
    let is_used = |mark: &u16| tokens.contains(&token::mark(*mark));
    let marks = (0..MAX_MARKS).filter(is_used).count();
    let names = &file.names;
    let classes: Vec<&str> = named.classes().map(|class| names.class(class)).collect();
    let attributes: Vec<&str> = named.attributes().map(|one| names.attribute(one)).collect();
    Ok(vec![
        format!("{sort} {}", query.name.text),
        used(2, tokens.len(), MAX_TOKENS),
        used(
            2,
            tokens.iter().filter(|&&one| token::is_step(one)).count(),
            steps,
        ),
        match query.is_view {
            false => used(1, marks, MAX_MARKS.into()),
            true => String::new(),
        },
        classes.join(", "),
        attributes.join(", "),
    ])
}

fn state(state: &StateFrame) -> Row {
    let words = state.words();
    let facts = STATE.entries(&words).into_iter().flatten().count();
    vec![
        format!("State {}", state.name.text),
        used(3, state.objects.len(), MAX_OBJECTS.into()),
        used(5, facts, MAX_FACTS),
    ]
}
