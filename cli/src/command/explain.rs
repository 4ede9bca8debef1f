//! `explain`: why the query may be read from the view, or a state in which it must
//! not.

use super::arguments::Arguments;
use super::{input, lookup, Command};
use crate::explain::{explain, Explanation};
use crate::fault::Fault;
use crate::output::{self, Answer};
use crate::picture;
use crate::progress::Progress;

pub const COMMAND: Command = Command {
    name: "explain",
    takes: "FILE QUERY VIEW [--svg F] [--dot F] [--json]",
    counts: 3..=3,
    options: &["--svg", "--dot", "--json"],
    about: "why the query is held by the view, or a small state that shows it is open",
    more: "
  --svg F   writes a picture of the state to F
  --dot F   writes the same graph to F, for Graphviz
  --json    prints the explanation as JSON

What is shown as a counterexample has passed the library's own check. Status 1 if it is
open.
",
    run,
};

fn run(arguments: &Arguments) -> Result<Answer, Fault> {
    let file = input::file(arguments.path(0))?;
    let query = lookup::concept(&file, &arguments.name(1))?;
    let view = lookup::concept(&file, &arguments.name(2))?;
    let explanation = {
        let mut progress = Progress::new();
        let mut show = |text: &str| progress.show(text);
        let explanation = explain(&file, &query, &view, &mut show)?;
        draw(arguments, &explanation, &mut show)?;
        explanation
    };
    let text = match arguments.has("--json") {
        true => explanation.json(),
        false => explanation.text(),
    };
    let text = format!("{}\n", text.trim_end());
    Ok(Answer::of(explanation.is_held(), text))
}

/// The files come before the answer, which is then said only if they are there.
fn draw(
    arguments: &Arguments,
    explanation: &Explanation,
    progress: &mut dyn FnMut(&str),
) -> Result<(), Fault> {
    let (svg, dot) = (arguments.value("--svg"), arguments.value("--dot"));
    if svg.is_none() && dot.is_none() {
        return Ok(());
    }
    let drawing = explanation.drawing(progress)?;
    if let Some(path) = svg {
        output::save(path, &picture::svg(&drawing))?;
    }
    if let Some(path) = dot {
        output::save(path, &picture::dot(&drawing))?;
    }
    Ok(())
}
