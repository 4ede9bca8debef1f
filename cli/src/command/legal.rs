//! `legal`: whether a state obeys the schema.

use super::arguments::Arguments;
use super::{input, lookup, Command};
use crate::fault::Fault;
use crate::model::Stated;
use crate::output::Answer;
use crate::print;
use bikuvoa::Legality;

pub const COMMAND: Command = Command {
    name: "legal",
    takes: "FILE STATE",
    counts: 2..=2,
    options: &[],
    about: "whether the state obeys the schema, or the first axiom that it breaks",
    more: "
An axiom is told with the place in the file that states it. Status 1 if the state is
illegal.
",
    run,
};

fn run(arguments: &Arguments) -> Result<Answer, Fault> {
    let file = input::file(arguments.path(0))?;
    let state = lookup::state(&file, &arguments.name(1))?;
    let legality = bikuvoa::legal(&file.schema(), &state.without_choices());
    match legality.map_err(lookup::broken)? {
        Legality::Legal => Ok(Answer::yes("legal\n")),
        Legality::Broken(place) => {
            let unknown = || Fault::of(format!("the library is broken: it tells of axiom {place}"));
            let &Stated { axiom, span } = file.axioms.get(place).ok_or_else(unknown)?;
            let (place, axiom) = (file.source.place(span), print::axiom(&file.names, axiom));
            Ok(Answer::no(format!("illegal: breaks {place} {axiom}\n")))
        }
    }
}
