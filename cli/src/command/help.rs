//! What `--help` says, and what is said of a wrong call.

use super::{Command, COMMANDS};
use crate::fault::Fault;
use crate::near::nearest;

const ABOUT: &str = "\
bik says whether a query may be read from a stored view, and why. The text it reads has
names; the answers are those of the proved library.
";

const MORE: &str = "\
FILE is a text of classes, attributes, queries, views and states, or `-` for standard
input. A QUERY, VIEW or CONCEPT is a query or view of FILE, a class of it, or `Object`.
`bik COMMAND --help` says more of a command, `bik --version` which version this is.

Status: 0 held, legal or fine; 1 open, illegal, or no view serves; 2 bad input, a wrong
call, or a failed write.
";

/// The help of a command, or of the program.
pub fn help(command: Option<&Command>) -> String {
    match command {
        Some(command) => {
            let Command { about, more, .. } = command;
            format!("{}\n\n{about}\n{more}", usage(Some(command)))
        }
        None => {
            let commands: String = COMMANDS.iter().map(|command| listed(command)).collect();
            format!("{ABOUT}\n{}\n\n{commands}\n{MORE}", usage(None))
        }
    }
}

fn listed(command: &Command) -> String {
    let Command {
        name, takes, about, ..
    } = command;
    format!("  {name} {takes}\n      {about}\n")
}

fn usage(command: Option<&Command>) -> String {
    match command {
        Some(Command { name, takes, .. }) => format!("usage: bik {name} {takes}"),
        None => "usage: bik COMMAND ARGUMENT ..".to_string(),
    }
}

/// A line that says what is wrong with the call, and a line of usage.
pub fn misused(command: Option<&Command>, wrong: &str) -> Fault {
    Fault::of(format!("bik: {wrong}\n{}", usage(command)))
}

/// That nothing of this sort is called so, with a name that is near if there is one.
pub fn unknown<'a>(
    none: &str,
    name: &str,
    place: &str,
    known: impl Iterator<Item = &'a str>,
) -> String {
    let near = nearest(name, known);
    let near = near.map_or(String::new(), |near| format!("; did you mean `{near}`?"));
    format!("{none} is called `{name}`{place}{near}")
}
