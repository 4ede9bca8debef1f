//! The commands of `bik`: one file each, a table of them, and the run of the one
//! that is asked for.

mod arguments;
mod check;
mod decide;
mod explain;
mod help;
mod input;
mod legal;
mod links;
mod lookup;
mod order;
mod select;
mod serve;
mod table;
mod text;
mod words;

use crate::fault::Fault;
use crate::output::{self, Answer};
use arguments::{Arguments, Asked};
use std::ffi::OsString;
use std::ops::RangeInclusive;

/// What a command takes and does.
struct Command {
    name: &'static str,
    /// Its arguments and options, as the usage shows them.
    takes: &'static str,
    /// How many arguments it takes.
    counts: RangeInclusive<usize>,
    /// The options that are its own.
    options: &'static [&'static str],
    /// One line of the list of commands.
    about: &'static str,
    /// What its help says beside that.
    more: &'static str,
    run: fn(&Arguments) -> Result<Answer, Fault>,
}

static COMMANDS: [&Command; 10] = [
    &decide::COMMAND,
    &explain::COMMAND,
    &serve::COMMAND,
    &order::COMMAND,
    &select::COMMAND,
    &legal::COMMAND,
    &links::COMMAND,
    &check::COMMAND,
    &words::COMMAND,
    &text::COMMAND,
];

/// Does what the command line asks, without the program's name in it, and gives the
/// status: 0 held, legal or fine, 1 open, illegal or no view serves, 2 a fault.
pub fn run(line: impl Iterator<Item = OsString>) -> u8 {
    output::finish(arguments::parse(line).and_then(answer))
}

fn answer(asked: Asked) -> Result<Answer, Fault> {
    match asked {
        Asked::Help(command) => Ok(Answer::yes(help::help(command))),
        Asked::Version => Ok(Answer::yes(concat!(
            "bik ",
            env!("CARGO_PKG_VERSION"),
            "\n"
        ))),
        Asked::Run(command, arguments) => (command.run)(&arguments),
    }
}
