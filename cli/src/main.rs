//! The program `bik`. What it does is in the library beside it.

use std::process::ExitCode;

fn main() -> ExitCode {
    bik::command::run(std::env::args_os().skip(1)).into()
}
