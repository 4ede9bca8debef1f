//! What a command says, written once and at the end. Nothing here panics where a
//! write fails, and no failed write is passed over in silence: printing macros
//! would do the one, and a status of 0 or 1 the other.

use crate::fault::Fault;
use std::ffi::OsStr;
use std::io::{self, Write};
use std::{fmt, fs};

/// The status of bad input, of a wrong call and of a failed write.
const FAULT: u8 = 2;

/// What goes to standard output, and the status of the program.
#[derive(Debug)]
pub struct Answer {
    content: Vec<u8>,
    status: u8,
}

impl Answer {
    /// Held, legal or fine.
    pub fn yes(content: impl Into<Vec<u8>>) -> Self {
        let content = content.into();
        Answer { content, status: 0 }
    }

    /// Open, illegal, or no view serves.
    pub fn no(content: impl Into<Vec<u8>>) -> Self {
        let content = content.into();
        Answer { content, status: 1 }
    }

    pub fn of(is_yes: bool, content: impl Into<Vec<u8>>) -> Self {
        match is_yes {
            true => Answer::yes(content),
            false => Answer::no(content),
        }
    }
}

/// Writes the answer, or the fault in its place, and gives the status.
pub fn finish(answer: Result<Answer, Fault>) -> u8 {
    let written = answer.and_then(|answer| {
        write(&mut io::stdout().lock(), &answer.content)
            .map_err(|error| unwritten("standard output", error))?;
        Ok(answer.status)
    });
    written.unwrap_or_else(|fault| {
        // There is no further place to tell that this failed; the status says it.
        let _ = write(&mut io::stderr().lock(), format!("{fault}\n").as_bytes());
        FAULT
    })
}

/// Writes a file beside the answer.
pub fn save(path: &OsStr, content: &str) -> Result<(), Fault> {
    fs::write(path, content).map_err(|error| unwritten(path.to_string_lossy(), error))
}

fn write(out: &mut impl Write, content: &[u8]) -> io::Result<()> {
    out.write_all(content)?;
    out.flush()
}

fn unwritten(what: impl fmt::Display, error: io::Error) -> Fault {
    Fault::of(format!("bik: cannot write {what}: {error}"))
}
