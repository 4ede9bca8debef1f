//! Files that are read.

use crate::fault::Fault;
use crate::model::File;
use crate::read;
use crate::source::{Source, Span};
use std::ffi::OsStr;
use std::fs;
use std::io::{self, Read};

/// Far above the text of the largest states; an endless input ends here.
const MOST_BYTES: usize = 16_000_000;

/// The file of a text, checked whole.
pub fn file(path: &OsStr) -> Result<File, Fault> {
    read::read(text(name(path), bytes(path)?)?)
}

/// The name under which the faults of a file are told.
pub fn name(path: &OsStr) -> String {
    path.to_string_lossy().into_owned()
}

/// The bytes of a file, or of standard input.
pub fn bytes(path: &OsStr) -> Result<Vec<u8>, Fault> {
    let read = match path == "-" {
        true => some(io::stdin().lock()),
        false => fs::File::open(path).and_then(some),
    };
    let unread = |why: String| Fault::of(format!("bik: cannot read {}: {why}", name(path)));
    let bytes = read.map_err(|error| unread(error.to_string()))?;
    match bytes.len() > MOST_BYTES {
        true => Err(unread(format!("it has more than {MOST_BYTES} bytes"))),
        false => Ok(bytes),
    }
}

/// All bytes, or one more than there may be.
fn some(input: impl Read) -> io::Result<Vec<u8>> {
    let mut bytes = Vec::new();
    let most = MOST_BYTES as u64 + 1;
    input.take(most).read_to_end(&mut bytes)?;
    Ok(bytes)
}

/// The text of the bytes, or the place of the first that is none.
fn text(name: String, bytes: Vec<u8>) -> Result<Source, Fault> {
    let error = match String::from_utf8(bytes) {
        Ok(text) => return Ok(Source { name, text }),
        Err(error) => error,
    };
    let start = error.utf8_error().valid_up_to();
    let byte = error.as_bytes().get(start).copied().unwrap_or_default();
    // Up to that byte it is the same text, and there it has this character.
    let text = String::from_utf8_lossy(error.as_bytes()).into_owned();
    let end = start + char::REPLACEMENT_CHARACTER.len_utf8();
    let message = format!("the byte {byte:#04x} here is no text in UTF-8");
    Err(Fault::at(
        &Source { name, text },
        Span { start, end },
        message,
    ))
}
