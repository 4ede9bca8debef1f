//! What the tests of explanations share.
#![allow(dead_code)]

pub mod drawn;
pub mod held;
pub mod open;
pub mod value;

use bik::explain::{explain, Explanation};
use bik::model::File;
use bik::read::read;
use bik::source::Source;

pub fn file(name: &str, text: &str) -> File {
    let source = Source {
        name: name.to_string(),
        text: text.to_string(),
    };
    read(source).unwrap_or_else(|fault| panic!("{fault}\n{text}"))
}

/// The answer for the query and the view of these names.
pub fn asked(file: &File, query: &str, view: &str) -> Explanation {
    let query = file.query(query).expect("a query");
    let view = file.query(view).expect("a view");
    explain(file, query, view, &mut |_| {}).unwrap_or_else(|fault| panic!("{fault}"))
}

/// The record of the query or view of that name.
pub fn words(file: &File, name: &str) -> Vec<u16> {
    file.query(name).expect("a query").concept.words()
}

/// The state of an answer OPEN, from its frame's first line to its last.
pub fn state_of(text: &str) -> String {
    let lines = text.lines().skip_while(|line| !line.starts_with("State "));
    let mut state = String::new();
    for line in lines {
        state += line;
        state += "\n";
        if line.starts_with("end ") {
            break;
        }
    }
    state
}
