//! The inputs that are measured, by the tables.

use crate::drawn;
use tools::call::{Call, Entry};
use tools::draw::triple::Marks;
use tools::inputs::{catalogues, concepts, input, Size};

/// A call and what is said of it in the table.
pub struct Input {
    pub size: &'static str,
    pub call: Call,
}

const EVERYTHING: [&str; 3] = [
    "small, everything",
    "middle, everything",
    "largest, everything",
];

/// A small, a middle and a largest input for each entry, and those with marks.
pub fn by_entry_and_size() -> Vec<Input> {
    let inputs = Entry::ALL.iter().flat_map(|&entry| {
        let sizes = Size::of(entry).into_iter();
        sizes.map(move |size| of_size(entry, size))
    });
    inputs.collect()
}

fn of_size(entry: Entry, size: Size) -> Input {
    Input {
        size: size.name(),
        call: input(entry, size),
    }
}

fn by_size(entry: Entry) -> [Input; 3] {
    Size::WITHOUT_MARKS.map(|size| of_size(entry, size))
}

/// The counts of links, to be measured beside select with the same concept and
/// state. It is for everything that select has least to do.
pub fn beside_select() -> Vec<Input> {
    let inputs = Entry::LINKS.iter().flat_map(|&entry| {
        let everything = EVERYTHING.into_iter().zip(by_size(entry));
        let everything = everything.map(|(size, input)| Input {
            size,
            call: of_everything(input.call),
        });
        by_size(entry).into_iter().chain(everything)
    });
    inputs.collect()
}

/// Catalogues, to be measured beside calls for their ordered pairs: those of each
/// size, views of which each is in the next, and equal ones.
pub fn beside_pairs() -> Vec<Input> {
    let chain = Input {
        size: "a chain",
        call: Call {
            catalogue: catalogues::chain(),
            ..input(Entry::Catalogue, Size::Largest)
        },
    };
    let equal = Input {
        size: "equal views",
        call: Call {
            catalogue: catalogues::equal(),
            ..input(Entry::Catalogue, Size::Middle)
        },
    };
    let inputs = by_size(Entry::Catalogue).into_iter();
    inputs.chain([chain, equal]).collect()
}

fn of_everything(call: Call) -> Call {
    Call {
        query: concepts::everything(),
        ..call
    }
}

/// The calls of an entry on an input, both by the names that the tables have.
pub fn named(entry: &str, input: &str) -> Result<Vec<Call>, String> {
    let mut entries = Entry::ALL.iter().copied();
    let found = entries.find(|found| found.name == entry);
    let entry = found.ok_or(format!("no entry {entry}"))?;
    match input {
        "random" => Ok(drawn::calls(entry, Marks::Without)),
        "random, marks" if entry.takes_marks => Ok(drawn::calls(entry, Marks::With)),
        _ => {
            let mut sizes = Size::of(entry).into_iter();
            let found = sizes.find(|size| size.name() == input);
            let size = found.ok_or(format!("no input {input}"))?;
            Ok(vec![of_size(entry, size).call])
        }
    }
}

/// 15 common objects, each in the other, in 64 tokens.
pub fn nested() -> Call {
    Call {
        query: concepts::nested(),
        ..input(Entry::Select, Size::Largest)
    }
}

/// As many tokens and steps without nesting.
pub fn flat() -> Call {
    Call {
        query: concepts::flat(),
        ..input(Entry::Select, Size::Largest)
    }
}
