//! Names for records, after their files.

use crate::lex::RESERVED;
use crate::model::Name;
use std::collections::HashSet;
use std::path::Path;

/// The names that are given already.
pub(super) struct Naming(HashSet<String>);

impl Naming {
    pub(super) fn besides(names: impl Iterator<Item = String>) -> Self {
        Naming(names.collect())
    }

    pub(super) fn of_file(&mut self, file: &str) -> Name {
        self.another(stem(file))
    }

    pub(super) fn of_view(&mut self, file: &str, number: usize) -> Name {
        self.another(format!("{}_{number}", stem(file)))
    }

    /// The name, or if it is not to be had the first with a number after it that is.
    fn another(&mut self, name: String) -> Name {
        let others = (2..).map(|number: usize| format!("{name}_{number}"));
        let mut names = std::iter::once(name.clone()).chain(others);
        let free = names.find(|name| !RESERVED.contains(&name.as_str()) && !self.0.contains(name));
        let free = free.unwrap_or(name);
        self.0.insert(free.clone());
        Name::unplaced(free)
    }
}

/// The file's name without its ending, with `_` for what cannot stand in a name.
fn stem(file: &str) -> String {
    let stem = Path::new(file).file_stem();
    let stem = stem.map_or_else(|| file.into(), |stem| stem.to_string_lossy());
    let is_kept = |letter: char| letter.is_alphanumeric() || letter == '_';
    let kept = |letter| if is_kept(letter) { letter } else { '_' };
    let name: String = stem.chars().map(kept).collect();
    if name.starts_with(|first: char| first.is_alphabetic() || first == '_') {
        name
    } else {
        format!("_{name}")
    }
}
