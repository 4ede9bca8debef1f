//! Names for the objects of a state, after their classes, and the state as a frame of
//! the text.

use super::facts::Facts;
use crate::model::{File, Name, QueryClass, StateFrame};
use crate::source::Span;
use bikuvoa::{Axiom, Class, Fact, Mark, Object};

/// The state as it is printed, with objects called `person0`, `strap1`.
pub fn frame(file: &File, query: &QueryClass, facts: &Facts) -> StateFrame {
    let has_marks = facts
        .facts
        .iter()
        .any(|fact| matches!(fact, Fact::Choice { .. }));
    let place = file
        .queries
        .iter()
        .position(|known| known.name.text == query.name.text);
    let supers = Superclasses::of(file);
    let objects =
        (0..facts.objects).map(|number| object_name(file, &supers, facts, Object(number)));
    StateFrame {
        name: Name::unplaced(free_name(file)),
        query: place.filter(|_| has_marks),
        objects: objects.map(Name::unplaced).collect(),
        facts: facts
            .facts
            .iter()
            .map(|&fact| (fact, Span::default()))
            .collect(),
    }
}

/// `counterexample`, with a number if the file has something else of that name.
fn free_name(file: &File) -> String {
    let is_taken = |name: &String| {
        file.names.classes.iter().any(|class| class.text == *name)
            || file.query(name).is_some()
            || file.state(name).is_some()
    };
    let mut name = "counterexample".to_string();
    let mut number = 1;
    while is_taken(&name) {
        number += 1;
        name = format!("counterexample{number}");
    }
    name
}

/// The object is called after a class of which it is in no subclass. Of several the one
/// with the fewest subclasses says most, and of these the first declared.
fn object_name(file: &File, supers: &Superclasses, facts: &Facts, object: Object) -> String {
    let classes = classes(facts, object);
    let is_special = |&&class: &&Class| {
        let is_below = |&other: &Class| supers.is_strictly_below(other, class);
        !classes.iter().any(is_below)
    };
    let special = classes.iter().filter(is_special);
    let special = special.min_by_key(|&&class| supers.below(class));
    let mut base = special.map_or_else(
        || "object".to_string(),
        |&class| lowered(file.names.class(class)),
    );
    // The number at the end tells objects apart, and no object has a class's name.
    let is_class = |name: &String| file.names.classes.iter().any(|class| class.text == *name);
    if base.ends_with(|last: char| last.is_ascii_digit()) {
        base.push('_');
    }
    while is_class(&format!("{base}{}", object.0)) {
        base.push('_');
    }
    format!("{base}{}", object.0)
}

/// The classes of the object, in the order of their declaration.
pub fn classes(facts: &Facts, object: Object) -> Vec<Class> {
    let mut classes = Vec::new();
    for &fact in &facts.facts {
        match fact {
            Fact::Member {
                class,
                object: member,
            } if member == object => classes.push(class),
            _ => {}
        }
    }
    classes
}

/// The mark's name in the query, or its number.
pub fn mark(query: &QueryClass, mark: Mark) -> String {
    let known = query.marks.iter().find(|(_, known)| *known == mark);
    known.map_or_else(|| mark.0.to_string(), |(name, _)| name.clone())
}

/// With its first letter in lower case, if that is a letter again.
fn lowered(name: &str) -> String {
    let mut letters = name.chars();
    let first: String = letters
        .next()
        .into_iter()
        .flat_map(char::to_lowercase)
        .collect();
    match first.chars().all(char::is_alphabetic) {
        true => first + letters.as_str(),
        false => name.to_string(),
    }
}

/// Which class is below which, by the subclass axioms and what follows from them.
struct Superclasses(Vec<Vec<bool>>);

impl Superclasses {
    fn of(file: &File) -> Self {
        let count = file.names.classes.len();
        let mut below = vec![vec![false; count]; count];
        for stated in &file.axioms {
            if let Axiom::Subclass { class, superclass } = stated.axiom {
                below[usize::from(class.0)][usize::from(superclass.0)] = true;
            }
        }
        for middle in 0..count {
            for class in 0..count {
                if below[class][middle] {
                    let above = below[middle].clone();
                    for (superclass, is_above) in below[class].iter_mut().zip(above) {
                        *superclass |= is_above;
                    }
                }
            }
        }
        Superclasses(below)
    }

    /// How many classes are below this one.
    fn below(&self, Class(superclass): Class) -> usize {
        let of = |row: &&Vec<bool>| row[usize::from(superclass)];
        self.0.iter().filter(of).count()
    }

    /// Classes that include each other in a circle are not below one another.
    fn is_strictly_below(&self, Class(class): Class, Class(superclass): Class) -> bool {
        let (class, superclass) = (usize::from(class), usize::from(superclass));
        self.0[class][superclass] && !self.0[superclass][class]
    }
}
