//! The inputs on which each entry is measured, by size.

pub mod catalogues;
pub mod concepts;
pub mod schemas;
pub mod states;

#[cfg(test)]
mod tests;

use crate::call::Call;
use crate::entries::Entry;
use bikuvoa::layout::MAX_OBJECTS;

#[derive(Clone, Copy)]
pub enum Size {
    Small,
    Middle,
    Largest,
    /// With marks in the query, to be read beside those of the same size without.
    MiddleMarks,
    LargestMarks,
}

impl Size {
    pub const WITHOUT_MARKS: [Size; 3] = [Size::Small, Size::Middle, Size::Largest];
    const WITH_MARKS: [Size; 2] = [Size::MiddleMarks, Size::LargestMarks];

    /// Those that the entry has an input of.
    pub fn of(entry: Entry) -> Vec<Size> {
        let mut sizes = Size::WITHOUT_MARKS.to_vec();
        if entry.takes_marks {
            sizes.extend(Size::WITH_MARKS);
        }
        sizes
    }

    pub fn name(self) -> &'static str {
        match self {
            Size::Small => "small",
            Size::Middle => "middle",
            Size::Largest => "largest",
            Size::MiddleMarks => "middle, marks",
            Size::LargestMarks => "largest, marks",
        }
    }
}

/// The entry's input of that size.
pub fn input(entry: Entry, size: Size) -> Call {
    let mut call = match size {
        Size::Small => small(entry),
        Size::Middle => middle(entry),
        Size::Largest => largest(entry),
        Size::MiddleMarks => Call {
            query: concepts::marked_patients(),
            state: states::choosing(states::all_alike(60, schemas::MEDICAL)),
            ..input(entry, Size::Middle)
        },
        Size::LargestMarks => Call {
            query: concepts::marked_star(),
            ..input(entry, Size::Largest)
        },
    };
    (entry.adapt)(size, &mut call);
    call
}

/// Schema X and state S of document 01, with a concept of two steps.
fn small(entry: Entry) -> Call {
    Call {
        entry,
        schema: schemas::straps(),
        query: concepts::person(),
        view: concepts::there_and_back(),
        catalogue: catalogues::small(),
        state: states::straps(),
        attribute: schemas::WEARS,
        lent: (entry.least_lent)(3),
        order: entry.least_order,
    }
}

/// The medical schema, query and view of the report, over 60 objects.
fn middle(entry: Entry) -> Call {
    Call {
        entry,
        schema: schemas::medical(),
        query: concepts::patients(),
        view: concepts::known_patients(),
        catalogue: catalogues::middle(),
        state: states::all_alike(60, schemas::MEDICAL),
        attribute: schemas::CONSULTS,
        lent: (entry.least_lent)(60),
        order: entry.least_order,
    }
}

/// Records at the limits, with every class and attribute in use, where axioms cost
/// most.
fn largest(entry: Entry) -> Call {
    Call {
        entry,
        schema: schemas::largest(),
        query: concepts::long_paths(),
        view: concepts::six_steps(),
        catalogue: catalogues::largest(),
        state: states::largest(),
        attribute: 0,
        lent: (entry.least_lent)(MAX_OBJECTS.into()),
        order: entry.least_order,
    }
}

/// Puts a state at the limits in which one attribute has nearly all the facts, where
/// steps cost most.
pub fn put_dense(call: &mut Call) {
    call.schema = schemas::dense();
    call.state = states::dense(0);
}
