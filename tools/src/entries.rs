//! The entries of the library. What the programs know of one is its `Definition`, in
//! the file of its family.
//!
//! A new entry adds two things: its definition, in its family's file below `entries/`,
//! and a line in the list at the end of this file. The definition calls it in
//! `bikuvoa::raw` and in `reference::entries`. It is then compared on what the
//! comparison of its family draws and on damaged records, and it is measured. Counts of
//! its answers, and wrong answers that must be found, are added to that comparison and
//! to its tests.
//!
//! A new family also adds its file below `entries/`, and in `bin/compare` a comparison
//! that draws for it. Something new to pass is a `Place` and a field of `Call`, and
//! something new that is written is a field of `Out`.

pub mod definition;

mod catalogue;
mod checks;
mod links;
mod states;
mod verdicts;

use definition::Definition;
use std::ops::Deref;

/// Writes an enum of all entries, a list of them, a list for each family, and which
/// definition each has, so that none can be in one of these and not in another.
macro_rules! entries {
    ($(
        $(#[$about:meta])*
        $family:ident {
            $($entry:ident: $definition:expr,)*
        }
    )*) => {
        #[derive(Clone, Copy, Debug, PartialEq, Eq)]
        pub enum Entry {
            $($($entry,)*)*
        }

        impl Entry {
            pub const ALL: &'static [Entry] = &[$($(Entry::$entry,)*)*];

            $(
                $(#[$about])*
                pub const $family: &'static [Entry] = &[$(Entry::$entry,)*];
            )*
        }

        /// An entry is asked what its definition tells.
        impl Deref for Entry {
            type Target = Definition;

            fn deref(&self) -> &'static Definition {
                match self {
                    $($(Entry::$entry => &$definition,)*)*
                }
            }
        }
    };
}

entries! {
    /// Those that check a concept by itself and tell what it names.
    CHECKS {
        CheckConcept: checks::CONCEPT,
        CheckQuery: checks::QUERY,
        CheckView: checks::VIEW,
    }
    /// Those that judge a state.
    STATES {
        Select: states::SELECT,
        Legal: states::LEGAL,
        Counterexample: states::COUNTEREXAMPLE,
    }
    /// Those that count links, which take an attribute.
    LINKS {
        LinksByFirst: links::BY_FIRST,
        LinksBySecond: links::BY_SECOND,
    }
    /// Those that tell whether a view holds a query.
    VERDICTS {
        Decide: verdicts::DECIDE,
        Holds: verdicts::HOLDS,
    }
    /// Those that take a catalogue.
    CATALOGUES {
        Catalogue: catalogue::CATALOGUE,
    }
}
