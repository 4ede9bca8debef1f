//! Whether a query may be read from a stored list (a view) instead of the whole
//! store. The answers come from a library whose every function is proved to
//! meet its contract; this crate calls it and builds its records. The crate
//! itself is not proved.
//!
//! ```
//! use bikuvoa::{Concept, Decision, Path, Query, SchemaBuilder, View};
//!
//! # fn main() -> Result<(), bikuvoa::BuildError> {
//! // A rower wears a strap, and only persons wear straps.
//! let mut builder = SchemaBuilder::new();
//! let (person, rower) = (builder.class("Person")?, builder.class("Rower")?);
//! let strap = builder.class("Strap")?;
//! let wears = builder.attribute("wears")?;
//! builder.necessary(rower, wears)?.relates(wears, person, strap)?;
//! let schema = builder.build();
//!
//! // May rowers be looked for in a list of persons who wear a strap?
//! let query = Query::new(&schema, &Concept::class(rower))?;
//! let wearers = Path::empty().forward(wears, Concept::class(strap));
//! let listed = Concept::both(Concept::class(person), Concept::reached(wearers));
//! let view = View::new(&schema, &listed)?;
//! assert_eq!(schema.decide(&query, &view), Decision::Held);
//! // The same without a state, where one is not to be looked at.
//! assert_eq!(schema.holds(&query, &view), Ok(true));
//!
//! // The classes that the view names, for a screen that shows it.
//! let named = schema.check_view(&view).expect("a view of this schema");
//! let classes = named.classes().filter_map(|class| schema.class_name(class));
//! assert!(classes.eq(["Person", "Strap"]));
//!
//! // Views in order: a view is looked at before those that have all its objects.
//! let rowers = View::new(&schema, &Concept::class(rower))?;
//! let everybody = View::new(&schema, &Concept::class(person))?;
//! let catalogued = schema.catalogue(&[everybody, view, rowers]);
//! let catalogued = catalogued.expect("views of this schema");
//! assert!(catalogued.in_order().eq([[2], [1], [0]]));
//! # Ok(())
//! # }
//! ```
//!
//! # What an answer allows
//!
//! [`Decision::Held`] says that in every state that obeys the axioms each object
//! of the query is in the view. The list then has every object of the query, and
//! maybe more, so filter it by the query. Only where the query holds the view as
//! well is the list the answer as it stands.
//!
//! The store must enforce the axioms. Nothing is said of a state that breaks
//! one, and a list kept for such a state may lack objects. [`Schema::legal`]
//! tells whether a state obeys them, of up to [`layout::MAX_OBJECTS`] objects; a
//! larger store checks each write itself.
//!
//! # Records
//!
//! The library takes records of 16-bit words (docs/RECORDS.md).
//! [`SchemaBuilder`], [`Query`], [`View`] and [`StateBuilder`] make records that
//! it accepts; what cannot be is a [`BuildError`]. The functions
//! [`check_concept`], [`check_query`], [`check_view`], [`select`], [`legal`],
//! [`counterexample`], [`links_by_first`], [`links_by_second`], [`decide`], [`holds`]
//! and [`catalogue`] take any words; a faulty record, or an attribute that is not
//! declared, is a [`Refusal`]. [`raw`] has the eleven calls as C has them, and
//! [`layout`] the numbers of the format.
//!
//! # Marks
//!
//! A [`Mark`] is the same object wherever it stands in a query. [`decide`], [`holds`],
//! [`counterexample`] and [`check_query`] take queries with marks, and the state of a
//! counterexample says which objects they are. Every other call refuses such queries
//! and such states.
//!
//! # Linking
//!
//! In the repository of the library, `tools/build bikuvoa_c` writes the archive
//! that this crate links. Where the archive lies elsewhere, let the environment
//! variable `BIKUVOA_LIB_DIR` name its folder.
//!
//! # Threads and memory
//!
//! The library keeps nothing between calls and uses no heap, so any number of
//! threads may call it at once. [`raw::STACK_BYTES`] are enough stack. [`decide`]
//! lends it words from the heap; with [`raw`] the words are yours.

#![deny(unsafe_code)]
#![warn(missing_debug_implementations)]

pub mod layout;
#[allow(unsafe_code)]
pub mod raw;

mod calls;
mod catalogued;
mod concept;
mod error;
mod named;
mod refusal;
mod schema;
mod state;

pub use calls::{catalogue, check_concept, check_query, check_view, counterexample, decide};
pub use calls::{holds, legal, links_by_first, links_by_second, select, Decision, Legality};
pub use catalogued::Catalogued;
pub use concept::{Concept, Mark, Path, Query, Token, View};
pub use error::{BuildError, Item};
pub use layout::Signature;
pub use named::Named;
pub use refusal::Refusal;
pub use schema::{Attribute, Axiom, Class, Constant, Schema, SchemaBuilder};
pub use state::{Fact, Object, State, StateBuilder};
