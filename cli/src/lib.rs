//! The command `bik`: schemas, queries, views and states as text with names, asked
//! of the proved library, and its answers explained and drawn. It decides nothing
//! itself: every verdict is the library's. None of this is proved.
//!
//! | way | modules |
//! |---|---|
//! | text to model | [`read`]: `lex`, `parse`, `resolve`; a [`model::File`] is accepted by the library |
//! | model to text | [`print`] |
//! | model to records and back | [`model`], [`decode`] |
//! | a fault, its place, a near name | [`fault`], [`source`], [`near`]; the library's refusals: [`refused`] |
//! | why an answer is so | [`explain`] |
//! | a state as a picture | [`drawing`], [`picture`] |
//! | the program | [`command`], [`output`], [`progress`] |

#![forbid(unsafe_code)]

pub mod command;
pub mod decode;
pub mod drawing;
pub mod explain;
pub mod fault;
pub mod lex;
pub mod model;
pub mod near;
pub mod output;
mod parse;
pub mod picture;
pub mod print;
pub mod progress;
pub mod read;
pub mod refused;
mod resolve;
pub mod source;
mod syntax;
