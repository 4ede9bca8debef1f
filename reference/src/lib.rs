//! An independent reference for the checks, the names in concepts, the set
//! semantics, the verdicts and the order of views.
//!
//! `entries` is what a comparison calls. Verdicts come from the calculus of
//! report RR-93-44; states are judged by table 1 of the same report.

#![forbid(unsafe_code)]

pub mod calculus;
pub mod catalogue;
pub mod entries;
pub mod marks;
pub mod names;
pub mod records;
pub mod semantics;
pub mod syntax;

#[cfg(test)]
mod tests;
