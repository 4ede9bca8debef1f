//! Decoding of records, with the number of the first refusal that applies.

mod catalogue;
mod concept;
mod schema;
mod state;

pub use catalogue::catalogue;
pub use concept::{concept, Place};
pub use schema::schema;
pub use state::state;

/// The left and right words of the entries that follow `sizes` size words, or
/// nothing if the record's length does not fit its count.
fn entries(words: &[u16], sizes: usize, count: u16) -> Option<Vec<(u16, u16)>> {
    let count = usize::from(count);
    if words.len() != sizes + 2 * count {
        return None;
    }
    let (lefts, rights) = words[sizes..].split_at(count);
    Some(lefts.iter().copied().zip(rights.iter().copied()).collect())
}
