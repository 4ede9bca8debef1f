//! What is measured is not refused, since a refusal takes no time to speak of.

use super::{input, Size};
use crate::answer::{Answerer, Room};
use crate::entries::Entry;
use crate::proved::Proved;

#[test]
fn each_entry_accepts_its_inputs() {
    for &entry in Entry::ALL {
        for size in Size::of(entry) {
            let call = input(entry, size);
            let number = Proved.answer(&call, Room::of(&call).out());
            assert_eq!(number, 0, "{}, {}", entry.name, size.name());
        }
    }
}
