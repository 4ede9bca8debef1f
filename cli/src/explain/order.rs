//! The objects in the order in which they are shown: by their distance from the
//! object that the answer is about.

use super::facts::Facts;
use bikuvoa::Object;
use std::collections::VecDeque;

/// The same state with that object as number 0, then those next to it, and so forth;
/// those that no pairs lead to come last. Among equals the old order stays.
pub fn from_object(facts: &Facts, object: Object) -> Facts {
    let distances = distances(facts, object);
    let mut order: Vec<usize> = (0..distances.len()).collect();
    order.sort_by_key(|&old| distances[old]);
    let mut numbers = vec![Object(0); order.len()];
    for (new, old) in order.into_iter().enumerate() {
        numbers[old] = Object(new as u16);
    }
    facts.numbered(facts.objects, |Object(old)| {
        numbers.get(usize::from(old)).copied()
    })
}

/// How many pairs, in either direction, lie between the object and each other.
fn distances(facts: &Facts, Object(start): Object) -> Vec<usize> {
    let mut next: Vec<Vec<usize>> = vec![Vec::new(); facts.objects.into()];
    for link in facts.links() {
        let (first, second) = (usize::from(link.first.0), usize::from(link.second.0));
        next[first].push(second);
        next[second].push(first);
    }
    let mut distances = vec![usize::MAX; next.len()];
    let mut queue = VecDeque::from([usize::from(start)]);
    distances[usize::from(start)] = 0;
    while let Some(object) = queue.pop_front() {
        for &other in &next[object] {
            if distances[other] == usize::MAX {
                distances[other] = distances[object] + 1;
                queue.push_back(other);
            }
        }
    }
    distances
}
