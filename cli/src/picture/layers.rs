//! Which objects hang together, and their columns by distance.

use super::lines::Line;

/// Objects that hang together, in columns by their distance from the first of them.
pub type Columns = Vec<Vec<usize>>;

/// The drawing's parts that hang together: that of the first object, then those with
/// lines, then single objects.
pub fn parts(count: usize, lines: &[Line]) -> Vec<Columns> {
    let mut near: Vec<Vec<usize>> = vec![Vec::new(); count];
    for line in lines {
        near[line.from].push(line.to);
        near[line.to].push(line.from);
    }
    let mut seen = vec![false; count];
    let mut parts: Vec<Columns> = Vec::new();
    for node in 0..count {
        if !seen[node] {
            parts.push(columns(node, &near, &mut seen));
        }
    }
    if let Some(others) = parts.get_mut(1..) {
        others.sort_by_key(|columns| columns.len() == 1);
    }
    parts
}

fn columns(first: usize, near: &[Vec<usize>], seen: &mut [bool]) -> Columns {
    let mut columns = Vec::new();
    let mut column = vec![first];
    seen[first] = true;
    while !column.is_empty() {
        let mut next = Vec::new();
        for &node in column.iter().flat_map(|&node| &near[node]) {
            if !seen[node] {
                seen[node] = true;
                next.push(node);
            }
        }
        columns.push(column);
        column = next;
    }
    columns
}
