//! The known name that was most likely meant by one that is not known.

/// Longer names are not compared.
const LONGEST: usize = 100;

/// The nearest of the known names: at most a third of the letters, and at most
/// three, were left out, added, changed or exchanged with the next, or just the case
/// differs. Of equally near ones the first.
pub fn nearest<'a>(name: &str, known: impl Iterator<Item = &'a str>) -> Option<&'a str> {
    let letters: Vec<char> = name.chars().collect();
    if letters.len() > LONGEST {
        return None;
    }
    let measured = known.filter_map(|other| Some((changes(&letters, other)?, other)));
    measured
        .min_by_key(|&(count, _)| count)
        .map(|(_, other)| other)
}

/// The end of a message about a name that may be misspelt.
pub fn hint<'a>(name: &str, known: impl Iterator<Item = &'a str>) -> String {
    match nearest(name, known) {
        Some(near) => format!("; did you mean `{near}`?"),
        None => String::new(),
    }
}

/// How many changes make one name the other, if they are few.
fn changes(name: &[char], other: &str) -> Option<usize> {
    let other: Vec<char> = other.chars().take(LONGEST + 1).collect();
    let most = (name.len().max(other.len()) / 3).min(3);
    if name.len().abs_diff(other.len()) > most {
        return None;
    }
    if lower(name) == lower(&other) {
        return Some(1);
    }
    Some(distance(name, &other)).filter(|&count| count <= most)
}

fn lower(letters: &[char]) -> String {
    letters
        .iter()
        .flat_map(|letter| letter.to_lowercase())
        .collect()
}

/// The edit distance, an exchange of neighbours counted once. Row i has the
/// distances of the first i letters of the name to each beginning of the other.
fn distance(name: &[char], other: &[char]) -> usize {
    let mut rows: Vec<Vec<usize>> = vec![(0..=other.len()).collect()];
    for (i, letter) in name.iter().enumerate() {
        let above = &rows[i];
        let mut row = vec![i + 1];
        for (j, other_letter) in other.iter().enumerate() {
            let changed = above[j] + usize::from(letter != other_letter);
            let mut least = changed.min(above[j + 1] + 1).min(row[j] + 1);
            if i > 0 && j > 0 && *letter == other[j - 1] && name[i - 1] == *other_letter {
                least = least.min(rows[i - 1][j - 1] + 1);
            }
            row.push(least);
        }
        rows.push(row);
    }
    rows[name.len()][other.len()]
}

#[cfg(test)]
mod tests {
    use super::nearest;

    #[test]
    fn near_names_are_found() {
        let found = |name| nearest(name, ["attends", "wears", "isA", "end"].into_iter());
        assert_eq!(found("atends"), Some("attends"));
        assert_eq!(found("attedns"), Some("attends"));
        assert_eq!(found("waers"), Some("wears"));
        assert_eq!(found("isa"), Some("isA"));
        assert_eq!(found("END"), Some("end"));
        assert_eq!(found("en"), Some("end"));
        assert_eq!(found("tears_off"), None);
        assert_eq!(found("ed"), Some("end"));
        assert_eq!(found("it"), None);
        assert_eq!(found(&"e".repeat(1_000_000)), None);
    }

    #[test]
    fn the_nearest_is_taken() {
        let known = ["records", "recorder", "recorded"];
        assert_eq!(nearest("recoders", known.into_iter()), Some("recorder"));
        assert_eq!(nearest("recordde", known.into_iter()), Some("recorded"));
        assert_eq!(nearest("recordd", known.into_iter()), Some("records"));
    }
}
