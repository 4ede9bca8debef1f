//! How much room text takes. Fonts differ, so this is the width in a wide one and a
//! little more.

/// Sizes of letters.
pub const TITLE: f64 = 16.0;
pub const NAME: f64 = 14.0;
pub const SMALL: f64 = 12.0;

/// The height of a line of small text.
pub const LINE: f64 = 16.0;

/// The width of a text in letters of this size.
pub fn width(text: &str, size: f64, bold: bool) -> f64 {
    let ems: f64 = text.chars().map(em).sum();
    ems * size * if bold { 1.12 } else { 1.0 }
}

fn em(c: char) -> f64 {
    match c {
        'i' | 'j' | 'l' | '\'' | '|' | '.' | ',' | ':' | ';' | ' ' => 0.36,
        'f' | 't' | 'r' | '(' | ')' | '[' | ']' | '-' | 'I' | '!' => 0.46,
        'm' | 'w' | 'M' | 'W' | '@' | '%' => 1.02,
        '{' | '}' => 0.66,
        'a'..='z' | '0'..='9' | '?' | '_' => 0.65,
        'A'..='Z' => 0.8,
        '\u{300}'..='\u{36f}' => 0.0,
        '\u{a0}'..='\u{10ff}' => 0.95,
        '\u{1100}'.. => 1.1,
        _ => 0.85,
    }
}

/// The words of a text in lines no wider than this; a word that is wider is broken.
pub fn wrap(text: &str, size: f64, bold: bool, limit: f64) -> Vec<String> {
    let mut lines: Vec<String> = Vec::new();
    for word in text.split_whitespace() {
        if let Some(line) = lines.last_mut() {
            let longer = format!("{line} {word}");
            if width(&longer, size, bold) <= limit {
                *line = longer;
                continue;
            }
        }
        lines.extend(broken(word, size, bold, limit));
    }
    lines
}

fn broken(word: &str, size: f64, bold: bool, limit: f64) -> Vec<String> {
    let mut lines = vec![String::new()];
    let mut taken = 0.0;
    for c in word.chars() {
        let letter = width(c.encode_utf8(&mut [0; 4]), size, bold);
        if taken > 0.0 && taken + letter > limit {
            lines.push(String::new());
            taken = 0.0;
        }
        taken += letter;
        if let Some(line) = lines.last_mut() {
            line.push(c);
        }
    }
    lines
}

/// The text as it stands in XML, where control characters may not be.
pub fn xml(text: &str) -> String {
    let mut escaped = String::new();
    for c in text.chars() {
        match c {
            '&' => escaped.push_str("&amp;"),
            '<' => escaped.push_str("&lt;"),
            '>' => escaped.push_str("&gt;"),
            '"' => escaped.push_str("&quot;"),
            '\u{fffe}' | '\u{ffff}' => escaped.push('\u{fffd}'),
            c if c.is_control() => escaped.push('\u{fffd}'),
            c => escaped.push(c),
        }
    }
    escaped
}
