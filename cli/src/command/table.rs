//! Aligned columns of text.

/// A longer cell stands out of its column; otherwise one long name would make every
/// line as long.
const WIDEST: usize = 40;

/// The rows as lines; two blanks between columns, none at the end of a line.
pub fn lines(rows: &[Vec<String>]) -> String {
    let columns = rows.iter().map(Vec::len).max().unwrap_or(0);
    let widths: Vec<usize> = (0..columns).map(|column| width(rows, column)).collect();
    let line = |row: &Vec<String>| {
        let cells = row.iter().zip(&widths);
        let cells = cells.map(|(cell, &width)| format!("{cell:width$}"));
        let line = cells.collect::<Vec<_>>().join("  ");
        format!("{}\n", line.trim_end())
    };
    rows.iter().map(line).collect()
}

fn width(rows: &[Vec<String>], column: usize) -> usize {
    let cells = rows.iter().filter_map(|row| row.get(column));
    let widths = cells.map(|cell| cell.chars().count());
    widths.filter(|&width| width <= WIDEST).max().unwrap_or(0)
}

#[cfg(test)]
mod tests {
    use super::lines;

    #[test]
    fn columns_are_aligned_and_long_cells_stand_out() {
        let row = |cells: [&str; 3]| cells.map(str::to_string).to_vec();
        let long = "x".repeat(100);
        let rows = [
            row(["é", "22", "c"]),
            row(["aaa", "", ""]),
            row([&long, "1", "d"]),
        ];
        assert_eq!(lines(&rows), format!("é    22  c\naaa\n{long}  1   d\n"));
    }
}
