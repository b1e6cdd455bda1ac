//! Tables of names in columns.

use crate::case::Case;

/// The lines `columns` and `row` of a listing by names, for a table with this row for each state of the student's.
pub fn listed<'a>(case: &Case, table: impl IntoIterator<Item = &'a [u8]>) -> String {
    let mut rows = vec![vec!["columns:".to_string()]];
    rows[0].extend(case.models[1].states.iter().cloned());
    for (state, row) in case.models[0].states.iter().zip(table) {
        let mut cells = vec![format!("row {state}:")];
        cells.extend(row.iter().map(|e| case.element(*e)));
        rows.push(cells);
    }
    aligned(&rows, "")
}

/// Rows of cells set in by two blanks, each column as wide as its widest cell.
pub fn columns(rows: &[Vec<String>]) -> String {
    aligned(rows, "  ")
}

/// Rows of cells behind a margin, each column as wide as its widest cell.
pub fn aligned(rows: &[Vec<String>], margin: &str) -> String {
    let count = rows.iter().map(Vec::len).max().unwrap_or(0);
    let width = |c: usize| {
        rows.iter()
            .filter_map(|r| r.get(c))
            .map(|s| s.chars().count())
            .max()
            .unwrap_or(0)
    };
    let widths: Vec<usize> = (0..count).map(width).collect();
    let mut text = String::new();
    for row in rows {
        let cells: Vec<String> = row
            .iter()
            .zip(&widths)
            .map(|(cell, w)| format!("{cell:<w$}"))
            .collect();
        text.push_str(margin);
        text.push_str(cells.join("  ").trim_end());
        text.push('\n');
    }
    text
}
