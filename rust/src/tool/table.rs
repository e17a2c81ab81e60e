//! Text in columns.

/// A column's heading, and whether its cells stand to the right, as numbers do.
pub struct Column(pub &'static str, pub bool);

/// Headings and rows, each column as wide as its widest cell, two spaces between them.
pub fn text(columns: &[Column], rows: &[Vec<String>]) -> String {
    let width = |at: usize| rows.iter().map(|row| row[at].chars().count()).chain([columns[at].0.chars().count()]).max().unwrap_or(0);
    let widths: Vec<usize> = (0..columns.len()).map(width).collect();
    let line = |cells: &mut dyn Iterator<Item = &str>| {
        let padded: Vec<String> = cells.zip(columns).zip(&widths).map(|((cell, column), width)| pad(cell, *width, column.1)).collect();
        format!("{}\n", format!("  {}", padded.join("  ")).trim_end())
    };
    let mut text = line(&mut columns.iter().map(|column| column.0));
    for row in rows {
        text.push_str(&line(&mut row.iter().map(String::as_str)));
    }
    text
}

fn pad(cell: &str, width: usize, right: bool) -> String {
    if right {
        format!("{cell:>width$}")
    } else {
        format!("{cell:<width$}")
    }
}
