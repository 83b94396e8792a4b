//! Tables for people: columns as wide as their widest word, two spaces between them.

/// A table with these titles; the last column is not padded.
pub fn aligned<const COLUMNS: usize>(
    titles: [&str; COLUMNS],
    rows: impl Iterator<Item = [String; COLUMNS]>,
) -> String {
    let rows: Vec<[String; COLUMNS]> =
        [titles.map(str::to_string)].into_iter().chain(rows).collect();
    let width = |column: usize| rows.iter().map(|row| row[column].len()).max().unwrap_or(0);
    let widths: [usize; COLUMNS] = std::array::from_fn(width);
    let mut text = String::with_capacity(rows.len() * (widths.iter().sum::<usize>() + 2 * COLUMNS));
    for row in &rows {
        for (cell, width) in row.iter().zip(widths).take(COLUMNS - 1) {
            pad(&mut text, cell, width + 2);
        }
        text.push_str(&row[COLUMNS - 1]);
        text.push('\n');
    }
    text
}

fn pad(text: &mut String, cell: &str, width: usize) {
    text.push_str(cell);
    text.extend(std::iter::repeat_n(' ', width - cell.len()));
}
