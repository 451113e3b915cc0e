//! Columns of text under each other, as lists and maps show them.

/// To which side of its column a text is set.
#[derive(Clone, Copy)]
pub enum Side {
    Left,
    Right,
}

/// Sets rows under each other, the first column to a side and all others to the left. Widths count characters.
pub fn under_each_other<const COLUMNS: usize>(first: Side, rows: &[[String; COLUMNS]]) -> String {
    let widths: [usize; COLUMNS] = std::array::from_fn(|column| width(rows.iter().map(|row| &row[column])));
    let show = |row: &[String; COLUMNS]| {
        let cells = row.iter().zip(widths).enumerate().map(|(column, (text, width))| match first {
            Side::Right if column == 0 => format!("{text:>width$}"),
            _ => format!("{text:width$}"),
        });
        cells.collect::<Vec<String>>().join("  ").trim_end().to_string() + "\n"
    };
    rows.iter().map(show).collect()
}

/// The characters of the longest of some texts.
fn width<'a>(texts: impl Iterator<Item = &'a String>) -> usize {
    texts.map(|text| text.chars().count()).max().unwrap_or(0)
}
