//! A list of cartridges as rows of CSV: written of a block, and read to be entered into one.

use crate::csv;
use crate::dates::{self, Date};
use crate::labels;
use crate::pages::Record;
use crate::proved;
use crate::trouble::{Misread, No};
use crate::visible::{is_visible, quoted};
use std::collections::HashMap;

/// The columns of a list, as its first row has them.
const COLUMNS: [&str; 2] = ["label", "expires"];

/// The characters at which spreadsheets take a field for a formula, also in their wide forms.
const FORMULA_STARTS: [char; 8] = ['=', '+', '-', '@', '＝', '＋', '－', '＠'];

/// A row that was understood, with the line at which it begins.
pub struct Row {
    pub line: usize,
    pub label: Vec<u8>,
    pub date: Date,
}

/// What is wrong at which line.
pub struct Fault {
    pub line: usize,
    pub message: String,
}

/// Writes a list of all records, as it is read below.
pub fn write(records: &[Record]) -> String {
    let rows =
        records.iter().map(|Record { label, value }| format!("{},{}\n", label_field(label), dates::show_value(*value)));
    format!("{}\n", COLUMNS.join(",")) + &rows.collect::<String>()
}

/// A label as a field: its text, or its digits where a person could not read the text or a spreadsheet would reckon with it.
fn label_field(label: &[u8]) -> String {
    match labels::text(label) {
        Some(text) if !text.starts_with(FORMULA_STARTS) && is_seen_whole(text) => csv::field(text).into_owned(),
        _ => labels::marked_digits(label),
    }
}

/// Reads all rows of a list, or tells all that is wrong with it. Where the first row is wrong it is no such list, and its rows
/// would only be wrong in the same way, one by one.
pub fn read(bytes: &[u8]) -> Result<Vec<Row>, Vec<Fault>> {
    let mut rows = csv::read(bytes).into_iter();
    let mut list = List::default();
    if rows.next().is_some_and(|row| is_header(&row)) {
        rows.for_each(|row| list.add(row));
    } else {
        let found = quoted(&String::from_utf8_lossy(csv::first_line(bytes)));
        list.tell(1, format!("the first row is {found} and has to be: {}", COLUMNS.join(",")));
    }
    if list.faults.is_empty() {
        Ok(list.rows)
    } else {
        Err(list.faults)
    }
}

/// Whether a row has the names of the columns.
fn is_header(row: &csv::Row) -> bool {
    row.fields.as_ref().is_ok_and(|fields| fields.iter().eq(COLUMNS.map(str::as_bytes)))
}

/// What was read of a list so far, with the line at which each label came first.
#[derive(Default)]
struct List {
    rows: Vec<Row>,
    faults: Vec<Fault>,
    first_lines: HashMap<Vec<u8>, usize>,
}

impl List {
    /// Tells what is wrong at a line.
    fn tell(&mut self, line: usize, message: String) {
        self.faults.push(Fault { line, message });
    }

    /// Adds a row, or all that is wrong with it.
    fn add(&mut self, csv::Row { line, fields }: csv::Row) {
        let (label, date) = match fields.as_deref() {
            Ok([label, date]) => (read_label(label), dates::read_date(&String::from_utf8_lossy(date))),
            Ok(fields) => return self.tell(line, miscounted(fields)),
            Err(fault) => return self.tell(line, fault.to_string()),
        };
        let label = label.and_then(|label| self.first(label, line));
        match (label, date) {
            (Ok(label), Ok(date)) => self.rows.push(Row { line, label, date }),
            (label, date) => {
                let faults = [label.err(), date.err()];
                faults.into_iter().flatten().for_each(|Misread(message)| self.tell(line, message));
            }
        }
    }

    /// Gives a label back where it did not come before.
    fn first(&mut self, label: Vec<u8>, line: usize) -> Result<Vec<u8>, Misread> {
        let first = *self.first_lines.entry(label.clone()).or_insert(line);
        if first == line {
            Ok(label)
        } else {
            Err(Misread(format!("the label {} stands already in line {first}", labels::show(&label))))
        }
    }
}

/// What is wrong with a row of more or fewer fields than two.
fn miscounted(fields: &[Vec<u8>]) -> String {
    let found = match fields {
        [field] if field.is_empty() => return "the line is empty".to_string(),
        [_] => "one field".to_string(),
        _ => format!("{} fields", fields.len()),
    };
    format!("the row has {found} and not two, a label and a date with a comma between")
}

/// Reads the label of a row as one of a command is read, but as text that can be seen whole: bytes of another encoding, and what
/// only a scanner or a spreadsheet put there, would make it another label.
fn read_label(field: &[u8]) -> Result<Vec<u8>, Misread> {
    let refused = |message: &str| Err(Misread(message.to_string()));
    match std::str::from_utf8(field) {
        Err(_) => refused("the label is no UTF-8 text: save the list as UTF-8, or write the label as hex:43484131"),
        Ok(text) if !is_seen_whole(text) => {
            refused("the label has a character that cannot be seen, or a space at an end: write it as hex:...")
        }
        Ok(_) => match labels::read(field)? {
            label if proved::is_label(&label) => Ok(label),
            _ => refused(No::BAD_LABEL.meaning()),
        },
    }
}

/// Whether who sees a text sees all of it: no character that cannot be seen, and no space at an end.
fn is_seen_whole(text: &str) -> bool {
    text.chars().all(is_visible) && !text.starts_with(' ') && !text.ends_with(' ')
}
