//! The commands that show the whole table: as a list for people or for other programs, and in pages.

use super::{counted, misused};
use crate::block_file;
use crate::columns::{under_each_other, Side};
use crate::dates;
use crate::json;
use crate::labels;
use crate::pages::{self, Record};
use crate::rows;
use crate::trouble::Trouble;
use crate::words;
use std::ffi::{OsStr, OsString};
use std::path::Path;

/// A line of a table: a label and its value, in words.
type Line = [String; 2];

/// The bytes of each page by which a list is made.
const LIST_PAGE: u32 = 4_096;

/// Lists all labels in order with their values: in columns, as rows of CSV or as JSON.
pub fn list(file: &Path, form: Option<&OsString>) -> Result<String, Trouble> {
    let write = match form.map(|form| words::text(form)).transpose()? {
        None => columns,
        Some("--csv") => rows::write,
        Some("--json") => json::write,
        Some(_) => return Err(misused("list")),
    };
    let block = block_file::read(file)?;
    let pages = pages::all(&block, LIST_PAGE)?;
    Ok(write(&pages.into_iter().flat_map(|page| page.records).collect::<Vec<Record>>()))
}

/// All labels with their values in columns, under their names.
fn columns(records: &[Record]) -> String {
    let names = ["label", "expires"].map(String::from);
    let lines: Vec<Line> = [names].into_iter().chain(records.iter().map(line)).collect();
    under_each_other(Side::Left, &lines)
}

/// Prints all labels in pages of a size: what each page tells of itself, and below it its labels with their values.
pub fn print(file: &Path, size: &OsStr) -> Result<String, Trouble> {
    let size = words::whole_number(size, "size of a page", 4_096)?;
    let block = block_file::read(file)?;
    let mut printed = String::new();
    for (place, page) in pages::all(&block, size)?.iter().enumerate() {
        let records = counted(page.told.records, "record");
        let remain = if page.told.more { "more remain" } else { "none remain" };
        printed += &format!("page {}: {records}, {} of {size} bytes used, {remain}\n", place + 1, page.told.used);
        let lines: Vec<Line> =
            page.records.iter().map(line).map(|[label, value]| [format!("  {label}"), value]).collect();
        printed += &under_each_other(Side::Left, &lines);
    }
    Ok(printed)
}

/// A label and its value, in words.
fn line(record: &Record) -> Line {
    [labels::show(&record.label), dates::show_value(record.value)]
}
