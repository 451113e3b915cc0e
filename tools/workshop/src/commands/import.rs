//! The import of a list: all rows are entered in one run, or none of them.

use super::{counted, replaces, with_room};
use crate::block_file;
use crate::dates;
use crate::entries::{self, Entry};
use crate::labels;
use crate::map;
use crate::proved;
use crate::rows::{self, Row};
use crate::trouble::{No, Trouble};
use crate::visible::file_name;
use std::fs::File;
use std::io::{self, Read};
use std::path::Path;

/// The bytes of the largest list that is read: no register has room for the labels of a larger one.
const MOST_BYTES: u64 = 1 << 24;

/// Enters all rows of a list into a copy of a file's block, which takes the place of the file only when all are entered.
pub fn import(file: &Path, list: &Path) -> Result<String, Trouble> {
    let bytes = read_list(list).map_err(|reason| block_file::unread(list, &reason))?;
    let rows = rows::read(&bytes)
        .map_err(|faults| Trouble::Rows(faults.iter().map(|fault| at(list, fault.line, &fault.message)).collect()))?;
    block_file::alter(file, |block| {
        let done = enter_all(block, &rows, list)?;
        Ok::<String, Trouble>(format!("{}{}\n", done.words(), map::fullness(block)))
    })
}

/// Reads a list whole.
fn read_list(list: &Path) -> io::Result<Vec<u8>> {
    let mut bytes = Vec::new();
    File::open(list)?.take(MOST_BYTES + 1).read_to_end(&mut bytes)?;
    if bytes.len() as u64 > MOST_BYTES {
        return Err(io::Error::new(io::ErrorKind::FileTooLarge, format!("it has over {MOST_BYTES} bytes")));
    }
    Ok(bytes)
}

/// A message about a line of a list.
fn at(list: &Path, line: usize, message: &str) -> String {
    format!("{}:{line}: {message}", file_name(list))
}

/// Enters rows one after the other. The first that has no room ends it: whether those behind it would have had room cannot be
/// said.
fn enter_all(block: &mut [u8], rows: &[Row], list: &Path) -> Result<Done, Trouble> {
    proved::validate(block)?;
    let mut done = Done::default();
    for row in rows {
        done.enter(block, row).map_err(|no| Trouble::Told(no, vec![at(list, row.line, &with_room(no, block))]))?;
    }
    Ok(done)
}

/// What was entered so far: labels that are new, those that got another value, in a line each, and those that had just theirs.
#[derive(Default)]
struct Done {
    new: u32,
    replaced: Vec<String>,
    unchanged: u32,
}

impl Done {
    /// Enters one row, unless its label has just that value: so a list that is imported again takes no cells.
    fn enter(&mut self, block: &mut [u8], row: &Row) -> Result<(), No> {
        let value = dates::pack(row.date);
        if entries::held(block, &row.label)? == Some(value) {
            self.unchanged += 1;
            return Ok(());
        }
        let entry = Entry::of(block, &row.label, value)?;
        entry.stores.iter().for_each(|store| store.make(block));
        match entry.replaced {
            None => self.new += 1,
            Some(_) => self.replaced.push(format!("{} {}{}\n", labels::show(&row.label), row.date, replaces(&entry))),
        }
        Ok(())
    }

    /// What was done, in words: each value that was replaced, since nothing else tells it any more, and how many there are of all.
    fn words(&self) -> String {
        let replaced = self.replaced.len() as u32;
        let all = counted(self.new + replaced + self.unchanged, "label");
        let counts = format!("{} new, {replaced} replaced, {} unchanged", self.new, self.unchanged);
        format!("{}imported {all}: {counts}\n", self.replaced.concat())
    }
}
