//! The commands: each reads the block of a file, makes its calls on the library and gives the lines to print.

mod help;
mod import;
mod listing;
mod verdict;

use crate::block_file;
use crate::dates;
use crate::entries::Entry;
use crate::labels;
use crate::map;
use crate::proved::{self, CELL_SIZE, MOST_CELLS_LENT, USUAL_EDITION};
use crate::trouble::{No, Trouble};
use crate::visible::quoted;
use crate::words;
use std::ffi::{OsStr, OsString};
use std::path::Path;

/// How the commands are given.
pub const USAGE: &str = "\
workshop new FILE CELLS [EDITION]
                                 make a fresh block in a new file, of edition 1 or 2; 1 if none is given
workshop enter FILE LABEL DATE   enter a cartridge with its expiry day
workshop import FILE ROWS.csv    enter all rows of a list, or none of them
workshop remove FILE LABEL       remove a label, as of a batch that was withdrawn
workshop list FILE [--csv|--json]
                                 list all labels in order; with --csv or --json for other programs
workshop print FILE SIZE         print all labels in pages of SIZE bytes, 53 at least
workshop find FILE LABEL         show the expiry day of a label
workshop next FILE LABEL         show the next label in order
workshop mark FILE SLOT          mark the present state in slot 1, 2 or 3
workshop back FILE SLOT          go back to a marked state
workshop drop FILE SLOT          drop a mark
workshop check FILE              check that the block is sound, and tell how full it is
workshop map FILE [--cells] [--svg PICTURE]
                                 show what every cell is and which tables hold it; with --cells a line for each cell
                                 (a block of 64 cells or fewer has them anyway), with --svg also as a picture in a new file
workshop verdict FILE LABEL --today DATE --reading 20C|68F --gate any|5..|5..40 --section 60 --length 4000
                                 judge whether a cartridge may be laid, and give the dose
                                 (gate in degrees Celsius, section in square millimetres, length in millimetres)
workshop help [COMMAND]          show this, or one command with an example
workshop version                 show the version
A DATE is written 2025-03-07. A LABEL is text, or hex:43484131.
Exit status: 0 done, 1 to 15 the number of the no, 64 the command was not understood,
65 a list has bad rows, 74 trouble with a file, also where it is write-protected
or where only printing failed, which then says that the command was carried out.
";

/// What the commands that alter a slot have in common.
type SlotCall = fn(&mut [u8], u32) -> Result<(), No>;

/// Carries out a command and gives what it prints.
pub fn perform(arguments: &[OsString]) -> Result<String, Trouble> {
    let Some((command, rest)) = arguments.split_first() else {
        return Err(Trouble::Usage(format!("no command was given\n{}", USAGE.trim_end())));
    };
    match (words::text(command)?, rest) {
        ("help" | "--help" | "-h", []) => Ok(USAGE.to_string()),
        ("help" | "--help" | "-h", [command]) => help::show(command),
        ("version" | "--version", []) => Ok(help::version()),
        ("new", [file, cells]) => new(Path::new(file), cells, None),
        ("new", [file, cells, edition]) => new(Path::new(file), cells, Some(edition)),
        ("enter", [file, label, date]) => enter(Path::new(file), label, date),
        ("import", [file, list]) => import::import(Path::new(file), Path::new(list)),
        ("remove", [file, label]) => remove(Path::new(file), label),
        ("list", [file]) => listing::list(Path::new(file), None),
        ("list", [file, form]) => listing::list(Path::new(file), Some(form)),
        ("print", [file, size]) => listing::print(Path::new(file), size),
        ("find", [file, label]) => find(Path::new(file), label),
        ("next", [file, label]) => next(Path::new(file), label),
        ("mark", [file, slot]) => slot_change(Path::new(file), slot, proved::snapshot, "marked slot"),
        ("back", [file, slot]) => slot_change(Path::new(file), slot, proved::restore, "back to slot"),
        ("drop", [file, slot]) => slot_change(Path::new(file), slot, proved::release, "dropped slot"),
        ("check", [file]) => map::check(Path::new(file)),
        ("map", [file, options @ ..]) => {
            map::show(Path::new(file), &map::wishes(options).ok_or_else(|| misused("map"))?)
        }
        ("verdict", [file, label, options @ ..]) => verdict::judge(Path::new(file), label, options),
        (name, _) => Err(misused(name)),
    }
}

/// Says how a command is given, or that there is no such command.
fn misused(name: &str) -> Trouble {
    match help::usage_lines(name).lines().next() {
        Some(line) => Trouble::Usage(format!("'{name}' is given so: {}", line.split("   ").next().unwrap_or(line))),
        None => Trouble::Usage(format!("there is no command {}; see: workshop help", quoted(name))),
    }
}

/// Makes a fresh block in a new file; a count that is too large is lent as one that is just too large.
fn new(file: &Path, cells: &OsStr, edition: Option<&OsString>) -> Result<String, Trouble> {
    let cells = words::whole_number(cells, "count of cells", 16)?;
    let edition = edition.map_or(Ok(USUAL_EDITION), |given| words::whole_number(given, "edition", 2))?;
    let lent = usize::try_from(cells).unwrap_or(MOST_CELLS_LENT).min(MOST_CELLS_LENT);
    let mut block = vec![0; lent * CELL_SIZE];
    proved::format(&mut block, edition)?;
    block_file::create(file, &block)?;
    Ok(format!("fresh block of {cells} cells, edition {edition}\n"))
}

/// Enters a cartridge with its expiry day, by the stores of its write list, and tells the value that it replaces.
fn enter(file: &Path, label: &OsStr, date: &OsStr) -> Result<String, Trouble> {
    let label = words::label(label)?;
    let date = dates::read_date(words::text(date)?)?;
    let entry = block_file::store(file, |block| {
        Entry::of(block, &label, dates::pack(date)).map_err(|no| Trouble::Told(no, vec![with_room(no, block)]))
    })?;
    Ok(format!("entered {} {date}{}, {}\n", labels::show(&label), replaces(&entry), taken(entry.cells())))
}

/// The value that an entry replaces, in words behind the new one.
fn replaces(entry: &Entry) -> String {
    entry.replaced.map(|value| format!(", replaces {}", dates::show_value(value))).unwrap_or_default()
}

/// Removes a label, whatever its value.
fn remove(file: &Path, label: &OsStr) -> Result<String, Trouble> {
    let label = words::label(label)?;
    let count = block_file::alter(file, |block| {
        proved::remove(block, &label).map_err(|no| Trouble::Told(no, vec![with_room(no, block)]))
    })?;
    Ok(format!("removed {}, {}\n", labels::show(&label), taken(count)))
}

/// A no in words; that there is no room with how much there is and what dropping marks would free, in the block that was judged.
fn with_room(no: No, block: &[u8]) -> String {
    match no {
        No::NO_ROOM => format!("{}: {}", no.words(), map::room(block)),
        _ => no.words(),
    }
}

/// How many cells a command took, in words.
fn taken(count: u32) -> String {
    format!("{} taken", counted(count, "cell"))
}

/// A number of things, in words.
fn counted(count: u32, thing: &str) -> String {
    let end = if count == 1 { "" } else { "s" };
    format!("{count} {thing}{end}")
}

/// Shows the value of a label.
fn find(file: &Path, label: &OsStr) -> Result<String, Trouble> {
    let label = words::label(label)?;
    let block = block_file::read(file)?;
    let value = proved::get(&block, &label)?;
    Ok(format!("{}  {}\n", labels::show(&label), dates::show_value(value)))
}

/// Shows the next label in order, with its value.
fn next(file: &Path, label: &OsStr) -> Result<String, Trouble> {
    let label = words::label(label)?;
    let block = block_file::read(file)?;
    let next = proved::next_key(&block, &label)?;
    let value = proved::get(&block, &next)?;
    Ok(format!("{}  {}\n", labels::show(&next), dates::show_value(value)))
}

/// Marks, goes back or drops: one call on a slot, and the file is written only when it is done.
fn slot_change(file: &Path, slot: &OsStr, call: SlotCall, done: &str) -> Result<String, Trouble> {
    let slot = words::whole_number(slot, "slot", 2)?;
    block_file::alter(file, |block| call(block, slot))?;
    Ok(format!("{done} {slot}\n"))
}
