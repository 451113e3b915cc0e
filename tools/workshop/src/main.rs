//! The workshop's command line for a cartridge register in a file, over the proved library.

mod access_list;
mod beside;
mod block_file;
mod columns;
mod commands;
mod csv;
mod dates;
mod entries;
mod json;
mod labels;
mod map;
mod pages;
mod proved;
mod rows;
mod trouble;
mod visible;
mod words;

use std::ffi::OsString;
use std::io::{self, Write};
use std::process::ExitCode;
use trouble::Trouble;

/// Carries out one command: what it gives is printed, and why it was not carried out is told beside as an error, so that a
/// program that reads what is printed never takes a no for data.
fn main() -> ExitCode {
    let arguments: Vec<OsString> = std::env::args_os().skip(1).collect();
    match commands::perform(&arguments).and_then(|lines| print(&lines)) {
        Ok(()) => ExitCode::SUCCESS,
        Err(trouble) => {
            tell(&trouble);
            ExitCode::from(trouble.status())
        }
    }
}

/// Tells an error; where that cannot be done the exit status still speaks.
fn tell(trouble: &Trouble) {
    let _ = io::stderr().write_all(trouble.lines().as_bytes());
}

/// Prints what a command gives. A reader that has seen enough is no trouble; any other failure is one, but comes too late to undo
/// the command.
fn print(lines: &str) -> Result<(), Trouble> {
    let mut output = io::stdout().lock();
    match output.write_all(lines.as_bytes()).and_then(|()| output.flush()) {
        Err(reason) if reason.kind() != io::ErrorKind::BrokenPipe => {
            Err(Trouble::File(format!("cannot print: {reason}; the command was carried out")))
        }
        _ => Ok(()),
    }
}
