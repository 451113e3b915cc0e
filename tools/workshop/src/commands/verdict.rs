//! The verdict: the words of its options, and how a good one and a no are told.

use super::misused;
use crate::block_file;
use crate::dates;
use crate::labels;
use crate::proved::{self, Sheet};
use crate::trouble::{Misread, No, Trouble};
use crate::words;
use std::ffi::{OsStr, OsString};
use std::path::Path;

/// The five options of a verdict, in the order in which they are asked for.
const OPTIONS: [&str; 5] = ["--today", "--reading", "--gate", "--section", "--length"];

/// Judges whether a cartridge may be laid; whether today is a date is left to the library, which has a no for it.
pub fn judge(file: &Path, label: &OsStr, options: &[OsString]) -> Result<String, Trouble> {
    let label = words::label(label)?;
    let [today, reading, gate, section, length] = read_options(options)?;
    let today = dates::read_form(today)?;
    let reading = words::reading(reading)?;
    let gate = words::gate(gate)?;
    let section = words::measure(section, "section")?;
    let length = words::measure(length, "length")?;
    let block = block_file::read(file)?;
    let dose = proved::verdict(&block, &label, today, reading, Sheet { gate, section, length })
        .map_err(|no| told(no, &block, &label))?;
    Ok(format!("good: {} may be laid, dose {} ml\n", labels::show(&label), show_dose(dose)))
}

/// A dose as people write it, with the six digits that its kind of number holds for sure: rounded to them in the form with an
/// exponent, and then written without exponent or idle zeros.
fn show_dose(dose: f32) -> String {
    let rounded = format!("{dose:.5e}");
    rounded.parse::<f64>().map_or(rounded, |dose| dose.to_string())
}

/// A no of the verdict with the held value, where that is what it was judged by: the number that is no date, or the expiry day.
fn told(no: No, block: &[u8], label: &[u8]) -> Trouble {
    let join = match no {
        No::NO_DATE => ": ",
        No::EXPIRED => ", ",
        _ => return Trouble::Refused(no),
    };
    match proved::get(block, label) {
        Ok(value) => Trouble::Told(no, vec![format!("{}{join}{}", no.words(), dates::show_value(value))]),
        Err(_) => Trouble::Refused(no),
    }
}

/// The words behind the options of a verdict; each is given once, in any order.
fn read_options(options: &[OsString]) -> Result<[&str; 5], Trouble> {
    let mut found = [None; 5];
    for pair in options.chunks(2) {
        let name = words::text(&pair[0])?;
        let place = OPTIONS.iter().position(|option| *option == name);
        let (Some(place), [_, word]) = (place, pair) else {
            return Err(misused("verdict"));
        };
        if found[place].replace(words::text(word)?).is_some() {
            return Err(Misread(format!("{name} was given twice")).into());
        }
    }
    let mut given = [""; 5];
    for (place, word) in found.into_iter().enumerate() {
        given[place] = word.ok_or_else(|| Misread(format!("{} is missing", OPTIONS[place])))?;
    }
    Ok(given)
}
