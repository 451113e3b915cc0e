//! Dates: year, month and day as kinds of their own, the ISO 8601 form, and the number that a block holds.

use crate::proved;
use crate::trouble::Misread;
use crate::visible::quoted;
use std::fmt;

#[derive(Clone, Copy, Debug, PartialEq)]
pub struct Year(pub u32);

#[derive(Clone, Copy, Debug, PartialEq)]
pub struct Month(pub u32);

#[derive(Clone, Copy, Debug, PartialEq)]
pub struct Day(pub u32);

/// A year, a month and a day; only the library says whether they are a date.
#[derive(Clone, Copy, Debug, PartialEq)]
pub struct Date(pub Year, pub Month, pub Day);

impl fmt::Display for Date {
    /// Writes the ISO 8601 form, the only one that this tool reads.
    fn fmt(&self, out: &mut fmt::Formatter) -> fmt::Result {
        let Date(Year(year), Month(month), Day(day)) = self;
        write!(out, "{year:04}-{month:02}-{day:02}")
    }
}

/// Reads the form 2025-03-07 and no other, since 07/03 can be read both ways.
pub fn read_form(text: &str) -> Result<Date, Misread> {
    let refusal = || Misread(format!("{} is no ISO 8601 date: write year-month-day, as in 2025-03-07", quoted(text)));
    let parts: Vec<&str> = text.split('-').collect();
    let [year, month, day] = parts[..] else {
        return Err(refusal());
    };
    let year = digits(year, 4).ok_or_else(refusal)?;
    let month = digits(month, 2).ok_or_else(refusal)?;
    let day = digits(day, 2).ok_or_else(refusal)?;
    Ok(Date(Year(year), Month(month), Day(day)))
}

/// Reads a date that is to be held; what is no date in the library's eyes must not get into a block as one.
pub fn read_date(text: &str) -> Result<Date, Misread> {
    let date = read_form(text)?;
    if proved::is_date(date) {
        Ok(date)
    } else {
        Err(Misread(format!("{} is no day of the calendar from 2000-01-01 to 2199-12-31", quoted(text))))
    }
}

/// Reads exactly so many decimal digits, without sign or space.
fn digits(text: &str, count: usize) -> Option<u32> {
    if text.len() == count && text.bytes().all(|byte| byte.is_ascii_digit()) {
        text.parse().ok()
    } else {
        None
    }
}

/// Packs a date into the number that a block holds for it.
pub fn pack(date: Date) -> u32 {
    let Date(Year(year), Month(month), Day(day)) = date;
    year * 512 + month * 32 + day
}

/// Unpacks a number that a block holds, if it is a date's.
pub fn unpack(value: u32) -> Option<Date> {
    let date = Date(Year(value / 512), Month(value / 32 % 16), Day(value % 32));
    proved::is_date(date).then_some(date)
}

/// Shows a held value: a date in its ISO 8601 form, any other value as a number.
pub fn show_value(value: u32) -> String {
    match unpack(value) {
        Some(date) => date.to_string(),
        None => value.to_string(),
    }
}
