//! What the words of a command mean: labels, numbers, readings and gates. What cannot be read is told with how to write it.

use crate::labels;
use crate::proved::{Gate, Reading};
use crate::trouble::Misread;
use crate::visible::quoted;
use std::ffi::OsStr;
use std::os::unix::ffi::OsStrExt;

/// The text of an argument, for all arguments but labels and files.
pub fn text(argument: &OsStr) -> Result<&str, Misread> {
    argument.to_str().ok_or_else(|| Misread(format!("{} is no plain text", quoted(&argument.to_string_lossy()))))
}

/// The bytes of a label, which need not be text.
pub fn label(argument: &OsStr) -> Result<Vec<u8>, Misread> {
    labels::read(argument.as_bytes())
}

/// A whole number such as a slot, an edition or a count of cells, with one of them as an example; which of them are valid is for
/// the library to say.
pub fn whole_number(argument: &OsStr, name: &str, example: u32) -> Result<u32, Misread> {
    let given = text(argument)?;
    let refusal = |why: &str| Misread(format!("{} is no {name}: {why}, as in {example}", quoted(given)));
    if given.is_empty() || !given.bytes().all(|byte| byte.is_ascii_digit()) {
        return Err(refusal("write a whole number"));
    }
    given.parse().map_err(|_| refusal("it is too large, write a smaller number"))
}

/// A number that stands alone, such as a section or a length.
pub fn measure(given: &str, name: &str) -> Result<f32, Misread> {
    number(given).ok_or_else(|| Misread(format!("{} is no {name}: write a number, as in 60 or 0.5", quoted(given))))
}

/// A number such as 20, -5 or 0.5; a comma, an exponent or a word is not taken.
fn number(given: &str) -> Option<f32> {
    let unsigned = given.strip_prefix('-').unwrap_or(given);
    let (whole, rest) = unsigned.split_once('.').unwrap_or((unsigned, "0"));
    let digits = |part: &str| !part.is_empty() && part.bytes().all(|byte| byte.is_ascii_digit());
    if digits(whole) && digits(rest) {
        given.parse().ok()
    } else {
        None
    }
}

/// A reading with its unit, so that Celsius and Fahrenheit are never guessed.
pub fn reading(given: &str) -> Result<Reading, Misread> {
    let celsius = given.strip_suffix('C').and_then(number).map(Reading::Celsius);
    let fahrenheit = given.strip_suffix('F').and_then(number).map(Reading::Fahrenheit);
    celsius
        .or(fahrenheit)
        .ok_or_else(|| Misread(format!("{} is no reading: write degrees and unit, as in 20C or 68F", quoted(given))))
}

/// A gate in Celsius: any, from a limit on, or between two limits.
pub fn gate(given: &str) -> Result<Gate, Misread> {
    let found = match given.split_once("..") {
        None if given == "any" => Some(Gate::Any),
        None => None,
        Some((low, "")) => number(low).map(Gate::AtLeast),
        Some((low, high)) => number(low).zip(number(high)).map(|(low, high)| Gate::Between(low, high)),
    };
    found.ok_or_else(|| Misread(format!("{} is no gate: write any, 5.. or 5..40, in degrees Celsius", quoted(given))))
}
