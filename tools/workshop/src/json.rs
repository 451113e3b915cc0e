//! The table of a block as JSON, for other programs.

use crate::dates;
use crate::labels;
use crate::pages::Record;
use crate::visible::is_visible;

/// What stands for a label that is no text, and for the day of a value that is no date.
const NOTHING: &str = "null";

/// Writes one object for each record, each on a line of its own.
pub fn write(records: &[Record]) -> String {
    if records.is_empty() {
        return "[]\n".to_string();
    }
    let objects: Vec<String> = records.iter().map(object).collect();
    format!("[\n{}\n]\n", objects.join(",\n"))
}

/// A label as text where it is text, and always by its digits; its day where it holds one, and always the value held.
fn object(Record { label, value }: &Record) -> String {
    let text = std::str::from_utf8(label).map_or(NOTHING.to_string(), string);
    let day = dates::unpack(*value).map_or(NOTHING.to_string(), |date| string(&date.to_string()));
    let digits = string(&labels::digits(label));
    format!("  {{\"label\": {text}, \"hex\": {digits}, \"expires\": {day}, \"value\": {value}}}")
}

/// A text in quotes.
fn string(text: &str) -> String {
    let inside: String = text.chars().map(escaped).collect();
    format!("\"{inside}\"")
}

/// A character inside of quotes; what cannot be seen is written as its number, which more readers take than must.
fn escaped(character: char) -> String {
    match character {
        '"' | '\\' => format!("\\{character}"),
        _ if is_visible(character) => character.to_string(),
        _ => character.encode_utf16(&mut [0; 2]).iter().map(|unit| format!("\\u{unit:04X}")).collect(),
    }
}
