//! Labels: read as they are given, and shown in a form that can be given again.

use crate::trouble::Misread;
use crate::visible::{is_visible, quoted};

/// What a label starts with that is given as hexadecimal digits.
const DIGITS_MARK: &str = "hex:";

/// The signs that stand for themselves in every shell, beside letters and digits.
const PLAIN_SIGNS: &str = "_@%+=:,./-";

/// The bytes of a label: those that are given, or those that its hexadecimal digits stand for.
pub fn read(given: &[u8]) -> Result<Vec<u8>, Misread> {
    let Some(digits) = given.strip_prefix(DIGITS_MARK.as_bytes()) else {
        return Ok(given.to_vec());
    };
    digits.chunks(2).map(read_byte).collect::<Option<Vec<u8>>>().ok_or_else(|| {
        let shown = quoted(&String::from_utf8_lossy(given));
        Misread(format!("{shown} is no label: write two hexadecimal digits a byte, as in hex:43484131"))
    })
}

/// The byte of two hexadecimal digits.
fn read_byte(pair: &[u8]) -> Option<u8> {
    let [high, low] = pair else {
        return None;
    };
    let digit = |byte: u8| char::from(byte).to_digit(16);
    u8::try_from(digit(*high)? * 16 + digit(*low)?).ok()
}

/// Shows a label so that a shell gives the same bytes again: as it is, in quotes where a shell would take some of it for
/// something else, or as digits where it is no text that can be seen whole.
pub fn show(label: &[u8]) -> String {
    match text(label) {
        Some(text) if !text.is_empty() && text.chars().all(is_plain) => text.to_string(),
        Some(text) => format!("'{}'", text.replace('\'', r"'\''")),
        None => marked_digits(label),
    }
}

/// Whether a visible character stands for itself in every shell; those beyond ASCII do.
fn is_plain(character: char) -> bool {
    !character.is_ascii() || character.is_ascii_alphanumeric() || PLAIN_SIGNS.contains(character)
}

/// The text that a label is, if all of it can be seen and it is not read as digits.
pub fn text(label: &[u8]) -> Option<&str> {
    let text = std::str::from_utf8(label).ok()?;
    (text.chars().all(is_visible) && !text.starts_with(DIGITS_MARK)).then_some(text)
}

/// A label as its digits, marked so that they are read as such.
pub fn marked_digits(label: &[u8]) -> String {
    format!("{DIGITS_MARK}{}", digits(label))
}

/// The hexadecimal digits of a label.
pub fn digits(label: &[u8]) -> String {
    label.iter().map(|byte| format!("{byte:02X}")).collect()
}
