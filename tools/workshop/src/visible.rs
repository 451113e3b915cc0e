//! Characters that can be seen, and so be typed again by who sees them.

use std::path::Path;

/// Characters that count as letters or signs and yet show nothing.
const BLANKS: [char; 5] = ['\u{115F}', '\u{1160}', '\u{2800}', '\u{3164}', '\u{FFA0}'];

/// Whether a character is the plain space or can be seen by itself. Control characters, other spaces, marks of direction or of no
/// width and those that only alter the character before them are not: of two texts that differ in them, both look the same.
pub fn is_visible(character: char) -> bool {
    let seen = matches!(character, '\'' | '"' | '\\') || character.escape_debug().eq([character]);
    seen && !BLANKS.contains(&character)
}

/// The most characters that a message shows of a text.
const MOST_QUOTED: usize = 80;

/// A text in quotes, for messages; what cannot be seen of it is written as its number, so that it does nothing to a terminal. Of a
/// longer text the beginning is shown, since it may be a whole file.
pub fn quoted(text: &str) -> String {
    let mut shown = String::new();
    let mut room = MOST_QUOTED;
    for part in text.chars().map(shown_in_message) {
        match room.checked_sub(part.chars().count()) {
            Some(left) => room = left,
            None => return format!("'{shown}'..."),
        }
        shown += &part;
    }
    format!("'{shown}'")
}

/// The name of a file, for messages: as it is where all of it can be seen, else in quotes as above, but whole.
pub fn file_name(path: &Path) -> String {
    let name = path.to_string_lossy();
    if name.chars().all(is_visible) {
        return name.into_owned();
    }
    format!("'{}'", name.chars().map(shown_in_message).collect::<String>())
}

/// A character of a text in a message.
fn shown_in_message(character: char) -> String {
    if is_visible(character) {
        character.to_string()
    } else {
        character.escape_unicode().to_string()
    }
}
