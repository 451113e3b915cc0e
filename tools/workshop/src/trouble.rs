//! What can stand in the way of a command, and the words and exit status for it.

/// The exit status when the command was not given as it should be.
const USAGE_STATUS: u8 = 64;

/// The exit status when rows of a list are not as they should be.
const ROWS_STATUS: u8 = 65;

/// The exit status when a file could not be read or written, or is write-protected.
const FILE_STATUS: u8 = 74;

/// What each no means, in the order of their numbers from 1 on.
const MEANINGS: [&str; 15] = [
    "the size is no multiple of 32 bytes, or not 4 to 2,048 cells, or a new block's edition is not 1 or 2",
    "the block is not sound",
    "the label is empty or has over 48 bytes",
    "the value is over 2,147,483,647",
    "the slot is not 1, 2 or 3",
    "the slot holds no mark",
    "there are not enough free cells for this",
    "the sheet is wrong: a gate limit is outside -100 to 400, low is above high, the section is outside 0.5 to 100 \
     or the length outside 1 to 10,000",
    "the reading is outside -100 to 400 degrees",
    "today is no date of 2000 to 2199",
    "there is no such label, or no next one",
    "the value held for the label is no date",
    "today is after the expiry day",
    "the temperature is outside the gate",
    "the page has under 53 bytes",
];

/// An answer of the library other than done.
#[derive(Clone, Copy, Debug, PartialEq, Eq)]
pub struct No(pub u8);

/// What cannot be read, and how it is to be written.
#[derive(Debug, PartialEq)]
pub struct Misread(pub String);

/// Why a command was not carried out: a no, a no in lines that tell more, words that were not understood, bad rows of a list
/// in a line for each, or a file.
#[derive(Debug, PartialEq)]
pub enum Trouble {
    Refused(No),
    Told(No, Vec<String>),
    Usage(String),
    Rows(Vec<String>),
    File(String),
}

impl From<No> for Trouble {
    /// Lets a no of the library end a command at once.
    fn from(no: No) -> Trouble {
        Trouble::Refused(no)
    }
}

impl From<Misread> for Trouble {
    /// Lets a word that cannot be read end a command at once.
    fn from(Misread(message): Misread) -> Trouble {
        Trouble::Usage(message)
    }
}

impl No {
    /// The label is empty or too long.
    pub const BAD_LABEL: No = No(3);

    /// There are not enough free cells.
    pub const NO_ROOM: No = No(7);

    /// No such label, or no next one.
    pub const MISSING: No = No(11);

    /// The value held for the label is no date.
    pub const NO_DATE: No = No(12);

    /// Today is after the expiry day.
    pub const EXPIRED: No = No(13);

    /// What it means.
    pub fn meaning(self) -> &'static str {
        let place = usize::from(self.0).wrapping_sub(1);
        MEANINGS.get(place).unwrap_or(&"the library gave an answer that this tool does not know")
    }

    /// The number and its meaning.
    pub fn words(self) -> String {
        format!("no {}: {}", self.0, self.meaning())
    }
}

impl Trouble {
    /// The exit status that tells this trouble apart from others.
    pub fn status(&self) -> u8 {
        match self {
            Trouble::Refused(no) | Trouble::Told(no, _) => no.0,
            Trouble::Usage(_) => USAGE_STATUS,
            Trouble::Rows(_) => ROWS_STATUS,
            Trouble::File(_) => FILE_STATUS,
        }
    }

    /// The lines that tell it: a no begins with its number, what is about a row with its place, all else with this tool's name.
    pub fn lines(&self) -> String {
        match self {
            Trouble::Refused(no) => format!("{}\n", no.words()),
            Trouble::Told(_, lines) | Trouble::Rows(lines) => lines.join("\n") + "\n",
            Trouble::Usage(message) | Trouble::File(message) => format!("workshop: {message}\n"),
        }
    }
}
