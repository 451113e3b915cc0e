//! Help: one command with what more there is to know of it and an example; and the version.

use super::{misused, USAGE};
use crate::trouble::Trouble;
use crate::words;
use std::ffi::OsStr;

/// What is told of a command beside its lines of the usage. The examples can be tried one after the other.
struct Topic {
    command: &'static str,
    more: &'static str,
    example: &'static str,
}

/// What is told of each command, in the order of the usage.
const TOPICS: [Topic; 16] = [
    Topic {
        command: "new",
        more: "A block has 4 to 2,048 cells of 32 bytes. A file that is there already is left as it is.",
        example: "new register.block 16",
    },
    Topic {
        command: "enter",
        more: "A label that is held already gets the new day, and the old one is told. A label with spaces or other signs that
a shell would take for something else goes in single quotes: 'batch 7'. A write-protected file is refused, as in
every command that alters it. A register that belongs to somebody else can be entered into where its rights allow
it, but not marked, removed from or imported into where its owner cannot be kept.",
        example: "enter register.block CHA1 2025-03-07",
    },
    Topic {
        command: "import",
        more: "The list is CSV as RFC 4180 has it, in UTF-8 and with commas. A label is text or hex:43484131:

    label,expires
    CHA1,2025-03-07
    batch 7,2025-09-30

Every bad row is told with its line, and then none is entered; nor is any where there is no room for all. A label
with a character that cannot be seen, or with a space at an end, is a bad row unless it is written as hex:43484131,
since a scanner or a spreadsheet may have put that there. Each day that is replaced is told. A label that has just
that day already is left out and counted as unchanged, so that a list can be imported again and takes no cells. As
ROWS.csv, /dev/stdin is what another program prints. A spreadsheet turns 0012 into 12, which is another label: have it
take the column of labels as text.",
        example: "import register.block cartridges.csv",
    },
    Topic {
        command: "remove",
        more: "A removal may take cells, so that a full block may refuse it until a mark is dropped.",
        example: "remove register.block CHA2",
    },
    Topic {
        command: "list",
        more: "What is shown of a label can be given to a command again. With --csv it is a list that import reads; there a label
is written by its digits, as in hex:43484131, where it is no text that can be seen whole, or where it begins with
= + - or @ and a spreadsheet would take it for a formula. A value that is no date is written as its number there,
which import refuses; and a spreadsheet that saves the list turns the label 0012 into 12. With --json each label has
its text (null where it is none), its digits, its day (null where the value held is none) and the value held.",
        example: "list register.block --csv",
    },
    Topic {
        command: "print",
        more: "These are the pages that a controller with a buffer of that size prints.",
        example: "print register.block 53",
    },
    Topic {
        command: "find",
        more: "A value that is no date is shown as its number.",
        example: "find register.block CHA1",
    },
    Topic {
        command: "next",
        more: "The label given need not be held; '' leads to the first one. Labels are in the order of their bytes.",
        example: "next register.block ''",
    },
    Topic {
        command: "mark",
        more: "A slot that is marked already is marked anew. What a mark holds takes cells until it is dropped.",
        example: "mark register.block 1",
    },
    Topic {
        command: "back",
        more: "What was entered or removed since is undone. The mark stays.",
        example: "back register.block 1",
    },
    Topic {
        command: "drop",
        more: "The present state stays. Cells that only the mark held are free again.",
        example: "drop register.block 1",
    },
    Topic {
        command: "check",
        more: "A block that is not sound is refused by every other command too.",
        example: "check register.block",
    },
    Topic {
        command: "map",
        more: "Capital letters are cells of the present table, small ones cells that only marks hold; what a mark alone holds is
free again when it is dropped. Only a sound block is mapped. A picture is never written over a file that is there.",
        example: "map register.block --svg register.svg",
    },
    Topic {
        command: "verdict",
        more: "The exit status is 0 where it may be laid; else the no tells why, with the day or number held for the label where
that is the reason.",
        example: "verdict register.block CHA1 --today 2025-03-07 --reading 20C --gate 5..40 --section 60 --length 4000",
    },
    Topic {
        command: "help",
        more: "Without a command it shows how all of them are given.",
        example: "help import",
    },
    Topic {
        command: "version",
        more: "It is that of the register which this tool was built with.",
        example: "version",
    },
];

/// Shows a command's lines of the usage, what more there is to know and an example.
pub fn show(command: &OsStr) -> Result<String, Trouble> {
    let name = words::text(command)?;
    let lines = usage_lines(name);
    if lines.is_empty() {
        return Err(misused(name));
    }
    let more = TOPICS.iter().filter(|topic| topic.command == name);
    let more = more.map(|topic| format!("\n{}\n\nExample: workshop {}\n", topic.more, topic.example));
    Ok(lines + &more.collect::<String>())
}

/// The lines of the usage that are about a command: the one that begins with it and those that are set in below.
pub fn usage_lines(name: &str) -> String {
    let start = format!("workshop {name} ");
    let from_it = USAGE.lines().skip_while(|line| !line.starts_with(&start));
    let its_own = from_it.enumerate().take_while(|(place, line)| *place == 0 || line.starts_with(' '));
    its_own.map(|(_, line)| format!("{line}\n")).collect()
}

/// Shows the version that this tool was built with.
pub fn version() -> String {
    format!("workshop {}\n", option_env!("REGISTER_VERSION").unwrap_or("unknown"))
}
