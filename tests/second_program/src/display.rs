//! A block in words, for a difference: its trailer and the cells that it leads into, whether it is sound or not; a page and a write
//! list.

use crate::calls::{valid_length, Outcome};
use crate::model::{embeds, pointer, word_at, CELL, PREFIX};
use crate::pages::pairs_in;
use crate::write_list::{stores_in, RECORD};
use std::collections::{BTreeMap, BTreeSet};

/// The most bytes of a buffer that are shown.
const BYTES_SHOWN: usize = 256;

/// What a word leads to; the words of a split name its parts by one kind.
#[derive(Clone, Copy, Debug, PartialEq, Eq, PartialOrd, Ord)]
enum Role {
    Node,
    Mid,
    End,
}

/// The edition, each cell that is led into with the kinds and parts for which it is taken, the trailer, and all bytes.
pub fn block_in_words(block: &[u8]) -> String {
    let mut lines = vec![format!("block of {} bytes before it:", block.len())];
    if valid_length(block.len()) {
        let trailer = block.len() - CELL;
        lines[0] =
            format!("block of {} cells and edition {} before it:", block.len() / CELL, word_at(block, trailer + 0x1C));
        for (cell, names) in cells_led_into(block) {
            let names = names.into_iter().collect::<Vec<_>>().join(", ");
            lines.push(format!(
                "    cell {cell} ({:04X}) as {names}: {}",
                cell * CELL,
                words(&block[cell * CELL..][..CELL])
            ));
        }
        lines.push(format!("    trailer: {}", words(&block[trailer..])));
    }
    lines.push(format!("    all bytes: {}", hexadecimal(block)));
    lines.join("\n")
}

/// The cells that the words of the trailer lead into, and those below them.
fn cells_led_into(block: &[u8]) -> BTreeMap<usize, BTreeSet<String>> {
    let trailer = block.len() - CELL;
    let mut cells: BTreeMap<usize, BTreeSet<String>> = BTreeMap::new();
    let mut met = BTreeSet::new();
    let mut ahead: Vec<(u32, Role)> = (0..4).map(|slot| (word_at(block, trailer + 4 * slot), Role::Node)).collect();
    while let Some((word, role)) = ahead.pop() {
        let cell = word as usize / CELL;
        if word >> 31 == 1 || cell == 0 || cell >= trailer / CELL || !met.insert((word, role)) {
            continue;
        }
        let name = match role {
            Role::Node => format!("{:02X}", word % 32),
            part => format!("{part:?}"),
        };
        cells.entry(cell).or_default().insert(name);
        ahead.extend(words_below(&block[cell * CELL..][..CELL], word, role));
    }
    cells
}

/// The words that the bytes of a cell hold for one that is led into by a word.
fn words_below(bytes: &[u8], word: u32, role: Role) -> Vec<(u32, Role)> {
    let (offsets, below) = match (role, word % 32) {
        (Role::Mid, _) => (0..8, Role::End),
        (Role::End, _) => (0..8, Role::Node),
        (Role::Node, 0x1C) => (4..8, Role::Mid),
        (Role::Node, 0x1D) => (0..0, Role::Node),
        (Role::Node, 0x1E) => (0..6, Role::Node),
        (Role::Node, 0x1F) if embeds(bytes[4]) => {
            return vec![(word - u32::from(PREFIX) + pointer(0, bytes[4].into()), Role::Node)];
        }
        (Role::Node, _) => (7..8, Role::Node),
    };
    offsets.map(|place| (word_at(bytes, 4 * place), below)).collect()
}

/// The cells in which two blocks of one size differ.
pub fn differing_cells(own: &[u8], their: &[u8]) -> String {
    let cells = own.chunks(CELL).zip(their.chunks(CELL)).enumerate();
    let differing = cells.filter(|(_, (own, their))| own != their).map(|(cell, (own, their))| {
        format!("\ncell {cell} of the model:   {}\ncell {cell} of the library: {}", words(own), words(their))
    });
    differing.collect()
}

/// A page's numbers, and what the bytes that it says it used hold: each key with its value, where they are whole records.
pub fn page_in_words(printed: &Outcome) -> String {
    let (page, buffer) = (printed.page, &printed.buffer);
    let used = buffer.get(..page.used as usize).unwrap_or(buffer);
    let records = match pairs_in(used) {
        Some(pairs) => pairs.iter().map(|(key, value)| format!(" {}={value}", hexadecimal(key))).collect(),
        None => format!(" no whole records: {}", hexadecimal(used)),
    };
    format!("{} bytes used, more {}:{records}", page.used, page.more)
}

/// The stores of a write list, each a byte position and a data word.
pub fn stores_in_words(listed: &Outcome) -> String {
    let used = listed.buffer.get(..listed.number as usize * RECORD).unwrap_or(&listed.buffer);
    stores_in(used).iter().map(|(position, word)| format!(" {position:08X} {word:08X}")).collect()
}

/// The size of a buffer and its first bytes.
pub fn buffer_in_words(buffer: &[u8]) -> String {
    let first = hexadecimal(&buffer[..buffer.len().min(BYTES_SHOWN)]);
    format!("{} bytes that begin {first}", buffer.len())
}

/// How many bytes of two buffers of one size differ, and which is the first.
pub fn differing_bytes(own: &[u8], their: &[u8]) -> String {
    let mut differing = own.iter().zip(their).enumerate().filter(|(_, (own, their))| own != their);
    match differing.next() {
        None => String::new(),
        Some((place, (own, their))) => {
            let count = 1 + differing.count();
            let first = format!("byte {place} is {own:02X} of the model, {their:02X} of the library");
            format!("\n{count} bytes of the buffer differ, and the first, {first}")
        }
    }
}

/// Bytes as words of hexadecimal digits.
fn words(bytes: &[u8]) -> String {
    bytes.chunks(4).map(hexadecimal).collect::<Vec<_>>().join(" ")
}

/// Bytes as hexadecimal digits.
pub fn hexadecimal(bytes: &[u8]) -> String {
    bytes.iter().map(|byte| format!("{byte:02X}")).collect()
}
