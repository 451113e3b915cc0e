//! Write lists: an insertion as stores for a memory driver, read off the block that it gives; and lists to ask for.

use crate::calls::{enter, valid_key, valid_length, Call, Outcome};
use crate::counted::{Change, WriteCase};
use crate::coverage::Coverage;
use crate::display::{buffer_in_words, hexadecimal};
use crate::encode::{entered, fresh_cells, Build};
use crate::model::{word_at, Store, CELL};
use crate::pages::drawn_bytes;
use crate::random::Random;
use std::fmt::{Debug, Formatter};

/// The bytes of one record: a byte position and a data word.
pub const RECORD: usize = 8;

/// The bytes of the shortest list: the eight words of one cell, and the root word.
const SHORTEST: usize = bytes_for(1);

/// What a write list is asked for with: the pair to enter, and the buffer with whatever stands in it.
#[derive(Clone)]
pub struct Asked {
    pub key: Vec<u8>,
    pub value: u32,
    pub buffer: Vec<u8>,
}

impl Asked {
    /// The insertion that the list is of.
    pub fn entry(&self) -> Call {
        Call::Insert { key: self.key.clone(), value: self.value }
    }
}

impl Debug for Asked {
    /// The pair and the size of the buffer, with its first bytes, for a difference.
    fn fmt(&self, formatter: &mut Formatter) -> std::fmt::Result {
        let (key, buffer) = (hexadecimal(&self.key), buffer_in_words(&self.buffer));
        write!(formatter, "of key '{key}' with {} into {buffer}", self.value)
    }
}

/// The bytes of a list of so many cells: a record for each word of a cell, and one for the root word.
pub const fn bytes_for(cells: usize) -> usize {
    (cells * (CELL / 4) + 1) * RECORD
}

/// The list of an insertion: it is made on a copy of the block, which then has every word to be stored.
pub fn write_list(block: &[u8], store: Store, asked: &Asked, coverage: &mut Coverage) -> Outcome {
    let mut copy = block.to_vec();
    let of_block = met_in_block(block, &store, asked);
    let laid = match enter(&mut copy, store, &asked.key, asked.value, Change::WriteList, coverage) {
        Ok(laid) => laid,
        Err(answer) => return Outcome::bare(answer),
    };
    let mut bytes = stores_of(&copy, &laid.taken);
    meet_size(asked.buffer.len(), bytes.len(), coverage);
    if asked.buffer.len() < bytes.len() {
        return Outcome::bare(15);
    }
    coverage.write_list(&of_block);
    coverage.built(Change::WriteList, &laid.cases, &laid.searched);
    meet_cells(block, &laid.taken, coverage);
    let records = (bytes.len() / RECORD) as u32;
    bytes.extend_from_slice(&asked.buffer[bytes.len()..]);
    Outcome { buffer: bytes, ..Outcome::done(records) }
}

/// The records of cells in the order given, each cell's words in rising position as the block has them, and of the root word.
fn stores_of(block: &[u8], taken: &[usize]) -> Vec<u8> {
    let words = taken.iter().flat_map(|cell| (cell * CELL..(cell + 1) * CELL).step_by(4));
    let positions = words.chain([block.len() - CELL]);
    positions.flat_map(|position| [position as u32, word_at(block, position)]).flat_map(u32::to_be_bytes).collect()
}

/// The stores of whole records: byte positions, each with its data word.
pub fn stores_in(bytes: &[u8]) -> Vec<(usize, u32)> {
    bytes.chunks_exact(RECORD).map(|record| (word_at(record, 0) as usize, word_at(record, 4))).collect()
}

/// What a list meets in its block.
fn met_in_block(block: &[u8], store: &Store, asked: &Asked) -> [(WriteCase, bool); 7] {
    let table = store.root.table();
    [
        (WriteCase::EditionOne, store.edition == 1),
        (WriteCase::EditionTwo, store.edition == 2),
        (WriteCase::WithSnapshot, store.snapshots.iter().any(Option::is_some)),
        (WriteCase::OfEmptyTable, table.is_empty()),
        (WriteCase::OfKeyShown, table.contains_key(&asked.key)),
        (WriteCase::OfNewKey, !table.is_empty() && !table.contains_key(&asked.key)),
        (WriteCase::InLargeBlock, block.len() >= 64 * CELL),
    ]
}

/// Counts how a buffer's size meets that of the list.
fn meet_size(room: usize, need: usize, coverage: &mut Coverage) {
    coverage.write_list(&[
        (WriteCase::NoBuffer, room == 0),
        (WriteCase::OneByteShort, room + 1 == need),
        (WriteCase::OneRecordShort, room + RECORD == need),
        (WriteCase::ExactFit, room == need),
        (WriteCase::OneByteOver, room == need + 1),
        (WriteCase::OneRecordOver, room == need + RECORD),
        (WriteCase::HugeBuffer, room >= 0x1_0000),
    ]);
}

/// Counts how many cells a list has, and which.
fn meet_cells(block: &[u8], taken: &[usize], coverage: &mut Coverage) {
    let last_usable = block.len() / CELL - 2;
    let used = |cell: &usize| block[cell * CELL..][..CELL].iter().any(|byte| *byte != 0);
    coverage.write_list(&[
        (WriteCase::OneCell, taken.len() == 1),
        (WriteCase::TwoCells, taken.len() == 2),
        (WriteCase::ThreeCells, taken.len() == 3),
        (WriteCase::FourToSixCells, (4..=6).contains(&taken.len())),
        (WriteCase::SevenToNineCells, (7..=9).contains(&taken.len())),
        (WriteCase::TenCells, taken.len() >= 10),
        (WriteCase::ApartCells, taken.windows(2).any(|pair| pair[1] > pair[0] + 1)),
        (WriteCase::LastUsableCell, taken.contains(&last_usable)),
        (WriteCase::OverOldBytes, taken.iter().any(used)),
    ]);
}

/// Counts what a refused list met: a buffer shorter than any list, beside a refusal that comes before.
pub fn meet_refused(asked: &Asked, answer: u8, coverage: &mut Coverage) {
    let short = asked.buffer.len() < SHORTEST;
    coverage.write_list(&[
        (WriteCase::ShortOnBadSize, answer == 1 && short),
        (WriteCase::ShortOnUnsound, answer == 2 && short),
        (WriteCase::ShortBesideBadKey, answer == 3 && short),
        (WriteCase::ShortBesideBadValue, answer == 4 && short),
        (WriteCase::ShortBesideNoRoom, answer == 7 && short),
    ]);
}

/// A list to ask for, into random bytes whose number has mostly to do with its own; often too few for any list where it is refused.
pub fn drawn_write_list(block: &[u8], key: Vec<u8>, value: u32, random: &mut Random) -> Asked {
    let need = bytes_needed(block, &key, value);
    let refused = need.is_none();
    let need = need.unwrap_or(SHORTEST);
    let size = match random.below(25) {
        0 => random.pick(&[0, 0, 1, RECORD, SHORTEST - 1]),
        1 | 2 => need - 1,
        3 => need - RECORD,
        4 => random.below(need),
        5 | 6 => need + 1,
        7 => need + RECORD,
        8 => need + random.below(300),
        9 if random.chance(50) => random.pick(&[0xFFFF, 0x1_0000, 0x1_0001]),
        10..=20 if refused => random.below(SHORTEST),
        _ => need,
    };
    Asked { key, value, buffer: drawn_bytes(size, random) }
}

/// The bytes that the list of a pair takes; nothing where its insertion is refused.
fn bytes_needed(block: &[u8], key: &[u8], value: u32) -> Option<usize> {
    if !valid_length(block.len()) || !valid_key(key) || value >> 31 == 1 {
        return None;
    }
    let store = Store::decode(block).ok()?;
    let free = store.free_cells().len();
    let mut build = Build { edition: store.edition, cases: Vec::new() };
    let cells = fresh_cells(&entered(store.root.top, key, value, &mut build));
    (cells <= free).then_some(bytes_for(cells))
}
