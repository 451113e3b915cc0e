//! The plain program: the same answers over the same block bytes, in ordinary Rust without a proof.

use crate::insertion;
use crate::printing;
use crate::removal;
use crate::validation;
use crate::walk;
use std::ops::RangeInclusive;

/// Bytes in one cell.
pub const CELL: usize = 32;

/// The longest key, and so the deepest path, in characters.
pub const LONGEST_KEY: usize = 48;

/// The kinds of a pointer that are not a chain's; every lower one is a chain's.
pub const SPLIT: usize = 0x1C;
/// The kind that no pointer has.
pub const NO_KIND: usize = 0x1D;
/// The kind of a sparse cell.
pub const SPARSE: usize = 0x1E;
/// The kind of a prefix.
pub const PREFIX: usize = 0x1F;

/// The byte at 04 of a prefix with a cell of its own; any other is the offset of its node in the same cell.
pub const STANDALONE: u8 = 0xFF;
/// The offsets at which a node stands behind a prefix in its cell: those of chains, and a split head's.
pub const EMBEDDED: RangeInclusive<usize> = 0x05..=SPLIT;

/// The answer to the question for the next key: its size and its bytes, zero past the size.
#[derive(Clone, Copy, Debug, PartialEq, Eq)]
pub struct Next {
    pub answer: u8,
    pub size: u32,
    pub key: [u8; LONGEST_KEY],
}

/// The answer to the question for a page: its records, the bytes that they use and whether more remain.
#[derive(Clone, Copy, Debug, Default, PartialEq, Eq)]
pub struct Page {
    pub answer: u8,
    pub records: u32,
    pub used: u32,
    pub more: bool,
}

/// The four bytes at an offset as a number, highest byte first.
pub fn word_at(block: &[u8], offset: usize) -> u32 {
    u32::from_be_bytes([block[offset], block[offset + 1], block[offset + 2], block[offset + 3]])
}

/// Writes a number at an offset, highest byte first.
pub fn put_word(block: &mut [u8], offset: usize, word: u32) {
    block[offset..offset + 4].copy_from_slice(&word.to_be_bytes());
}

/// Whether a pointer is a leaf's.
pub fn is_leaf(word: u32) -> bool {
    word >> 31 == 1
}

/// The cell that a pointer names.
pub fn cell_of(word: u32) -> usize {
    word as usize / CELL
}

/// The kind that a pointer names.
pub fn kind_of(word: u32) -> usize {
    word as usize % CELL
}

/// The root pointer of a block.
pub fn root_of(block: &[u8]) -> u32 {
    word_at(block, block.len() - CELL)
}

/// The edition that a trailer names.
pub fn edition_of(block: &[u8]) -> u32 {
    word_at(block, block.len() - 4)
}

/// Whether prefixes may stand in the cells of their nodes.
pub fn may_embed(block: &[u8]) -> bool {
    edition_of(block) == 2
}

/// The node that a prefix is over: the one it names, or the one in its own cell.
pub fn linked_word(block: &[u8], prefix: u32) -> u32 {
    let cell = cell_of(prefix) * CELL;
    match block[cell + 4] {
        STANDALONE => word_at(block, cell + 0x1C),
        offset => (cell + usize::from(offset)) as u32,
    }
}

/// A fresh block of so many cells in an edition.
pub fn fresh(cells: usize, edition: u32) -> Vec<u8> {
    let mut block = vec![0; cells * CELL];
    let trailer = block.len() - CELL;
    put_word(&mut block, trailer + 0x14, cells as u32);
    put_word(&mut block, trailer + 0x1C, edition);
    block
}

/// Whether a block of this length holds from 4 to 2,048 whole cells.
fn valid_length(length: usize) -> bool {
    length % CELL == 0 && (4..=2048).contains(&(length / CELL))
}

/// Whether the block is sound, as an answer number.
#[inline(never)]
pub fn validate(block: &[u8]) -> u8 {
    if !valid_length(block.len()) {
        return 1;
    }
    if !validation::is_sound(block, &mut [0; 2048]) {
        return 2;
    }
    0
}

/// Looks a key up after validation: the answer number and the value.
#[inline(never)]
pub fn get(block: &[u8], key: &[u8]) -> (u8, u32) {
    let answer = validate(block);
    if answer != 0 {
        return (answer, 0);
    }
    if key.is_empty() || key.len() > LONGEST_KEY {
        return (3, 0);
    }
    match walk::value_of(block, root_of(block), key) {
        Some(value) => (0, value),
        None => (11, 0),
    }
}

/// The least key that is greater than the given one, after validation.
#[inline(never)]
pub fn next_key(block: &[u8], key: &[u8]) -> Next {
    let mut next = Next { answer: validate(block), size: 0, key: [0; LONGEST_KEY] };
    if next.answer != 0 {
        return next;
    }
    if key.len() > LONGEST_KEY {
        next.answer = 3;
        return next;
    }
    match walk::least_above(block, root_of(block), Some(key), 0, &mut next.key) {
        Some(size) => next.size = size as u32,
        None => next = Next { answer: 11, size: 0, key: [0; LONGEST_KEY] },
    }
    next
}

/// Writes the records of the keys that are greater than the given one, in order, until one does not fit, after validation.
#[inline(never)]
pub fn page(block: &[u8], after: &[u8], buffer: &mut [u8]) -> Page {
    let answer = match validate(block) {
        0 if after.len() > LONGEST_KEY => 3,
        0 if buffer.len() < printing::LONGEST_RECORD => 15,
        answer => answer,
    };
    if answer != 0 {
        return Page { answer, ..Page::default() };
    }
    let mut writer = printing::Writer { block, path: [0; LONGEST_KEY], buffer, records: 0, used: 0 };
    let more = !writer.after(root_of(block), after, 0);
    Page { answer, records: writer.records, used: writer.used as u32, more }
}

/// Enters a key with its value after validation: the answer number and the count of cells taken.
#[inline(never)]
pub fn insert(block: &mut [u8], key: &[u8], value: u32) -> (u8, u32) {
    let mut reached = [0; 2048];
    let answer = judge_insertion(block, key, value, &mut reached);
    if answer != 0 {
        return (answer, 0);
    }
    match insertion::insert(block, &reached, key, value) {
        Some(count) => (0, count),
        None => (7, 0),
    }
}

/// Writes the same entry into a list of stores after validation: the answer number and the count of records.
#[inline(never)]
pub fn write_list(block: &[u8], key: &[u8], value: u32, list: &mut [u8]) -> (u8, u32) {
    let mut reached = [0; 2048];
    let answer = judge_insertion(block, key, value, &mut reached);
    if answer != 0 {
        return (answer, 0);
    }
    insertion::list(block, &reached, insertion::after_root(block), key, value, list)
}

/// Judges an entry before anything is built for it, as an answer number; the cells that a sound block's roots reach are flagged.
fn judge_insertion(block: &[u8], key: &[u8], value: u32, reached: &mut validation::Reached) -> u8 {
    if !valid_length(block.len()) {
        return 1;
    }
    if !validation::is_sound(block, reached) {
        return 2;
    }
    if key.is_empty() || key.len() > LONGEST_KEY {
        return 3;
    }
    if is_leaf(value) {
        return 4;
    }
    0
}

/// Removes a key after validation: the answer number and the count of cells taken.
#[inline(never)]
pub fn remove(block: &mut [u8], key: &[u8]) -> (u8, u32) {
    if !valid_length(block.len()) {
        return (1, 0);
    }
    let mut reached = [0; 2048];
    if !validation::is_sound(block, &mut reached) {
        return (2, 0);
    }
    if key.is_empty() || key.len() > LONGEST_KEY {
        return (3, 0);
    }
    if walk::value_of(block, root_of(block), key).is_none() {
        return (11, 0);
    }
    match removal::remove(block, &reached, key) {
        Some(count) => (0, count),
        None => (7, 0),
    }
}
