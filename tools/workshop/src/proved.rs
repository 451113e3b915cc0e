//! The proved library behind its C functions; all use of them stands in this file.

use crate::dates::{Date, Day, Month, Year};
use crate::trouble::No;

extern "C" {
    fn register_format(block: *mut u8, block_size: usize, edition: u32) -> u8;
    fn register_validate(block: *const u8, block_size: usize) -> u8;
    fn register_write_list(
        block: *const u8,
        block_size: usize,
        key: *const u8,
        key_size: usize,
        value: u32,
        list: *mut u8,
        list_size: usize,
        records: *mut u32,
    ) -> u8;
    fn register_remove(block: *mut u8, block_size: usize, key: *const u8, key_size: usize, count: *mut u32) -> u8;
    fn register_get(block: *const u8, block_size: usize, key: *const u8, key_size: usize, value: *mut u32) -> u8;
    fn register_next_key(
        block: *const u8,
        block_size: usize,
        key: *const u8,
        key_size: usize,
        next_size: *mut u32,
        next_key: *mut u8,
    ) -> u8;
    fn register_page(
        block: *const u8,
        block_size: usize,
        key: *const u8,
        key_size: usize,
        buffer: *mut u8,
        buffer_size: usize,
        records: *mut u32,
        used: *mut u32,
        more: *mut u32,
    ) -> u8;
    fn register_snapshot(block: *mut u8, block_size: usize, slot: u32) -> u8;
    fn register_restore(block: *mut u8, block_size: usize, slot: u32) -> u8;
    fn register_release(block: *mut u8, block_size: usize, slot: u32) -> u8;
    fn register_verdict(
        block: *const u8,
        block_size: usize,
        label: *const u8,
        label_size: usize,
        year: u32,
        month: u32,
        day: u32,
        unit: u32,
        degrees: f32,
        kind: u32,
        low: f32,
        high: f32,
        section: f32,
        length: f32,
        dose: *mut f32,
    ) -> u8;
}

/// The size of a cell in bytes.
pub const CELL_SIZE: usize = 32;

/// One cell more than the library takes: every larger block gets the same no, so none larger is ever lent.
pub const MOST_CELLS_LENT: usize = 2_049;

/// The edition of a fresh block where none is asked for.
pub const USUAL_EDITION: u32 = 1;

/// The bytes that the next label is written into.
const LABEL_ROOM: usize = 48;

/// The bytes of one record of a write list: a position and a word.
const STORE_SIZE: usize = 8;

/// A word of four bytes and the position in the block at which it is to be stored.
pub struct Store {
    pub position: u32,
    pub word: [u8; 4],
}

impl Store {
    /// Makes the store in a block.
    pub fn make(&self, block: &mut [u8]) {
        block[self.position as usize..][..4].copy_from_slice(&self.word);
    }
}

/// What a page tells of itself: its records, the bytes that they use, and whether more remain.
#[derive(Clone, Copy)]
pub struct Told {
    pub records: u32,
    pub used: u32,
    pub more: bool,
}

/// What the thermometer shows.
#[derive(Clone, Copy)]
pub enum Reading {
    Celsius(f32),
    Fahrenheit(f32),
}

/// The temperatures that a product may be laid at, in Celsius.
#[derive(Clone, Copy)]
pub enum Gate {
    Any,
    AtLeast(f32),
    Between(f32, f32),
}

/// A product's gate and the bead to be laid of it.
#[derive(Clone, Copy)]
pub struct Sheet {
    pub gate: Gate,
    pub section: f32,
    pub length: f32,
}

/// Turns the number that a call answers into a result, so that no caller can pass over a no.
fn result<T>(answer: u8, given: T) -> Result<T, No> {
    if answer == 0 {
        Ok(given)
    } else {
        Err(No(answer))
    }
}

// In every call below each pointer comes with the size of its own slice, and no slice overlaps another.

/// Makes the block a fresh one of an edition.
pub fn format(block: &mut [u8], edition: u32) -> Result<(), No> {
    result(unsafe { register_format(block.as_mut_ptr(), block.len(), edition) }, ())
}

/// Judges whether the block is sound.
pub fn validate(block: &[u8]) -> Result<(), No> {
    result(unsafe { register_validate(block.as_ptr(), block.len()) }, ())
}

/// Gives the stores that enter a label with its value, in order: eight for each cell that it takes, then the root word. There
/// is room for a store of every word of the block, so it is never too little.
pub fn write_list(block: &[u8], label: &[u8], value: u32) -> Result<Vec<Store>, No> {
    let mut list = vec![0; block.len() / 4 * STORE_SIZE];
    let mut records = 0;
    let answer = unsafe {
        register_write_list(
            block.as_ptr(),
            block.len(),
            label.as_ptr(),
            label.len(),
            value,
            list.as_mut_ptr(),
            list.len(),
            &mut records,
        )
    };
    list.truncate(records as usize * STORE_SIZE);
    result(answer, list.chunks_exact(STORE_SIZE).map(read_store).collect())
}

/// The store of a record: its position highest byte first, and its word as it is to stand in the block.
fn read_store(record: &[u8]) -> Store {
    let word = |from: usize| [record[from], record[from + 1], record[from + 2], record[from + 3]];
    Store { position: u32::from_be_bytes(word(0)), word: word(4) }
}

/// Removes a label and tells how many cells that took.
pub fn remove(block: &mut [u8], label: &[u8]) -> Result<u32, No> {
    let mut count = 0;
    let answer = unsafe { register_remove(block.as_mut_ptr(), block.len(), label.as_ptr(), label.len(), &mut count) };
    result(answer, count)
}

/// Looks up the value of a label.
pub fn get(block: &[u8], label: &[u8]) -> Result<u32, No> {
    let mut value = 0;
    let answer = unsafe { register_get(block.as_ptr(), block.len(), label.as_ptr(), label.len(), &mut value) };
    result(answer, value)
}

/// Gives the least label greater than this one; the empty label leads to the first.
pub fn next_key(block: &[u8], label: &[u8]) -> Result<Vec<u8>, No> {
    let mut size = 0;
    let mut next = [0; LABEL_ROOM];
    let answer = unsafe {
        register_next_key(block.as_ptr(), block.len(), label.as_ptr(), label.len(), &mut size, next.as_mut_ptr())
    };
    result(answer, next[..size as usize].to_vec())
}

/// Writes the records of the labels greater than this one into a buffer, as many as fit.
pub fn page(block: &[u8], label: &[u8], buffer: &mut [u8]) -> Result<Told, No> {
    let (mut records, mut used, mut more) = (0, 0, 0);
    let answer = unsafe {
        register_page(
            block.as_ptr(),
            block.len(),
            label.as_ptr(),
            label.len(),
            buffer.as_mut_ptr(),
            buffer.len(),
            &mut records,
            &mut used,
            &mut more,
        )
    };
    result(answer, Told { records, used, more: more != 0 })
}

/// Marks the present state in a slot.
pub fn snapshot(block: &mut [u8], slot: u32) -> Result<(), No> {
    result(unsafe { register_snapshot(block.as_mut_ptr(), block.len(), slot) }, ())
}

/// Goes back to the state marked in a slot.
pub fn restore(block: &mut [u8], slot: u32) -> Result<(), No> {
    result(unsafe { register_restore(block.as_mut_ptr(), block.len(), slot) }, ())
}

/// Drops the mark in a slot, so that its cells can be used again.
pub fn release(block: &mut [u8], slot: u32) -> Result<(), No> {
    result(unsafe { register_release(block.as_mut_ptr(), block.len(), slot) }, ())
}

/// Judges whether the cartridge of a label may be laid today, and gives the dose in millilitres.
pub fn verdict(block: &[u8], label: &[u8], today: Date, reading: Reading, sheet: Sheet) -> Result<f32, No> {
    let Date(Year(year), Month(month), Day(day)) = today;
    let (unit, degrees) = reading_numbers(reading);
    let (kind, low, high) = gate_numbers(sheet.gate);
    let mut dose = 0.0;
    let answer = unsafe {
        register_verdict(
            block.as_ptr(),
            block.len(),
            label.as_ptr(),
            label.len(),
            year,
            month,
            day,
            unit,
            degrees,
            kind,
            low,
            high,
            sheet.section,
            sheet.length,
            &mut dose,
        )
    };
    result(answer, dose)
}

/// The numbers that stand for a reading in the C call: unit and degrees.
fn reading_numbers(reading: Reading) -> (u32, f32) {
    match reading {
        Reading::Celsius(degrees) => (1, degrees),
        Reading::Fahrenheit(degrees) => (2, degrees),
    }
}

/// The numbers that stand for a gate in the C call: kind, low and high, 0 for a limit that is not used.
fn gate_numbers(gate: Gate) -> (u32, f32, f32) {
    match gate {
        Gate::Any => (1, 0.0, 0.0),
        Gate::AtLeast(low) => (2, low, 0.0),
        Gate::Between(low, high) => (3, low, high),
    }
}

/// Asks the library whether this is a date of 2000 to 2199, so that the calendar's rule stands only in proved code:
/// on a fresh block the verdict is 11 (no such label) for a date, and the lower 10 for anything else.
pub fn is_date(date: Date) -> bool {
    let mut block = [0; 4 * CELL_SIZE];
    let sheet = Sheet { gate: Gate::Any, section: 1.0, length: 1.0 };
    let answer = format(&mut block, USUAL_EDITION)
        .and_then(|()| verdict(&block, b"A", date, Reading::Celsius(0.0), sheet));
    answer == Err(No::MISSING)
}

/// Asks the library whether these bytes can be a label, so that their rule too stands only in proved code: a fresh block has no
/// label, so that a look-up is 11 (no such label) for one that could be held, and the lower 3 for anything else.
pub fn is_label(label: &[u8]) -> bool {
    let mut block = [0; 4 * CELL_SIZE];
    let answer = format(&mut block, USUAL_EDITION).and_then(|()| get(&block, label));
    answer == Err(No::MISSING)
}
