//! One entry: the stores that make it, how many cells they take, and the value that it replaces.

use crate::proved::{self, Store};
use crate::trouble::No;

/// The stores of one cell in a write list; beside those of the cells it has the one of the root word.
const STORES_OF_A_CELL: u32 = 8;

/// An entry as it is to be made in the block that it was asked for, and in no other.
pub struct Entry {
    pub stores: Vec<Store>,
    pub replaced: Option<u32>,
}

impl Entry {
    /// Asks the library for the entry of a label with its value, and for the value that the same block holds for it now.
    pub fn of(block: &[u8], label: &[u8], value: u32) -> Result<Entry, No> {
        let stores = proved::write_list(block, label, value)?;
        Ok(Entry { stores, replaced: held(block, label)? })
    }

    /// How many cells the entry takes.
    pub fn cells(&self) -> u32 {
        self.stores.len() as u32 / STORES_OF_A_CELL
    }
}

/// The value that a block holds for a label, if any.
pub fn held(block: &[u8], label: &[u8]) -> Result<Option<u32>, No> {
    match proved::get(block, label) {
        Err(No::MISSING) => Ok(None),
        found => found.map(Some),
    }
}
