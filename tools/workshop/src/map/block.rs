//! How the bytes of a block read: cells, words, pointers and the trailer.

use crate::proved::CELL_SIZE;

/// The slots of a block.
pub const SLOTS: usize = 3;

/// Where the word stands that a chain's run ends with, and that a prefix in a cell of its own links by.
pub const LAST_WORD: usize = 0x1C;

/// The first edition in which a value may stand in the cell of the chain or split that it is over.
const EMBEDDING_EDITION: u32 = 2;

/// What a word names.
#[derive(Clone, Copy, PartialEq, Eq)]
pub enum Pointer {
    Nothing,
    Leaf(u32),
    Chain { cell: usize, place: u8 },
    Split(usize),
    Sparse(usize),
    Prefix(usize),
    Invalid,
}

/// The bytes of a block. A place outside them reads as zero, so that no bytes can break a reading off.
#[derive(Clone, Copy)]
pub struct Block<'a>(pub &'a [u8]);

impl Block<'_> {
    /// How many cells there are.
    pub fn cells(self) -> usize {
        self.0.len() / CELL_SIZE
    }

    /// How many cells can hold a node: all but cell 0 and the trailer.
    pub fn usable(self) -> usize {
        self.cells().saturating_sub(2)
    }

    /// Whether a cell is the trailer.
    pub fn is_trailer(self, cell: usize) -> bool {
        cell + 1 == self.cells()
    }

    /// The byte at a place of a cell.
    pub fn byte(self, cell: usize, place: usize) -> u8 {
        self.0.get(cell * CELL_SIZE + place).copied().unwrap_or(0)
    }

    /// The word at a place of a cell, highest byte first.
    pub fn word(self, cell: usize, place: usize) -> u32 {
        u32::from_be_bytes([0, 1, 2, 3].map(|past| self.byte(cell, place + past)))
    }

    /// A word of the trailer.
    fn trailer_word(self, place: usize) -> u32 {
        self.word(self.cells().saturating_sub(1), place)
    }

    /// The edition of the layout.
    pub fn edition(self) -> u32 {
        self.trailer_word(0x1C)
    }

    /// Whether a value may stand in the cell of the chain or split that it is over.
    pub fn may_embed(self) -> bool {
        self.edition() >= EMBEDDING_EDITION
    }

    /// The root of the present table.
    pub fn root(self) -> u32 {
        self.trailer_word(0)
    }

    /// The root that a slot holds, if the slot is in use.
    pub fn slot(self, slot: usize) -> Option<u32> {
        let bits = self.trailer_word(0x10) >> 24;
        (bits >> (slot - 1) & 1 == 1).then(|| self.trailer_word(4 * slot))
    }

    /// What a word names: nothing, a value, or a place in a usable cell.
    pub fn pointer(self, word: u32) -> Pointer {
        let (cell, kind) = ((word / 32) as usize, (word % 32) as u8);
        match (word, kind) {
            (0, _) => Pointer::Nothing,
            (0x8000_0000.., _) => Pointer::Leaf(!word),
            _ if cell == 0 || cell > self.usable() => Pointer::Invalid,
            (_, 0x00..=0x1B) => Pointer::Chain { cell, place: kind },
            (_, 0x1C) => Pointer::Split(cell),
            (_, 0x1E) => Pointer::Sparse(cell),
            (_, 0x1F) => Pointer::Prefix(cell),
            _ => Pointer::Invalid,
        }
    }
}
