//! Pages in the plain program: one walk of a sound block's tree, in rising order, that writes records until one does not fit.

use crate::plain::{cell_of, is_leaf, kind_of, put_word, word_at, CELL, LONGEST_KEY, PREFIX, SPARSE, SPLIT};
use crate::walk::{children_from, without_prefix};

/// The bytes of a record besides its key: the key's length before it and the value after it.
const BESIDE_KEY: usize = 5;

/// The bytes of the longest record, for which every buffer must have room.
pub const LONGEST_RECORD: usize = LONGEST_KEY + BESIDE_KEY;

/// A page being written: the characters that lead to where the walk stands, and what is written so far.
pub struct Writer<'a> {
    pub block: &'a [u8],
    pub path: [u8; LONGEST_KEY],
    pub buffer: &'a mut [u8],
    pub records: u32,
    pub used: usize,
}

// Every function says whether all that it had to write fits; nothing is written after a record that does not.
impl Writer<'_> {
    /// Writes the records below a pointer whose keys are greater than the rest of a key.
    pub fn after(&mut self, word: u32, rest: &[u8], depth: usize) -> bool {
        let node = without_prefix(self.block, word);
        let Some((first, rest)) = rest.split_first() else {
            return node == 0 || is_leaf(node) || self.below(node, depth);
        };
        children_from(self.block, node, *first).all(|(character, child)| {
            self.path[depth] = character;
            if character == *first {
                self.after(child, rest, depth + 1)
            } else {
                self.tree(child, depth + 1)
            }
        })
    }

    /// Writes the records of the tree of a pointer.
    fn tree(&mut self, word: u32, depth: usize) -> bool {
        if is_leaf(word) {
            return self.record(depth, !word);
        }
        if kind_of(word) == PREFIX && !self.record(depth, word_at(self.block, cell_of(word) * CELL)) {
            return false;
        }
        self.below(without_prefix(self.block, word), depth)
    }

    /// Writes the records below a chain, sparse or split.
    fn below(&mut self, word: u32, depth: usize) -> bool {
        let offset = cell_of(word) * CELL;
        match kind_of(word) {
            SPLIT => self.part(offset + 0x10, 4, 2, 0, depth),
            SPARSE => self.sparse(&self.block[offset..offset + CELL], depth),
            _ => self.chain(&self.block[word as usize..offset + CELL], depth),
        }
    }

    /// Writes the records below a chain, of which these bytes are the rest of its cell: characters, then a pointer.
    fn chain(&mut self, rest: &[u8], depth: usize) -> bool {
        let count = rest.len() - 4;
        self.path[depth..depth + count].copy_from_slice(&rest[..count]);
        self.tree(word_at(rest, count), depth + count)
    }

    /// Writes the records below the children of a sparse cell, as its order word lists them.
    fn sparse(&mut self, cell: &[u8], depth: usize) -> bool {
        let mut order = u16::from_be_bytes([cell[0x1E], cell[0x1F]]);
        while order > 0 {
            let position = usize::from(order % 6);
            order /= 6;
            self.path[depth] = cell[0x18 + position];
            if !self.tree(word_at(cell, 4 * position), depth + 1) {
                return false;
            }
        }
        true
    }

    /// Writes the records below a head, mid or end; levels says how many parts lie below, bits what the parts above say of the
    /// character.
    fn part(&mut self, offset: usize, words: usize, levels: usize, bits: usize, depth: usize) -> bool {
        for place in 0..words {
            let (word, bits) = (word_at(self.block, offset + 4 * place), bits << 3 | place);
            if word == 0 {
                continue;
            }
            let fits = if levels == 0 {
                self.path[depth] = bits as u8;
                self.tree(word, depth + 1)
            } else {
                self.part(cell_of(word) * CELL, 8, levels - 1, bits, depth)
            };
            if !fits {
                return false;
            }
        }
        true
    }

    /// Writes the record of the first characters of the path.
    fn record(&mut self, size: usize, value: u32) -> bool {
        let Some(record) = self.buffer[self.used..].get_mut(..size + BESIDE_KEY) else {
            return false;
        };
        record[0] = size as u8;
        record[1..=size].copy_from_slice(&self.path[..size]);
        put_word(record, 1 + size, value);
        self.records += 1;
        self.used += size + BESIDE_KEY;
        true
    }
}
