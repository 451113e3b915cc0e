//! Validation in the plain program: every rule of a sound block, with an array of the cells visited.

use crate::plain::{cell_of, edition_of, is_leaf, kind_of, linked_word, may_embed, word_at};
use crate::plain::{CELL, EMBEDDED, LONGEST_KEY, NO_KIND, PREFIX, SPARSE, SPLIT, STANDALONE};

/// For each cell one bit for each root (the root's own, then the snapshots') whose tree has entered it.
pub type Reached = [u8; 2048];

/// Whether the block is sound; the cells of a sound block that its roots reach are flagged, all zero before.
pub fn is_sound(block: &[u8], reached: &mut Reached) -> bool {
    let trailer = &block[block.len() - CELL..];
    if !valid_trailer(trailer, block.len() / CELL) {
        return false;
    }
    let mut visit = Visit { block, reached, bit: 1 };
    if !visit.root(word_at(trailer, 0)) {
        return false;
    }
    for slot in 0..3 {
        visit.bit = 2 << slot;
        let held = trailer[0x10] >> slot & 1 == 1;
        if held && !visit.root(word_at(trailer, 4 + 4 * slot)) {
            return false;
        }
    }
    true
}

/// Whether all of the trailer is valid but for the trees of its roots.
fn valid_trailer(trailer: &[u8], cells: usize) -> bool {
    let idle_zero = |slot: usize| trailer[0x10] >> slot & 1 == 1 || word_at(trailer, 4 + 4 * slot) == 0;
    trailer[0x10] <= 7
        && trailer[0x11..0x14] == [0; 3]
        && word_at(trailer, 0x14) as usize == cells
        && word_at(trailer, 0x18) == 0
        && matches!(edition_of(trailer), 1 | 2)
        && (0..3).all(idle_zero)
}

/// The visit of one root's tree.
struct Visit<'a> {
    block: &'a [u8],
    reached: &'a mut Reached,
    bit: u8,
}

// What judges one kind of cell is kept out of line: all in one frame, a validation took up to 8 of 100 longer.
impl Visit<'_> {
    /// Whether a root is nothing, a chain, a sparse or a split with a sound tree.
    fn root(&mut self, word: u32) -> bool {
        word == 0 || (!is_leaf(word) && kind_of(word) != PREFIX && self.node(word, LONGEST_KEY))
    }

    /// Enters the cell of a pointer, which must be usable and new to this tree.
    fn enter(&mut self, word: u32) -> bool {
        let cell = cell_of(word);
        if cell == 0 || cell + 1 >= self.block.len() / CELL || self.reached[cell] & self.bit != 0 {
            return false;
        }
        self.reached[cell] |= self.bit;
        true
    }

    /// Whether a pointer that is not NONE leads to a sound tree, with so many characters left.
    fn node(&mut self, word: u32, left: usize) -> bool {
        is_leaf(word) || (word != 0 && kind_of(word) != NO_KIND && self.enter(word) && self.entered(word, left))
    }

    /// Whether the node of a cell that was entered for it leads to a sound tree, with so many characters left.
    fn entered(&mut self, word: u32, left: usize) -> bool {
        let offset = cell_of(word) * CELL;
        match kind_of(word) {
            SPLIT => left > 0 && self.part(offset + 0x10, 4, 2, left - 1),
            SPARSE => left > 0 && self.sparse(offset, left - 1),
            PREFIX => self.prefix(word, left),
            kind => 0x1C - kind <= left && self.node(word_at(self.block, offset + 0x1C), left - (0x1C - kind)),
        }
    }

    /// Whether a prefix holds a value over a sound chain, sparse or split; one in its own cell was entered with the prefix.
    #[inline(never)]
    fn prefix(&mut self, word: u32, left: usize) -> bool {
        let offset = cell_of(word) * CELL;
        let link = linked_word(self.block, word);
        if self.block[offset] >= 0x80 {
            return false;
        }
        match self.block[offset + 4] {
            STANDALONE => !is_leaf(link) && kind_of(link) != PREFIX && self.node(link, left),
            place => EMBEDDED.contains(&usize::from(place)) && may_embed(self.block) && self.entered(link, left),
        }
    }

    /// Whether a sparse cell has a valid order word and two to six sound children.
    #[inline(never)]
    fn sparse(&mut self, offset: usize, left: usize) -> bool {
        let block = self.block;
        let child = |position: usize| word_at(block, offset + 4 * position);
        let count = (0..6).take_while(|position| child(*position) != 0).count();
        count >= 2
            && (count..6).all(|position| child(position) == 0)
            && valid_order(&block[offset + 0x18..offset + 0x20], count)
            && (0..count).all(|position| self.node(child(position), left))
    }

    /// Whether a head, mid or end holds a pointer at least, each of them sound; levels says how many parts lie below.
    #[inline(never)]
    fn part(&mut self, offset: usize, words: usize, levels: usize, left: usize) -> bool {
        let mut any = false;
        for place in 0..words {
            let word = word_at(self.block, offset + 4 * place);
            if word == 0 {
                continue;
            }
            any = true;
            let sound = if levels == 0 {
                self.node(word, left)
            } else {
                !is_leaf(word)
                    && kind_of(word) == SPLIT
                    && self.enter(word)
                    && self.part(cell_of(word) * CELL, 8, levels - 1, left)
            };
            if !sound {
                return false;
            }
        }
        any
    }
}

/// Whether the order word after six characters lists so many of them strictly rising, position 1 after position 0.
fn valid_order(bytes: &[u8], count: usize) -> bool {
    let mut rest = u16::from_be_bytes([bytes[6], bytes[7]]);
    let mut last = None;
    for _ in 0..count {
        let position = (rest % 6) as usize;
        rest /= 6;
        if position >= count || last.is_some_and(|character| character >= bytes[position]) {
            return false;
        }
        last = Some(bytes[position]);
    }
    rest == 0 && bytes[0] < bytes[1]
}
