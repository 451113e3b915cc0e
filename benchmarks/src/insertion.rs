//! Insertion in the plain program: the new cells are staged, and written or listed only when there is room for all.

use crate::plain::{cell_of, is_leaf, kind_of, linked_word, may_embed, put_word, root_of, word_at};
use crate::plain::{CELL, EMBEDDED, PREFIX, SPARSE, SPLIT, STANDALONE};
use crate::validation::Reached;
use crate::walk::{after_chain, child_of};
use std::iter::Chain;
use std::ops::Range;

/// The bytes of one cell.
pub type Image = [u8; CELL];

/// Bytes in one record of a list of stores: a byte position in the block and the word to be stored there.
pub const STORE: usize = 8;

/// Builds the tree with the key entered and writes it; nothing where it takes more cells than are free.
pub fn insert(block: &mut [u8], reached: &Reached, key: &[u8], value: u32) -> Option<u32> {
    let (cells, root) = staged(Stage::new(block, reached, after_root(block)), key, value)?;
    Some(write(block, &cells, root))
}

/// Builds the tree with the key entered and lists its stores: the answer number and the count of records. The first cell tried is
/// given, so that the wear under another rule can be counted.
pub fn list(block: &[u8], reached: &Reached, first: usize, key: &[u8], value: u32, list: &mut [u8]) -> (u8, u32) {
    let Some((cells, root)) = staged(Stage::new(block, reached, first), key, value) else {
        return (7, 0);
    };
    let records = cells.len() * (CELL / 4) + 1;
    let Some(list) = list.get_mut(..records * STORE) else {
        return (15, 0);
    };
    write_stores(list, &cells, block.len() - CELL, root);
    (0, records as u32)
}

/// Writes a record for each word of the cells that were taken and, last, one for the new root.
fn write_stores(list: &mut [u8], cells: &[(usize, Image)], trailer: usize, root: u32) {
    let (of_cells, of_root) = list.split_at_mut(cells.len() * (CELL / 4) * STORE);
    for ((cell, image), records) in cells.iter().zip(of_cells.chunks_exact_mut(CELL / 4 * STORE)) {
        for (place, record) in records.chunks_exact_mut(STORE).enumerate() {
            put_word(record, 0, (cell * CELL + 4 * place) as u32);
            put_word(record, 4, word_at(image, 4 * place));
        }
    }
    put_word(of_root, 0, trailer as u32);
    put_word(of_root, 4, root);
}

/// The cells of the tree with the key entered, in the order taken, and its root; nothing where they are more than are free.
fn staged(mut stage: Stage<'_>, key: &[u8], value: u32) -> Option<(Vec<(usize, Image)>, u32)> {
    let root = stage.entered(root_of(stage.block), key, value)?;
    Some((stage.cells, root))
}

/// The first cell tried for a new node: the one after the root's own, which is cell 1 where the root is NONE.
pub fn after_root(block: &[u8]) -> usize {
    cell_of(root_of(block)) + 1
}

/// Writes the cells that were taken and the new root, and counts the cells.
pub fn write(block: &mut [u8], cells: &[(usize, Image)], root: u32) -> u32 {
    for (cell, image) in cells {
        block[cell * CELL..][..CELL].copy_from_slice(image);
    }
    let trailer = block.len() - CELL;
    put_word(block, trailer, root);
    cells.len() as u32
}

/// The cells that a call has taken so far, in the order taken, and those not tried yet; the block stays as it is.
pub struct Stage<'a> {
    pub block: &'a [u8],
    reached: &'a Reached,
    untried: Chain<Range<usize>, Range<usize>>,
    pub cells: Vec<(usize, Image)>,
}

impl<'a> Stage<'a> {
    /// A stage that tries the usable cells from a first one upward, then from cell 1 up to that one.
    pub fn new(block: &'a [u8], reached: &'a Reached, first: usize) -> Stage<'a> {
        let trailer = block.len() / CELL - 1;
        Stage { block, reached, untried: (first..trailer).chain(1..first), cells: Vec::new() }
    }

    /// Takes the next free cell for an image and gives the pointer to it at a kind.
    pub fn take(&mut self, image: Image, kind: usize) -> Option<u32> {
        let cell = self.untried.find(|cell| self.reached[*cell] == 0)?;
        self.cells.push((cell, image));
        Some((cell * CELL + kind) as u32)
    }

    /// The image of the cell that a pointer names.
    pub fn image(&self, word: u32) -> Image {
        let mut image = [0; CELL];
        image.copy_from_slice(&self.block[cell_of(word) * CELL..][..CELL]);
        image
    }

    /// The pointer that a key and value make of an old one: down by the key, built on the way back up.
    fn entered(&mut self, old: u32, key: &[u8], value: u32) -> Option<u32> {
        let Some((character, rest)) = key.split_first() else {
            return self.with_value(old, value);
        };
        let (set_aside, bare) = self.set_aside(old);
        let child = self.entered(child_of(self.block, bare, *character), rest, value)?;
        let built = match kind_of(bare) {
            _ if bare == 0 => self.before(*character, child)?,
            SPLIT => self.split_with(bare, *character, child)?,
            SPARSE => self.sparse_with(bare, *character, child)?,
            _ if self.block[bare as usize] == *character => self.before(*character, child)?,
            _ => self.pair(bare, *character, child)?,
        };
        match set_aside {
            Some(value) => self.put_back(value, built),
            None => Some(built),
        }
    }

    /// A node's own value, if it has one, and the node without it.
    pub fn set_aside(&self, word: u32) -> (Option<u32>, u32) {
        match kind_of(word) {
            _ if is_leaf(word) => (Some(!word), 0),
            PREFIX => (Some(word_at(self.block, cell_of(word) * CELL)), linked_word(self.block, word)),
            _ => (None, word),
        }
    }

    /// The node at the key's end with its new value.
    fn with_value(&mut self, old: u32, value: u32) -> Option<u32> {
        match self.set_aside(old) {
            (_, 0) => Some(!value),
            (_, bare) => self.prefix(value, bare),
        }
    }

    /// A value put back over a new node: before it in its cell, where the edition has that and there is room, else in a new cell.
    pub fn put_back(&mut self, value: u32, node: u32) -> Option<u32> {
        if EMBEDDED.contains(&kind_of(node)) && may_embed(self.block) {
            if let Some(image) = self.taken_last(node) {
                put_word(image, 0, value);
                image[4] = kind_of(node) as u8;
                return Some(node - kind_of(node) as u32 + PREFIX as u32);
            }
        }
        self.prefix(value, node)
    }

    /// The image of a node's cell, where that is the cell just taken.
    fn taken_last(&mut self, node: u32) -> Option<&mut Image> {
        self.cells.last_mut().filter(|(cell, _)| *cell == cell_of(node)).map(|(_, image)| image)
    }

    /// A new prefix cell.
    fn prefix(&mut self, value: u32, link: u32) -> Option<u32> {
        let mut image = [0; CELL];
        put_word(&mut image, 0, value);
        image[4] = STANDALONE;
        put_word(&mut image, 0x1C, link);
        self.take(image, PREFIX)
    }

    /// A character set before a new child: in the chain cell just taken while there is room, else in a new one.
    pub fn before(&mut self, character: u8, child: u32) -> Option<u32> {
        if (1..SPLIT).contains(&kind_of(child)) {
            if let Some(image) = self.taken_last(child) {
                image[kind_of(child) - 1] = character;
                return Some(child - 1);
            }
        }
        let mut image = [0; CELL];
        image[0x1B] = character;
        put_word(&mut image, 0x1C, child);
        self.take(image, 0x1B)
    }

    /// A new sparse cell of a chain's child and a new one, in rising order.
    fn pair(&mut self, chain: u32, character: u8, child: u32) -> Option<u32> {
        let mut children = [(self.block[chain as usize], after_chain(self.block, chain)), (character, child)];
        children.sort_unstable();
        self.take(sparse_image(&children), SPARSE)
    }

    /// A sparse cell with a child replaced or appended, or the split that a seventh child makes.
    pub fn sparse_with(&mut self, word: u32, character: u8, child: u32) -> Option<u32> {
        let old = self.image(word);
        let count = (0..6).take_while(|position| word_at(&old, 4 * position) != 0).count();
        let mut children = [(0, 0); 7];
        for position in 0..count {
            children[position] = (old[0x18 + position], word_at(&old, 4 * position));
        }
        if let Some(place) = children[..count].iter().position(|(held, _)| *held == character) {
            children[place].1 = child;
            return self.take(sparse_image(&children[..count]), SPARSE);
        }
        children[count] = (character, child);
        if count < 6 {
            return self.take(sparse_image(&children[..count + 1]), SPARSE);
        }
        children.sort_unstable();
        self.split_of(&children)
    }

    /// A new split of children in rising order: each mid's ends, then that mid, the head last.
    fn split_of(&mut self, children: &[(u8, u32)]) -> Option<u32> {
        let mut head = [0; CELL];
        for of_mid in children.chunk_by(|left, right| left.0 >> 6 == right.0 >> 6) {
            let mut mid = [0; CELL];
            for of_end in of_mid.chunk_by(|left, right| left.0 >> 3 == right.0 >> 3) {
                let mut end = [0; CELL];
                for (character, child) in of_end {
                    put_word(&mut end, 4 * (character & 7) as usize, *child);
                }
                let end = self.take(end, SPLIT)?;
                put_word(&mut mid, 4 * (of_end[0].0 >> 3 & 7) as usize, end);
            }
            let mid = self.take(mid, SPLIT)?;
            put_word(&mut head, 0x10 + 4 * (of_mid[0].0 >> 6) as usize, mid);
        }
        self.take(head, SPLIT)
    }

    /// A split with a child replaced or added: a new end, mid and head, copied from the old where there are any.
    pub fn split_with(&mut self, word: u32, character: u8, child: u32) -> Option<u32> {
        let (leading, middle, last) = (character >> 6, character >> 3 & 7, character & 7);
        let mut head = self.image(word);
        head[..0x10].fill(0);
        let mut mid = self.part(word_at(&head, 0x10 + 4 * leading as usize));
        let mut end = self.part(word_at(&mid, 4 * middle as usize));
        put_word(&mut end, 4 * last as usize, child);
        put_word(&mut mid, 4 * middle as usize, self.take(end, SPLIT)?);
        put_word(&mut head, 0x10 + 4 * leading as usize, self.take(mid, SPLIT)?);
        self.take(head, SPLIT)
    }

    /// The image of a mid or end, all zero where there is none.
    pub fn part(&self, word: u32) -> Image {
        if word == 0 {
            [0; CELL]
        } else {
            self.image(word)
        }
    }
}

/// The image of a sparse cell with children by position.
pub fn sparse_image(children: &[(u8, u32)]) -> Image {
    let mut image = [0; CELL];
    let mut positions = [0, 1, 2, 3, 4, 5];
    for (position, (character, child)) in children.iter().enumerate() {
        put_word(&mut image, 4 * position, *child);
        image[0x18 + position] = *character;
    }
    let positions = &mut positions[..children.len()];
    positions.sort_unstable_by_key(|position| children[*position].0);
    let order = positions.iter().rev().fold(0, |word: u16, position| word * 6 + *position as u16);
    image[0x1E..].copy_from_slice(&order.to_be_bytes());
    image
}
