//! Removal in the plain program: the path to the key is staged anew as in an insertion, each node by what it keeps.

use crate::insertion::{after_root, sparse_image, write, Image, Stage};
use crate::plain::{kind_of, put_word, root_of, word_at, CELL, SPARSE, SPLIT};
use crate::validation::Reached;
use crate::walk::{child_of, children};

/// Builds the tree without a key that is there and writes it; nothing where it takes more cells than are free.
pub fn remove(block: &mut [u8], reached: &Reached, key: &[u8]) -> Option<u32> {
    let mut stage = Stage::new(block, reached, after_root(block));
    let root = stage.without_key(root_of(block), key)?;
    let cells = stage.cells;
    Some(write(block, &cells, root))
}

impl Stage<'_> {
    /// The pointer that is left of an old one without a key: down by the key, built on the way back up.
    fn without_key(&mut self, old: u32, key: &[u8]) -> Option<u32> {
        let (set_aside, bare) = self.set_aside(old);
        let Some((character, rest)) = key.split_first() else {
            return Some(bare);
        };
        let child = self.without_key(child_of(self.block, bare, *character), rest)?;
        let built = match kind_of(bare) {
            SPLIT if child == 0 => self.split_without(bare, *character)?,
            SPARSE if child == 0 => self.sparse_without(bare, *character)?,
            _ if child == 0 => 0,
            SPLIT => self.split_with(bare, *character, child)?,
            SPARSE => self.sparse_with(bare, *character, child)?,
            _ => self.before(*character, child)?,
        };
        match set_aside {
            Some(value) if built == 0 => Some(!value),
            Some(value) => self.put_back(value, built),
            None => Some(built),
        }
    }

    /// What a sparse cell keeps without one of its children.
    fn sparse_without(&mut self, word: u32, character: u8) -> Option<u32> {
        let old = self.image(word);
        let mut kept = [(0, 0); 6];
        let mut count = 0;
        for position in 0..6 {
            let child = word_at(&old, 4 * position);
            if child != 0 && old[0x18 + position] != character {
                kept[count] = (old[0x18 + position], child);
                count += 1;
            }
        }
        kept[..count].sort_unstable();
        self.of_kept(&kept[..count])
    }

    /// What a split keeps without one of its children: a split still where more than six are left.
    fn split_without(&mut self, word: u32, character: u8) -> Option<u32> {
        let mut kept = [(0, 0); 6];
        let mut count = 0;
        for (found, child) in children(self.block, word) {
            if found == character {
                continue;
            }
            if count == kept.len() {
                return self.split_left(word, character);
            }
            kept[count] = (found, child);
            count += 1;
        }
        self.of_kept(&kept[..count])
    }

    /// The node of up to six children in rising order.
    fn of_kept(&mut self, kept: &[(u8, u32)]) -> Option<u32> {
        match kept {
            [] => Some(0),
            [(character, child)] => self.before(*character, *child),
            _ => self.take(sparse_image(kept), SPARSE),
        }
    }

    /// A split without a child: a new end, mid and head, but for an end or mid that leads nowhere now.
    fn split_left(&mut self, word: u32, character: u8) -> Option<u32> {
        let (leading, middle, last) = (character >> 6, character >> 3 & 7, character & 7);
        let mut head = self.image(word);
        head[..0x10].fill(0);
        let mut mid = self.part(word_at(&head, 0x10 + 4 * leading as usize));
        let mut end = self.part(word_at(&mid, 4 * middle as usize));
        put_word(&mut end, 4 * last as usize, 0);
        put_word(&mut mid, 4 * middle as usize, self.take_unless_empty(end)?);
        put_word(&mut head, 0x10 + 4 * leading as usize, self.take_unless_empty(mid)?);
        self.take(head, SPLIT)
    }

    /// The pointer to a new mid or end, NONE for one without a pointer.
    fn take_unless_empty(&mut self, image: Image) -> Option<u32> {
        if image == [0; CELL] {
            Some(0)
        } else {
            self.take(image, SPLIT)
        }
    }
}
