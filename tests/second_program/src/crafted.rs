//! Small traps, each crafted for one rule: cells that lead back to themselves, cycles, paths at and past the depth.

use crate::foreign::{junk, write_trailer};
use crate::model::{pointer, put_word, CELL};
use crate::random::Random;

/// Writes a trap into the cells of a block and gives the root word that leads into it.
type Trap = fn(&mut [u8], &mut Random) -> u32;

/// All traps, each with how often it is drawn; those with several ends come more often.
const TRAPS: [(usize, Trap); 11] = [
    (1, chain_into_itself),
    (1, split_in_one_cell),
    (1, prefix_into_itself),
    (1, cycle_of_two),
    (1, chain_of_cells),
    (6, deep_end),
    (1, pair_into_one_cell),
    (2, prefix_over_prefix),
    (1, single_chain),
    (3, embedded_deep),
    (2, embedded_head),
];

/// A block with one trap, reached from the root or from a snapshot.
pub fn crafted_block(cells: usize, random: &mut Random) -> Vec<u8> {
    let mut block = junk(cells.max(8), random);
    let (_, trap) = TRAPS[random.weighted(&TRAPS.map(|(weight, _)| weight))];
    let root = trap(&mut block, random);
    let edition = random.pick(&[1, 1, 1, 1, 2, 2, 2, 2, 2, 3]);
    match random.below(4) {
        0 => write_trailer(&mut block, edition, 0, &[None, Some(root), None]),
        1 => write_trailer(&mut block, edition, root, &[Some(0), None, Some(root)]),
        _ => write_trailer(&mut block, edition, root, &[None; 3]),
    }
    block
}

/// Any usable cell.
fn any_cell(block: &[u8], random: &mut Random) -> usize {
    random.between(1, block.len() / CELL - 2)
}

/// A pointer to a cell as a chain of any run.
fn any_chain(cell: usize, random: &mut Random) -> u32 {
    pointer(cell, random.below(0x1C))
}

/// Any leaf word.
fn any_leaf(random: &mut Random) -> u32 {
    random.word() | 1 << 31
}

/// Sets the child of a chain, or the link of a prefix.
fn put_child(block: &mut [u8], cell: usize, word: u32) {
    put_word(block, cell * CELL + 0x1C, word);
}

/// Writes a standalone prefix.
fn put_prefix(block: &mut [u8], cell: usize, link: u32, random: &mut Random) {
    put_word(block, cell * CELL, random.word() >> 1);
    block[cell * CELL + 4] = 0xFF;
    put_child(block, cell, link);
}

/// Writes an embedded prefix over a chain or head in its cell.
fn put_embedded(block: &mut [u8], cell: usize, place: u8, random: &mut Random) {
    put_word(block, cell * CELL, random.word() >> 1);
    block[cell * CELL + 4] = place;
}

/// Writes a sparse node of two children.
pub fn put_pair(block: &mut [u8], cell: usize, first: u32, second: u32) {
    let image = &mut block[cell * CELL..][..CELL];
    image[..0x18].fill(0);
    put_word(image, 0, first);
    put_word(image, 4, second);
    image[0x18..0x1A].copy_from_slice(&[0x41, 0x42]);
    image[0x1E..].copy_from_slice(&[0, 6]);
}

/// A chain whose child is a chain in its own cell.
fn chain_into_itself(block: &mut [u8], random: &mut Random) -> u32 {
    let cell = any_cell(block, random);
    let child = any_chain(cell, random);
    put_child(block, cell, child);
    any_chain(cell, random)
}

/// A split whose head, mid and end are one cell.
fn split_in_one_cell(block: &mut [u8], random: &mut Random) -> u32 {
    let cell = any_cell(block, random);
    for place in 0..8 {
        put_word(block, cell * CELL + 4 * place, pointer(cell, 0x1C));
    }
    pointer(cell, 0x1C)
}

/// A prefix that links into its own cell.
fn prefix_into_itself(block: &mut [u8], random: &mut Random) -> u32 {
    let (cell, prefix) = (any_cell(block, random), any_cell(block, random));
    put_prefix(block, prefix, pointer(prefix, random.between(5, 0x1F)), random);
    put_child(block, cell, pointer(prefix, 0x1F));
    any_chain(cell, random)
}

/// Two chains, each the other's child.
fn cycle_of_two(block: &mut [u8], random: &mut Random) -> u32 {
    let (first, second) = (any_cell(block, random), any_cell(block, random));
    let (to_first, to_second) = (any_chain(first, random), any_chain(second, random));
    put_child(block, first, to_second);
    put_child(block, second, to_first);
    any_chain(first, random)
}

/// A path through chain cells of equal runs to a depth about the limit, closed by a leaf, NONE or one more chain.
fn chain_of_cells(block: &mut [u8], random: &mut Random) -> u32 {
    let usable = block.len() / CELL - 2;
    let run = random.pick(&[28, 24, 16, 12, 7, 6, 4, 3, 2, 1]);
    let steps = random.between(48 / run, 48 / run + 1).clamp(1, usable);
    for cell in 1..steps {
        put_child(block, cell, pointer(cell + 1, 0x1C - run));
    }
    let close = random.pick(&[u32::MAX, u32::MAX, 0, pointer(steps + 1, 0x1B), pointer(1, 0x1B)]);
    put_child(block, steps, close);
    pointer(1, 0x1C - run + random.below(run.min(2)))
}

/// Two chains to a depth about the limit, and there each kind of node in turn.
fn deep_end(block: &mut [u8], random: &mut Random) -> u32 {
    let depth = random.pick(&[47, 47, 48, 48, 48, 49]);
    let (leaf, other_leaf) = (any_leaf(random), any_leaf(random));
    put_child(block, 1, pointer(2, 0x1C - (depth - 28)));
    let end = match random.weighted(&[2, 2, 1, 1, 1]) {
        0 => {
            put_pair(block, 3, leaf, other_leaf);
            pointer(3, 0x1E)
        }
        1 => {
            block[3 * CELL + 0x10..6 * CELL].fill(0);
            put_word(block, 3 * CELL + 0x14, pointer(4, 0x1C));
            put_word(block, 4 * CELL + 0x08, pointer(5, 0x1C));
            put_word(block, 5 * CELL + 0x1C, leaf);
            pointer(3, 0x1C)
        }
        2 => {
            put_child(block, 4, leaf);
            put_prefix(block, 3, pointer(4, 0x1B), random);
            pointer(3, 0x1F)
        }
        3 => {
            put_child(block, 3, leaf);
            pointer(3, 0x1B)
        }
        _ => leaf,
    };
    put_child(block, 2, end);
    pointer(1, 0)
}

/// A sparse node with two children that are chains, often in one cell and then unsound.
fn pair_into_one_cell(block: &mut [u8], random: &mut Random) -> u32 {
    let (cell, first) = (any_cell(block, random), any_cell(block, random));
    let second = if random.chance(70) { first } else { any_cell(block, random) };
    let leaf = any_leaf(random);
    put_child(block, first, leaf);
    put_child(block, second, leaf);
    let (first, second) = (any_chain(first, random), any_chain(second, random));
    put_pair(block, cell, first, second);
    pointer(cell, 0x1E)
}

/// A prefix that links to a prefix of either sort, a leaf or NONE, and now and then to a chain as it may.
fn prefix_over_prefix(block: &mut [u8], random: &mut Random) -> u32 {
    let leaf = any_leaf(random);
    put_child(block, 1, pointer(2, 0x1F));
    put_child(block, 4, leaf);
    match random.chance(50) {
        true => put_prefix(block, 3, pointer(4, 0x1B), random),
        false => {
            put_child(block, 3, leaf);
            put_embedded(block, 3, random.between(0x05, 0x1B) as u8, random);
        }
    }
    let link = random.pick(&[pointer(3, 0x1F), pointer(3, 0x1F), leaf, 0, pointer(4, 0x1B)]);
    put_prefix(block, 2, link, random);
    any_chain(1, random)
}

/// One chain with a child that may or may not stand there.
fn single_chain(block: &mut [u8], random: &mut Random) -> u32 {
    let cell = any_cell(block, random);
    let trailer = block.len() / CELL - 1;
    let child = random.pick(&[u32::MAX, 0x8000_0000, 0, 0x1B, pointer(trailer, 0x1B), pointer(cell, 0x1D)]);
    put_child(block, cell, child);
    any_chain(cell, random)
}

/// An embedded prefix over a chain that ends at a depth about the limit, with any offset about those that there are.
fn embedded_deep(block: &mut [u8], random: &mut Random) -> u32 {
    let place = random.pick(&[0x00, 0x04, 0x05, 0x05, 0x06, 0x10, 0x1A, 0x1B, 0x1B, 0x1D, 0x1E, 0x1F, 0xFE]);
    let run = 0x1C - usize::from(place).clamp(4, 0x1B);
    let above = random.between(47, 49) - run;
    put_child(block, 1, pointer(2, 0x1C - above.clamp(1, 28)));
    put_child(block, 2, pointer(3, 0x1F));
    let leaf = any_leaf(random);
    put_child(block, 3, leaf);
    put_embedded(block, 3, place, random);
    match above {
        29.. => pointer(1, 0x1C - (above - 28)),
        _ => pointer(2, 0x1C - above),
    }
}

/// An embedded prefix over a split head of one child at a depth about the limit; the head may have no pointer, or one
/// into its own cell.
fn embedded_head(block: &mut [u8], random: &mut Random) -> u32 {
    let depth = random.pick(&[29, 47, 47, 48, 49]);
    put_child(block, 1, pointer(2, 0x1C - (depth - 28)));
    put_child(block, 2, pointer(3, 0x1F));
    block[3 * CELL + 0x10..6 * CELL].fill(0);
    let word =
        random.pick(&[pointer(4, 0x1C), pointer(4, 0x1C), pointer(4, 0x1C), 0, pointer(3, 0x1C), pointer(3, 0x1F)]);
    put_word(block, 3 * CELL + 0x14, word);
    put_word(block, 4 * CELL + 0x08, pointer(5, 0x1C));
    let leaf = any_leaf(random);
    put_word(block, 5 * CELL + 0x1C, leaf);
    put_embedded(block, 3, 0x1C, random);
    pointer(1, 0)
}
