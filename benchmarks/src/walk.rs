//! The walks of the plain program over a sound block: to a key's value, and to the next key.

use crate::plain::{cell_of, is_leaf, kind_of, linked_word, root_of, word_at};
use crate::plain::{CELL, LONGEST_KEY, PREFIX, SPARSE, SPLIT};

/// The value of a key below a pointer.
pub fn value_of(block: &[u8], root: u32, key: &[u8]) -> Option<u32> {
    let mut word = root;
    for character in key {
        word = child_of(block, without_prefix(block, word), *character);
        if word == 0 {
            return None;
        }
    }
    match kind_of(word) {
        _ if is_leaf(word) => Some(!word),
        PREFIX => Some(word_at(block, cell_of(word) * CELL)),
        _ => None,
    }
}

/// The node behind a prefix, or the node itself.
pub fn without_prefix(block: &[u8], word: u32) -> u32 {
    if !is_leaf(word) && kind_of(word) == PREFIX {
        linked_word(block, word)
    } else {
        word
    }
}

/// What a node leads to by a character, or NONE; a leaf leads to nothing.
pub fn child_of(block: &[u8], word: u32, character: u8) -> u32 {
    match least_child(block, word, character) {
        Some((found, child)) if found == character => child,
        _ => 0,
    }
}

/// What a chain leads to by its character.
pub fn after_chain(block: &[u8], word: u32) -> u32 {
    if kind_of(word) == 0x1B {
        word_at(block, word as usize + 1)
    } else {
        word + 1
    }
}

/// The first child of a node whose character is not below the given one.
pub fn least_child(block: &[u8], word: u32, from: u8) -> Option<(u8, u32)> {
    if word == 0 || is_leaf(word) {
        return None;
    }
    let offset = cell_of(word) * CELL;
    match kind_of(word) {
        SPLIT => least_in_split(block, offset, from),
        SPARSE => least_in_sparse(&block[offset..offset + CELL], from),
        _ => {
            let character = block[word as usize];
            (character >= from).then(|| (character, after_chain(block, word)))
        }
    }
}

/// The first child of a sparse cell whose character is not below the given one.
fn least_in_sparse(cell: &[u8], from: u8) -> Option<(u8, u32)> {
    let mut rest = u16::from_be_bytes([cell[0x1E], cell[0x1F]]);
    while rest > 0 {
        let position = (rest % 6) as usize;
        rest /= 6;
        let character = cell[0x18 + position];
        if character >= from {
            return Some((character, word_at(cell, 4 * position)));
        }
    }
    None
}

/// The first child of a split whose character is not below the given one.
fn least_in_split(block: &[u8], head: usize, from: u8) -> Option<(u8, u32)> {
    let from = from as usize;
    for leading in from >> 6..4 {
        let mid = word_at(block, head + 0x10 + 4 * leading);
        if mid == 0 {
            continue;
        }
        for middle in (from >> 3).saturating_sub(leading << 3)..8 {
            let end = word_at(block, cell_of(mid) * CELL + 4 * middle);
            if end == 0 {
                continue;
            }
            let bits = leading << 6 | middle << 3;
            for last in from.saturating_sub(bits)..8 {
                let child = word_at(block, cell_of(end) * CELL + 4 * last);
                if child != 0 {
                    return Some(((bits | last) as u8, child));
                }
            }
        }
    }
    None
}

/// The children of a node with their characters, rising.
pub fn children(block: &[u8], word: u32) -> impl Iterator<Item = (u8, u32)> + '_ {
    children_from(block, word, 0)
}

/// The children of a node whose characters are not below the given one, rising.
pub fn children_from(block: &[u8], word: u32, first: u8) -> impl Iterator<Item = (u8, u32)> + '_ {
    let mut from = Some(first);
    std::iter::from_fn(move || {
        let (character, child) = least_child(block, word, from?)?;
        from = character.checked_add(1);
        Some((character, child))
    })
}

/// The pointers to all nodes of the root's tree but leaves, in rising order of the keys that lead to them.
pub fn nodes(block: &[u8]) -> Vec<u32> {
    let (mut met, mut next) = (Vec::new(), vec![root_of(block)]);
    while let Some(word) = next.pop() {
        if word == 0 || is_leaf(word) {
            continue;
        }
        met.push(word);
        if kind_of(word) == PREFIX {
            next.push(linked_word(block, word));
        } else {
            let below: Vec<u32> = children(block, word).map(|(_, child)| child).collect();
            next.extend(below.into_iter().rev());
        }
    }
    met
}

/// The size of the least key below a pointer that is above the bound (any key without one), its bytes in the path.
pub fn least_above(
    block: &[u8],
    word: u32,
    bound: Option<&[u8]>,
    depth: usize,
    path: &mut [u8; LONGEST_KEY],
) -> Option<usize> {
    let shows_value = is_leaf(word) || (word != 0 && kind_of(word) == PREFIX);
    if bound.is_none() && shows_value {
        return Some(depth);
    }
    let node = without_prefix(block, word);
    let first = bound.and_then(<[u8]>::split_first);
    let mut from = first.map_or(0, |(character, _)| *character);
    loop {
        let (character, child) = least_child(block, node, from)?;
        let below = first.filter(|(equal, _)| **equal == character).map(|(_, rest)| rest);
        path[depth] = character;
        if let Some(size) = least_above(block, child, below, depth + 1, path) {
            return Some(size);
        }
        path[depth] = 0;
        from = character.checked_add(1)?;
    }
}
