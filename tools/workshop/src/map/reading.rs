//! What a cell is to a root that reaches it, and the words in it that lead on.

use super::block::{Block, Pointer, LAST_WORD};

/// What a cell can be in a tree.
#[derive(Clone, Copy, PartialEq, Eq)]
pub enum Kind {
    Chain,
    Sparse,
    Head,
    Mid,
    End,
    Prefix,
    PrefixWithChain,
    PrefixWithHead,
}

impl Kind {
    /// All kinds, in the order in which they are told.
    pub const ALL: [Kind; 8] = [
        Kind::Chain,
        Kind::Sparse,
        Kind::Head,
        Kind::Mid,
        Kind::End,
        Kind::Prefix,
        Kind::PrefixWithChain,
        Kind::PrefixWithHead,
    ];

    /// The letter of the kind, as the map has it for a cell of the present table.
    pub fn letter(self) -> char {
        ['C', 'S', 'H', 'M', 'E', 'P', 'Q', 'R'][self as usize]
    }

    /// The name of the kind.
    pub fn name(self) -> &'static str {
        ["chain", "sparse", "split head", "split mid", "split end", "prefix", "prefix+chain", "prefix+head"]
            [self as usize]
    }
}

/// What a cell is to a root: its kind, and the number that the kind is read by. That is the place of a chain's first character,
/// or the least character that leads through a mid or an end; 0 for any other kind.
#[derive(Clone, Copy, PartialEq, Eq)]
pub struct Reading {
    pub kind: Kind,
    pub from: u8,
}

/// What a word may lead to: a node, or a mid or an end inside a split.
#[derive(Clone, Copy, PartialEq, Eq)]
pub enum Target {
    Node,
    Mid,
    End,
}

/// A word that leads on, by its character; a word to a mid or an end by the least of its characters, a prefix's by none.
#[derive(Clone, Copy)]
pub struct Link {
    pub character: u8,
    pub word: u32,
    pub target: Target,
}

/// Where a link leads: a cell and what it is there. A leaf is no cell.
pub fn follow(block: Block, link: Link) -> Option<(usize, Reading)> {
    let (cell, kind, from) = match (link.target, block.pointer(link.word)) {
        (Target::Node, Pointer::Chain { cell, place }) => (cell, Kind::Chain, place),
        (Target::Node, Pointer::Sparse(cell)) => (cell, Kind::Sparse, 0),
        (Target::Node, Pointer::Split(cell)) => (cell, Kind::Head, 0),
        (Target::Node, Pointer::Prefix(cell)) => return Some((cell, prefix_reading(block, cell)?)),
        (Target::Mid, Pointer::Split(cell)) => (cell, Kind::Mid, link.character),
        (Target::End, Pointer::Split(cell)) => (cell, Kind::End, link.character),
        _ => return None,
    };
    Some((cell, Reading { kind, from }))
}

/// What a prefix is, by the byte at 04: in a cell of its own, or in that of the chain or split at this offset.
fn prefix_reading(block: Block, cell: usize) -> Option<Reading> {
    let (kind, from) = match block.byte(cell, 4) {
        0xFF => (Kind::Prefix, 0),
        offset @ 0x05..=0x1B if block.may_embed() => (Kind::PrefixWithChain, offset),
        0x1C if block.may_embed() => (Kind::PrefixWithHead, 0),
        _ => return None,
    };
    Some(Reading { kind, from })
}

/// The words of a cell that lead on, by rising character.
pub fn links(block: Block, cell: usize, reading: Reading) -> Vec<Link> {
    let link = |character, place, target| Link { character, word: block.word(cell, place), target };
    let eight = 0..8u8;
    let all: Vec<Link> = match reading.kind {
        Kind::Chain | Kind::PrefixWithChain => vec![link(block.byte(cell, 0x1B), LAST_WORD, Target::Node)],
        Kind::Prefix => vec![link(0, LAST_WORD, Target::Node)],
        Kind::Sparse => positions(block, cell)
            .map(|position| link(block.byte(cell, 0x18 + position), 4 * position, Target::Node))
            .collect(),
        Kind::Head | Kind::PrefixWithHead => {
            (0..4u8).map(|bits| link(bits * 64, 0x10 + 4 * usize::from(bits), Target::Mid)).collect()
        }
        Kind::Mid => eight.map(|bits| link(reading.from + bits * 8, 4 * usize::from(bits), Target::End)).collect(),
        Kind::End => eight.map(|bits| link(reading.from + bits, 4 * usize::from(bits), Target::Node)).collect(),
    };
    all.into_iter().filter(|link| link.word != 0).collect()
}

/// The positions of a sparse cell's children by rising character: the digits of its order word in base 6, lowest first.
fn positions(block: Block, cell: usize) -> impl Iterator<Item = usize> {
    let order = block.word(cell, LAST_WORD) % 0x1_0000;
    std::iter::successors(Some(order), |rest| Some(rest / 6))
        .take_while(|rest| *rest > 0)
        .map(|rest| (rest % 6) as usize)
}
