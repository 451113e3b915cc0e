//! Which cells the roots of a block reach, and as what.

use super::block::{Block, SLOTS};
use super::reading::{follow, links, Link, Reading, Target};

/// The roots that a block can have: that of the present table, then those of the slots.
pub const ROOTS: usize = 1 + SLOTS;

/// Who holds a cell that is used. What slots alone hold comes free when they are dropped.
#[derive(Clone, Copy, PartialEq, Eq)]
pub enum Holding {
    Present,
    Both,
    Slots,
}

impl Holding {
    /// All ways to hold a cell, in the order in which they are told.
    pub const ALL: [Holding; 3] = [Holding::Present, Holding::Both, Holding::Slots];
}

/// What a cell of the block is.
#[derive(Clone, Copy, PartialEq, Eq)]
pub enum What {
    NeverUsed,
    Trailer,
    Free,
    Used(Reading, Holding),
}

/// What each cell is to each root. Two roots may share a cell and read it in different ways, as when only one of them has the
/// value in front of a chain.
pub struct Reached<'a> {
    pub block: Block<'a>,
    pub by_root: [Vec<Option<Reading>>; ROOTS],
}

impl<'a> Reached<'a> {
    /// Walks from the present root and from that of each slot in use.
    pub fn of(block: Block<'a>) -> Reached<'a> {
        let root = |place| if place == 0 { Some(block.root()) } else { block.slot(place) };
        Reached { block, by_root: [0, 1, 2, 3].map(|place| walk(block, root(place).unwrap_or(0))) }
    }

    /// What a cell is; where roots read it in different ways, what it is to the first of them.
    pub fn what(&self, cell: usize) -> What {
        let readings = self.by_root.each_ref().map(|found| found[cell]);
        let in_slots = readings[1..].iter().flatten().next();
        match (readings[0], in_slots) {
            _ if cell == 0 => What::NeverUsed,
            _ if self.block.is_trailer(cell) => What::Trailer,
            (Some(reading), None) => What::Used(reading, Holding::Present),
            (Some(reading), Some(_)) => What::Used(reading, Holding::Both),
            (None, Some(reading)) => What::Used(*reading, Holding::Slots),
            (None, None) => What::Free,
        }
    }

    /// For each slot whether it holds a cell.
    pub fn in_slots(&self, cell: usize) -> [bool; SLOTS] {
        [1, 2, 3].map(|slot| self.by_root[slot][cell].is_some())
    }

    /// What every cell is, from cell 0 on.
    pub fn all(&self) -> impl Iterator<Item = What> + '_ {
        (0..self.block.cells()).map(|cell| self.what(cell))
    }

    /// How many cells the roots reach.
    pub fn used(&self) -> usize {
        self.all().filter(|what| matches!(what, What::Used(..))).count()
    }

    /// How many cells can be taken.
    pub fn free(&self) -> usize {
        self.block.usable() - self.used()
    }

    /// The slots in use.
    pub fn slots(&self) -> Vec<usize> {
        (1..=SLOTS).filter(|slot| self.block.slot(*slot).is_some()).collect()
    }
}

/// The cells that a root reaches. Each is read once, so that the walk ends on any bytes.
fn walk(block: Block, root: u32) -> Vec<Option<Reading>> {
    let mut found = vec![None; block.cells()];
    let mut waiting = vec![Link { character: 0, word: root, target: Target::Node }];
    while let Some(link) = waiting.pop() {
        if let Some((cell, reading)) = follow(block, link).filter(|(cell, _)| found[*cell].is_none()) {
            found[cell] = Some(reading);
            waiting.extend(links(block, cell, reading));
        }
    }
    found
}
