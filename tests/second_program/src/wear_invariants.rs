//! What must hold of the cells that a change takes, told from the bytes alone: each is the free one to which the fewest
//! steps lead from the root's own cell. Where that cell is alters nothing else: a turned block answers the same.

use crate::calls::{perform, Call, Outcome};
use crate::coverage::Coverage;
use crate::invariants::{demand, Verdict};
use crate::ledger::Ledger;
use crate::model::{pointer, put_word, word_at, Store, CELL};
use std::collections::BTreeSet;
use std::ops::Range;

/// A walk through trees by their bytes: the cells that it enters, in the order in which they would be taken, and the
/// offsets of the words that lead into them.
struct Walk<'a> {
    block: &'a [u8],
    cells: Vec<usize>,
    words: Vec<usize>,
}

impl Walk<'_> {
    /// The tree of the word at an offset.
    fn tree(&mut self, offset: usize) {
        let word = word_at(self.block, offset);
        if word != 0 && word >> 31 == 0 {
            self.words.push(offset);
            self.node(word as usize / CELL, word as usize % CELL);
        }
    }

    /// A node of a kind: all that is below it, then its own cell; an embedded prefix and its node are in one.
    fn node(&mut self, cell: usize, kind: usize) {
        let offset = self.block[cell * CELL + 4];
        match kind {
            0x1C => return self.split(cell),
            0x1F if offset != 0xFF => return self.node(cell, offset.into()),
            0x1E => (0..6).for_each(|position| self.tree(cell * CELL + 4 * position)),
            _ => self.tree(cell * CELL + 0x1C),
        }
        self.cells.push(cell);
    }

    /// A split: all children, then each mid's ends and that mid, then the head.
    fn split(&mut self, head: usize) {
        let mids = self.parts(head, 4..8);
        let ends: Vec<Vec<usize>> = mids.iter().map(|mid| self.parts(*mid, 0..8)).collect();
        for end in ends.iter().flatten() {
            (0..8).for_each(|place| self.tree(end * CELL + 4 * place));
        }
        for (mid, ends) in mids.into_iter().zip(ends) {
            self.cells.extend(ends);
            self.cells.push(mid);
        }
        self.cells.push(head);
    }

    /// The cells that some words of a head or mid lead into.
    fn parts(&mut self, cell: usize, places: Range<usize>) -> Vec<usize> {
        let offsets = places.map(|place| cell * CELL + 4 * place);
        let offsets: Vec<usize> = offsets.filter(|offset| word_at(self.block, *offset) != 0).collect();
        self.words.extend(&offsets);
        offsets.into_iter().map(|offset| word_at(self.block, offset) as usize / CELL).collect()
    }
}

/// The walk of the root's tree and, where asked for, of each held slot's.
fn walked(block: &[u8], with_slots: bool) -> Walk<'_> {
    let trailer = block.len() - CELL;
    let mut walk = Walk { block, cells: Vec::new(), words: Vec::new() };
    walk.tree(trailer);
    let held = |slot: &usize| with_slots && block[trailer + 0x10] >> (slot - 1) & 1 == 1;
    (1..=3).filter(held).for_each(|slot| walk.tree(trailer + 4 * slot));
    walk
}

/// The usable cells that no walk enters.
pub fn free_cells(block: &[u8]) -> BTreeSet<usize> {
    let mut free: BTreeSet<usize> = (1..=block.len() / CELL - 2).collect();
    walked(block, true).cells.iter().for_each(|cell| {
        free.remove(cell);
    });
    free
}

/// The cells that a change took, in the order taken: those of the new tree, which must be sound, that were free.
pub fn taken_cells(before: &[u8], after: &[u8]) -> Result<Vec<usize>, String> {
    demand(Store::decode(after).is_ok(), "a block is sound after a change")?;
    let free = free_cells(before);
    Ok(walked(after, false).cells.into_iter().filter(|cell| free.contains(cell)).collect())
}

/// The root's own cell, 0 in an empty table.
fn root_cell(block: &[u8]) -> usize {
    word_at(block, block.len() - CELL) as usize / CELL
}

/// By usable cell how many steps lead to it from the root's own, each to the next cell, or from the last usable one to
/// cell 1.
fn steps_from_root(block: &[u8]) -> Vec<usize> {
    let last_usable = block.len() / CELL - 2;
    let mut steps = vec![0; last_usable + 1];
    let mut cell = root_cell(block);
    for step in 1..=last_usable {
        cell = if cell == last_usable { 1 } else { cell + 1 };
        steps[cell] = step;
    }
    steps
}

/// Each of the cells was free, and fewer steps led to it than to any that was still free.
pub fn check_nearest(before: &[u8], taken: &[usize]) -> Verdict {
    let steps = steps_from_root(before);
    let mut free = free_cells(before);
    for cell in taken {
        demand(free.remove(cell), "a cell is taken that was free, and once")?;
        let nearest = free.iter().all(|other| steps[*cell] < steps[*other]);
        demand(nearest, "each cell taken is the nearest free one past the root's own")?;
    }
    Ok(())
}

/// Where a cell stands in a block, of so many usable ones, that is turned: those are moved on by some places, past the
/// last usable one to cell 1.
fn turned_place(cell: usize, usable: usize, by: usize) -> usize {
    match cell {
        1.. if cell <= usable => (cell - 1 + by) % usable + 1,
        _ => cell,
    }
}

/// A turned block, every word with it that leads into a cell; nothing where that alters what is shown, since trees that
/// share a cell read it in different ways.
fn turned(block: &[u8], by: usize) -> Option<Vec<u8>> {
    let usable = block.len() / CELL - 2;
    let place = |cell: usize| turned_place(cell, usable, by);
    let mut turned = block.to_vec();
    for cell in 1..=usable {
        turned[place(cell) * CELL..][..CELL].copy_from_slice(&block[cell * CELL..][..CELL]);
    }
    for offset in walked(block, true).words {
        let word = word_at(block, offset) as usize;
        let offset = place(offset / CELL) * CELL + offset % CELL;
        put_word(&mut turned, offset, pointer(place(word / CELL), word % CELL));
    }
    let ledger = Ledger::of(&Store::decode(block).expect("a sound block"));
    let shown = Store::decode(&turned).is_ok_and(|store| ledger.shown_by(&store));
    shown.then_some(turned)
}

/// The same change gets the same answer and count in the block turned until the root's own cell is the last usable one.
/// It takes the lowest free cells there, and they are the turned places of those that it took. An empty table has no
/// such cell: its block is turned by one place, for the answer and count alone.
pub fn check_turned(before: &[u8], call: &Call, outcome: &Outcome, taken: &[usize]) -> Verdict {
    let (own, usable) = (root_cell(before), before.len() / CELL - 2);
    let by = if own == 0 { 1 } else { usable - own };
    let Some(turned_before) = turned(before, by) else {
        return Ok(());
    };
    let mut turned_after = turned_before.clone();
    let turned_outcome = perform(&mut turned_after, call, &mut Coverage::new());
    demand(turned_outcome == *outcome, "answer and count are the same wherever the search starts")?;
    if own == 0 || outcome.answer != 0 {
        return Ok(());
    }
    let lowest: Vec<usize> = free_cells(&turned_before).into_iter().take(taken.len()).collect();
    let turned_taken = taken_cells(&turned_before, &turned_after)?;
    demand(turned_taken == lowest, "the lowest free cells are taken where the root's own is the last usable one")?;
    let expected: Vec<usize> = taken.iter().map(|cell| turned_place(*cell, usable, by)).collect();
    demand(turned_taken == expected, "in a turned block the cells taken are turned with it")
}
