//! Worn blocks: small ones in which a slot holds nearly all cells that were free, so that a change goes round to the
//! last of those that are left, or lacks one.

use crate::calls::{perform, Call};
use crate::compare::Comparison;
use crate::coverage::Coverage;
use crate::foreign::foreign_block;
use crate::generate::{Scene, Weights};
use crate::model::{pointer, put_word, Store, CELL, LONGEST_KEY};
use crate::random::Random;
use crate::schedule::{aimed, remember_shown};
use crate::series::after_history;

/// One change of each kind: an insertion, a removal, a write list.
const CHANGES: [Weights; 3] =
    [[0, 0, 1, 0, 0, 0, 0, 0, 0, 0, 0, 0], [0, 0, 0, 0, 0, 0, 0, 0, 0, 1, 0, 0], [0, 0, 0, 0, 0, 0, 0, 0, 0, 0, 0, 1]];

/// So many blocks, each with its own seed, and of each a copy for every kind of change.
pub fn run(comparison: &mut Comparison, count: u64) {
    for number in 0..count {
        comparison.seed = number;
        let mut random = Random::seeded(number + 0x5_0000_0000);
        let mut scene = Scene::drawn(&mut random);
        let cells = random.pick(&[4, 5, 6, 8, 10, 12, 16, 20, 24, 32]);
        let block = match random.below(4) {
            0 => after_history(comparison, cells, &mut random),
            _ => foreign_block(cells, LONGEST_KEY, &scene, &mut random),
        };
        remember_shown(&mut scene, &block);
        for change in CHANGES {
            let calls = [(); 3].map(|_| aimed(scene.call(&change, &mut random), &block, &mut random));
            worn(comparison, block.clone(), calls, &mut random);
        }
    }
}

/// Makes the change that takes the most cells on a block, its table at times emptied, with about as many free; and
/// makes it once more.
fn worn(comparison: &mut Comparison, mut block: Vec<u8>, calls: [Call; 3], random: &mut Random) {
    let slot = random.between(1, 3);
    open(&mut block, slot);
    if !matches!(calls[0], Call::Remove { .. }) && random.chance(25) {
        let trailer = block.len() - CELL;
        put_word(&mut block, trailer, 0);
    }
    let call = calls.into_iter().max_by_key(|call| cells_taken(&block, call)).expect("three calls");
    if let Some(count) = cells_taken(&block, &call) {
        let left = random.pick(&[count, count, count, count + 1, count + 2, count.max(1) - 1]);
        fill(&mut block, slot, left, random);
    }
    for _ in 0..2 {
        let call = match &call {
            Call::WriteList(_) => aimed(call.clone(), &block, random),
            _ => call.clone(),
        };
        comparison.step(&mut block, &call);
    }
}

/// How many cells a change takes; nothing where it is refused.
fn cells_taken(block: &[u8], call: &Call) -> Option<usize> {
    let change = if let Call::WriteList(asked) = call { &asked.entry() } else { call };
    let outcome = perform(&mut block.to_vec(), change, &mut Coverage::new());
    (outcome.answer == 0).then_some(outcome.number as usize)
}

/// Opens a slot.
fn open(block: &mut [u8], slot: usize) {
    let trailer = block.len() - CELL;
    put_word(block, trailer + 4 * slot, 0);
    block[trailer + 0x10] &= !(1 << (slot - 1));
}

/// Lets an open slot hold all free cells of a sound block but so many: the last that a search would come to, or any.
fn fill(block: &mut [u8], slot: usize, left: usize, random: &mut Random) {
    let mut free = Store::decode(block).expect("a sound block").free_cells();
    if random.chance(50) {
        random.shuffle(&mut free);
    }
    free.truncate(free.len().saturating_sub(left));
    let mut word = random.word() | 1 << 31;
    for cell in &free {
        block[cell * CELL + 0x1B] = random.byte();
        put_word(block, cell * CELL + 0x1C, word);
        word = pointer(*cell, 0x1B);
    }
    if !free.is_empty() {
        let trailer = block.len() - CELL;
        put_word(block, trailer + 4 * slot, word);
        block[trailer + 0x10] |= 1 << (slot - 1);
    }
}
