//! Entries by their write lists: on blocks of every sort, lists that are cut at every place, each with its entry after it.

use crate::calls::Call;
use crate::compare::Comparison;
use crate::foreign::foreign_block;
use crate::generate::{children_of, stems, Scene, STORED};
use crate::model::LONGEST_KEY;
use crate::pages::long_keys;
use crate::random::Random;
use crate::schedule::{aimed, remember_shown};
use crate::series::{after_history, fresh};
use crate::write_list::drawn_write_list;

/// So many blocks, each with its own seed.
pub fn run(comparison: &mut Comparison, count: u64) {
    for number in 0..count {
        comparison.seed = number;
        let mut random = Random::seeded(number + 0x4_0000_0000);
        let cells = drawn_cells(&mut random);
        match random.below(10) {
            0..=2 => of_keys(comparison, cells.max(12), stems(&mut random), &mut random),
            3 | 4 => of_keys(comparison, cells.max(24), children_of(&mut random), &mut random),
            5 => of_keys(comparison, cells.max(16), long_keys(&mut random), &mut random),
            6 => {
                let block = after_history(comparison, cells, &mut random);
                of_scene(comparison, block, Scene::drawn(&mut random), &mut random);
            }
            _ => {
                let scene = Scene::drawn(&mut random);
                let block = foreign_block(cells, LONGEST_KEY, &scene, &mut random);
                of_scene(comparison, block, scene, &mut random);
            }
        }
    }
}

/// The number of cells of a block; few are large, since a block is judged at every place of every cut.
fn drawn_cells(random: &mut Random) -> usize {
    match random.below(200) {
        0..=39 => random.between(4, 8),
        40..=109 => random.between(9, 24),
        110..=183 => random.between(25, 48),
        184..=198 => random.between(49, 128),
        _ => random.pick(&[256, 512, 1024, 2047, 2048]),
    }
}

/// Keys entered one by one into a fresh block, often in mixed order, some of them anew, and slots set between them.
fn of_keys(comparison: &mut Comparison, cells: usize, mut keys: Vec<Vec<u8>>, random: &mut Random) {
    let mut block = fresh(comparison, cells, random);
    if random.chance(50) {
        random.shuffle(&mut keys);
    }
    let mut again = keys.clone();
    random.shuffle(&mut again);
    keys.extend(again.into_iter().take(3));
    for key in keys {
        let asked = drawn_write_list(&block, key, random.word() >> 1, random);
        entered(comparison, &mut block, &Call::WriteList(asked));
        if random.chance(10) {
            comparison.step(&mut block, &Call::Snapshot { slot: random.between(1, 3) as u32 });
        }
    }
}

/// A few calls of a scene on a block, most of them write lists.
fn of_scene(comparison: &mut Comparison, mut block: Vec<u8>, mut scene: Scene, random: &mut Random) {
    remember_shown(&mut scene, &block);
    for _ in 0..random.between(3, 6) {
        let call = aimed(scene.call(&STORED, random), &block, random);
        entered(comparison, &mut block, &call);
    }
}

/// Makes a call; after a write list its entry too.
fn entered(comparison: &mut Comparison, block: &mut Vec<u8>, call: &Call) {
    comparison.step(block, call);
    if let Call::WriteList(asked) = call {
        comparison.step(block, &asked.entry());
    }
}
