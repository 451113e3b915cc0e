//! Which blocks are met, in which order, and how many calls each gets.

use crate::calls::{valid_length, Call};
use crate::compare::Comparison;
use crate::crafted::crafted_block;
use crate::foreign::{foreign_block, junk};
use crate::generate::{children_of, stems, Scene, Weights, BAD_LENGTH, FOREIGN, HISTORY, HOSTILE, SHRINKING};
use crate::hostile::{bad_length_block, damage, noise_block};
use crate::ledger::Ledger;
use crate::lists::drawn_list;
use crate::model::{Store, Table, EDITIONS, LONGEST_KEY};
use crate::pages::drawn_page;
use crate::random::Random;
use crate::series::of_long_keys;
use crate::spoilt::spoilt;
use crate::write_list::drawn_write_list;

/// Scenes of random calls until the target is reached; each scene has its own seed, so that it can be met again.
pub fn run(comparison: &mut Comparison, target: u64) {
    comparison.seed = 0;
    while comparison.coverage.calls < target {
        comparison.seed += 1;
        let mut random = Random::seeded(comparison.seed);
        let cells = draw_cells(comparison, &mut random);
        match random.weighted(&[18, 40, 42, 11, 14, 9, 7, 5]) {
            0 => history(comparison, cells, &mut random),
            1 => foreign(comparison, cells, &mut random),
            2 => hostile(comparison, cells, &mut random),
            3 => shrunk(comparison, cells.max(24), &mut random),
            4 => emptied(comparison, &mut random),
            5 => stemmed(comparison, cells.max(16), &mut random),
            6 => spoilt(comparison, cells, &mut random),
            _ => paged(comparison, cells, &mut random),
        }
    }
}

/// The number of cells of the next block: under 64 unless the larger ones lag behind their share.
fn draw_cells(comparison: &Comparison, random: &mut Random) -> usize {
    let large = comparison.coverage.large_calls * 100 < comparison.coverage.calls * 22;
    match (large, random.below(30)) {
        (false, 0..=5) => random.between(4, 8),
        (false, 6..=14) => random.between(9, 20),
        (false, _) => random.between(21, 63),
        (true, 0..=20) => random.between(64, 128),
        (true, 21..=28) => random.between(129, 512),
        (true, _) => random.pick(&[513, 1024, 2047, 2048]),
    }
}

/// Lists of calls, each with its own seed.
pub fn lists(comparison: &mut Comparison, count: u64) {
    for number in 0..count {
        comparison.seed = number;
        let mut random = Random::seeded(number + 0x2_0000_0000);
        comparison.list(drawn_list(number, &mut random));
    }
}

/// Lets a scene draw its keys from those that a sound block shows.
pub fn remember_shown(scene: &mut Scene, block: &[u8]) {
    scene.remember(shown(block).into_keys());
}

/// So many random calls on a block.
pub fn calls(
    comparison: &mut Comparison,
    block: &mut Vec<u8>,
    scene: &mut Scene,
    weights: &Weights,
    count: usize,
    random: &mut Random,
) {
    for _ in 0..count {
        let call = aimed(scene.call(weights, random), block, random);
        comparison.step(block, &call);
    }
}

/// A call as it was drawn, but that a removal is mostly one of a key that the block shows, that a page is drawn by the keys that it
/// shows, and the buffer of a write list by the cells that its entry takes.
pub fn aimed(call: Call, block: &[u8], random: &mut Random) -> Call {
    match call {
        Call::Page(page) => Call::Page(drawn_page(page.key, &shown(block), random)),
        Call::WriteList(asked) => Call::WriteList(drawn_write_list(block, asked.key, asked.value, random)),
        Call::Remove { key } if random.chance(50) => {
            let shown = shown(block);
            let place = random.below(shown.len().max(1));
            Call::Remove { key: shown.into_keys().nth(place).unwrap_or(key) }
        }
        _ => call,
    }
}

/// The table that a block shows, empty where it is not sound.
fn shown(block: &[u8]) -> Table {
    if !valid_length(block.len()) {
        return Table::new();
    }
    Store::decode(block).map(|store| store.root.table()).unwrap_or_default()
}

/// Pages of a block of long keys, whose records often fill a buffer to the last byte.
fn paged(comparison: &mut Comparison, cells: usize, random: &mut Random) {
    let mut block = of_long_keys(comparison, cells, random);
    let shown = shown(&block);
    for _ in 0..random.between(8, 24) {
        let page = drawn_page(Vec::new(), &shown, random);
        comparison.step(&mut block, &Call::Page(page));
    }
}

/// A history from a formatted block, with the ledger beside it; then copies of its last block damaged.
fn history(comparison: &mut Comparison, cells: usize, random: &mut Random) {
    let mut scene = Scene::drawn(random);
    let (mut block, mut ledger) = fresh(comparison, cells, scene.edition, random);
    for _ in 0..random.between(1, 8) {
        let weights = if random.chance(75) { &HISTORY } else { &SHRINKING };
        for _ in 0..random.between(10, 25) {
            let call = aimed(scene.call(weights, random), &block, random);
            comparison.step_with_ledger(&mut block, &call, &mut ledger);
        }
    }
    walk(comparison, &mut block, 6);
    damaged(comparison, &block, &mut scene, random);
}

/// A fresh block of an edition, and the ledger beside it.
fn fresh(comparison: &mut Comparison, cells: usize, edition: u32, random: &mut Random) -> (Vec<u8>, Ledger) {
    let mut ledger = Ledger::default();
    let mut block = junk(cells, random);
    comparison.step_with_ledger(&mut block, &Call::Format { edition }, &mut ledger);
    (block, ledger)
}

/// One node that grows to so many children and loses them one by one, with the ledger beside it.
fn shrunk(comparison: &mut Comparison, cells: usize, random: &mut Random) {
    let edition = random.pick(&EDITIONS);
    let (mut block, mut ledger) = fresh(comparison, cells, edition, random);
    let mut keys = children_of(random);
    for key in &keys {
        let call = Call::Insert { key: key.clone(), value: random.word() >> 1 };
        comparison.step_with_ledger(&mut block, &call, &mut ledger);
        if random.chance(3) {
            comparison.step_with_ledger(&mut block, &Call::Snapshot { slot: 1 }, &mut ledger);
        }
    }
    random.shuffle(&mut keys);
    for key in keys {
        comparison.step_with_ledger(&mut block, &Call::Remove { key }, &mut ledger);
    }
}

/// Keys that begin others, set and set anew, then removed, with the ledger beside them; mostly of edition 2.
fn stemmed(comparison: &mut Comparison, cells: usize, random: &mut Random) {
    let edition = random.pick(&[1, 2, 2]);
    let (mut block, mut ledger) = fresh(comparison, cells, edition, random);
    let mut keys = stems(random);
    for _ in 0..2 {
        for key in &keys {
            let call = Call::Insert { key: key.clone(), value: random.word() >> 1 };
            comparison.step_with_ledger(&mut block, &call, &mut ledger);
        }
        random.shuffle(&mut keys);
        let kept = random.below(keys.len());
        for key in &keys[kept..] {
            comparison.step_with_ledger(&mut block, &Call::Remove { key: key.clone() }, &mut ledger);
        }
    }
}

/// A foreign block, which must be sound, and calls on it; then copies of it damaged.
fn foreign(comparison: &mut Comparison, cells: usize, random: &mut Random) {
    let mut scene = Scene::drawn(random);
    let mut block = foreign_block(cells, LONGEST_KEY, &scene, random);
    if comparison.step(&mut block, &Call::Validate).answer != 0 {
        comparison.note(&Call::Validate, &block, "a block that was built sound is not");
    }
    remember_shown(&mut scene, &block);
    let weights = if random.chance(75) { &FOREIGN } else { &SHRINKING };
    calls(comparison, &mut block, &mut scene, weights, random.between(6, 24), random);
    walk(comparison, &mut block, 6);
    damaged(comparison, &block, &mut scene, random);
}

/// A small foreign block that loses its keys one by one, in mixed order.
fn emptied(comparison: &mut Comparison, random: &mut Random) {
    let scene = Scene::drawn(random);
    let mut block = foreign_block(random.between(5, 24), LONGEST_KEY, &scene, random);
    let mut keys: Vec<Vec<u8>> = shown(&block).into_keys().collect();
    random.shuffle(&mut keys);
    for key in keys.into_iter().take(16) {
        comparison.step(&mut block, &Call::Remove { key });
    }
}

/// Steps through the keys in order from the empty key.
fn walk(comparison: &mut Comparison, block: &mut Vec<u8>, steps: usize) {
    let mut key = Vec::new();
    for _ in 0..steps {
        let outcome = comparison.step(block, &Call::NextKey { key });
        if outcome.answer != 0 {
            return;
        }
        key = outcome.key[..outcome.number as usize].to_vec();
        comparison.step(block, &Call::Get { key: key.clone() });
    }
}

/// Copies of a sound block, each damaged in one place, seldom in two.
fn damaged(comparison: &mut Comparison, block: &[u8], scene: &mut Scene, random: &mut Random) {
    for _ in 0..5 {
        let mut copy = block.to_vec();
        damage(&mut copy, random);
        if random.chance(15) {
            damage(&mut copy, random);
        }
        calls(comparison, &mut copy, scene, &HOSTILE, 3, random);
    }
}

/// A block that owes nothing to a sound one: crafted, noise, too deep, or of a bad length.
fn hostile(comparison: &mut Comparison, cells: usize, random: &mut Random) {
    let mut scene = Scene::drawn(random);
    let (mut block, weights) = match random.weighted(&[45, 8, 20, 27]) {
        0 => (crafted_block(cells, random), &HOSTILE),
        1 => (noise_block(cells, random), &HOSTILE),
        2 => {
            let limit = LONGEST_KEY + random.pick(&[1, 1, 1, 2, 16]);
            (foreign_block(cells, limit, &scene, random), &HOSTILE)
        }
        _ => (bad_length_block(random), &BAD_LENGTH),
    };
    calls(comparison, &mut block, &mut scene, weights, 5, random);
}
