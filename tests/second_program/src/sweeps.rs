//! What is tried out whole: the specification's samples, every order word, the calendar, whole Fahrenheit readings.

use crate::calls::Call;
use crate::compare::Comparison;
use crate::foreign::{junk, order_word_block, write_trailer};
use crate::generate::{Scene, FOREIGN};
use crate::ledger::Ledger;
use crate::model::{pointer, put_word, CELL, EDITIONS};
use crate::random::Random;
use crate::schedule::{calls, remember_shown};
use crate::verdict::{Question, CELSIUS, FAHRENHEIT, GATE_ANY, GATE_BETWEEN};
use crate::write_list::drawn_write_list;

/// The most cells of a block whose insertions are asked for as write lists too: on a large one each cut takes long.
const MOST_CELLS_CUT: usize = 64;

/// All sweeps, one after the other.
pub fn run(comparison: &mut Comparison) {
    for (cells, calls) in samples().into_iter().chain(values_over_runs()).chain(rounds()) {
        EDITIONS.into_iter().for_each(|edition| history(comparison, cells, edition, &calls));
    }
    for order in 0..=u16::MAX {
        try_order_word(comparison, order);
    }
    calendar(comparison);
    fahrenheit(comparison);
}

/// Makes calls on a fresh block of an edition, with the ledger beside it, and before each insertion asks for its write list.
fn history(comparison: &mut Comparison, cells: usize, edition: u32, calls: &[Call]) {
    let mut block = vec![0xAA; cells * CELL];
    let (mut ledger, mut random) = (Ledger::default(), Random::seeded(cells as u64));
    comparison.step_with_ledger(&mut block, &Call::Format { edition }, &mut ledger);
    for call in calls {
        if let (Call::Insert { key, value }, ..=MOST_CELLS_CUT) = (call, cells) {
            let asked = drawn_write_list(&block, key.clone(), *value, &mut random);
            comparison.step(&mut block, &Call::WriteList(asked));
        }
        comparison.step_with_ledger(&mut block, call, &mut ledger);
    }
}

/// An insertion of a value under a key.
pub fn insert(key: &[u8], value: u32) -> Call {
    Call::Insert { key: key.to_vec(), value }
}

/// A removal of a key.
fn remove(key: &[u8]) -> Call {
    Call::Remove { key: key.to_vec() }
}

/// The histories of samples A to H and of the one after G, the long labels, the seven children, and a split of all
/// characters; then removals.
fn samples() -> Vec<(usize, Vec<Call>)> {
    let (one, two, three) = (insert(b"A", 0), insert(b"A", 1), insert(b"A", 2));
    let (snapshot, restore) = (Call::Snapshot { slot: 1 }, Call::Restore { slot: 1 });
    let long = insert(b"CHA", 0);
    let mut histories = vec![
        (4, vec![one, snapshot, two, three.clone(), restore, three]),
        (8, [long.clone(), insert(b"A", 1)].into_iter().chain((2..=9).map(|value| insert(b"5", value))).collect()),
        (8, vec![long, insert(b"C", 5)]),
        (32, b"35ABCPQ".iter().map(|character| insert(&[*character], 7)).collect()),
        (2048, (0..=255).map(|character| insert(&[character], 7)).collect()),
        (2048, (0..=255).rev().map(|character| insert(&[0, character, character], 7)).collect()),
    ];
    for length in [28, 29, 48, 49] {
        histories.push((4, vec![insert(&vec![0x41; length], 1)]));
        histories.push((6, vec![insert(&vec![0x41; length], 1), insert(b"A", 1), remove(&vec![0x41; length])]));
    }
    histories.extend(removals());
    histories
}

/// Histories that end in removals: samples A, G and H, no room, seven children and eight, all characters one by one.
fn removals() -> Vec<(usize, Vec<Call>)> {
    let (one, other, long) = (insert(b"A", 0), insert(b"B", 0), insert(b"CHA", 0));
    let (snapshot, release) = (Call::Snapshot { slot: 1 }, Call::Release { slot: 1 });
    let children = |characters: &[u8]| characters.iter().map(|character| insert(&[*character], 7)).collect::<Vec<_>>();
    let all = || (0..=255).map(|character| [character]);
    vec![
        (4, vec![one.clone(), remove(b"A"), remove(b"A")]),
        (4, vec![one, snapshot, other, remove(b"A"), remove(b"C"), release, remove(b"A")]),
        (8, vec![long.clone(), insert(b"A", 1), insert(b"5", 2), remove(b"A")]),
        (8, vec![long.clone(), insert(b"C", 5), remove(b"C")]),
        (8, vec![long, insert(b"C", 5), remove(b"CHA")]),
        (16, [children(b"35ABCPQ"), vec![remove(b"B")]].concat()),
        (16, [children(b"35ABCPQR"), vec![remove(b"3")]].concat()),
        (24, [children(b"3ABCPQRS"), vec![remove(b"3")]].concat()),
        (2048, all().map(|key| insert(&key, 7)).chain(all().map(|key| remove(&key))).collect()),
        (2048, all().map(|key| insert(&key, 7)).chain(all().rev().map(|key| remove(&key))).collect()),
    ]
}

/// Histories in which a value comes to stand over runs of every length, and over a split: put back by insertions and
/// removals, set anew, and taken away.
fn values_over_runs() -> Vec<(usize, Vec<Call>)> {
    let mut histories = Vec::new();
    for length in 1..=47 {
        let key = [b"C".as_slice(), &vec![b'A'; length]].concat();
        let (beside, below) = ([&key[..length], b"B"].concat(), [&key[..], b"B"].concat());
        let below = &below[..below.len().min(48)];
        let mut calls = vec![insert(b"C", 5), insert(&key, 0), insert(b"C", 9), insert(&key, 1), insert(&beside, 2)];
        calls.extend([remove(&beside), insert(below, 3), remove(below), insert(&key, 4), remove(b"C"), remove(&key)]);
        histories.push((24, calls));
    }
    let children = |make: fn(&[u8]) -> Call| b"35ABCPQR".map(|character| make(&[b'C', character]));
    let mut calls = vec![insert(b"C", 5)];
    calls.extend(children(|key| insert(key, 7)));
    calls.extend([insert(b"C", 6), insert(b"CA", 8), remove(b"CA"), insert(b"CA", 9), remove(b"C"), insert(b"C", 4)]);
    calls.extend(children(remove));
    histories.push((64, calls));
    histories
}

/// Histories round small blocks: the root moves on by some cells, a slot holds it, it moves on again and is set back.
/// Then a key is set anew, the root is set back once more, and keys are removed until the table is empty and filled
/// again.
fn rounds() -> Vec<(usize, Vec<Call>)> {
    let again = |count: usize| (0..count).map(|value| insert(b"A", value as u32));
    let restore = Call::Restore { slot: 1 };
    let mut histories = Vec::new();
    for cells in 4..=12 {
        for (before, after) in (0..cells - 2).flat_map(|before| (1..cells - 1).map(move |after| (before, after))) {
            let mut calls = vec![insert(b"A", 7), insert(b"B", 8)];
            calls.extend(again(before).chain([Call::Snapshot { slot: 1 }]).chain(again(after)));
            calls.extend([restore.clone(), insert(b"B", 9), insert(b"BC", 9), restore.clone(), remove(b"A")]);
            calls.extend([remove(b"B"), insert(b"A", 6), insert(b"CHA", 5)]);
            histories.push((cells, calls));
        }
    }
    histories
}

/// Judges the sparse node of one order word, and uses it where it is sound.
fn try_order_word(comparison: &mut Comparison, order: u16) {
    comparison.seed = u64::from(order);
    let mut random = Random::seeded(u64::from(order) + 0x1_0000);
    let mut block = order_word_block(order, &mut random);
    let answer = comparison.step(&mut block, &Call::Validate).answer;
    if answer == 0 {
        let mut scene = Scene::drawn(&mut random);
        remember_shown(&mut scene, &block);
        calls(comparison, &mut block, &mut scene, &FOREIGN, 4, &mut random);
    }
}

/// A block that shows label 41 with a value.
pub fn block_of_value(value: u32) -> Vec<u8> {
    let mut block = junk(4, &mut Random::seeded(u64::from(value)));
    block[CELL + 0x1B] = 0x41;
    put_word(&mut block, CELL + 0x1C, !value);
    write_trailer(&mut block, 1 + value % 2, pointer(1, 0x1B), &[None; 3]);
    block
}

/// A question about label 41 on a day; reading, gate, section and length are those of samples J and K.
pub fn question(year: u32, month: u32, day: u32) -> Question {
    let (low, high, section, length) = (f32::NAN, f32::NAN, 60.0, 4000.0);
    let label = vec![0x41];
    Question { label, year, month, day, unit: CELSIUS, degrees: 20.0, kind: GATE_ANY, low, high, section, length }
}

/// The ends of every month there is and is not, as today and as the held date; then the days about sample J's.
fn calendar(comparison: &mut Comparison) {
    let last_day = 2199 * 512 + 12 * 32 + 31;
    for (year, month) in (1999..=2200).flat_map(|year| (0..=13).map(move |month| (year, month))) {
        for day in [0, 1, 28, 29, 30, 31, 32] {
            comparison.step(&mut block_of_value(last_day), &Call::Verdict(question(year, month, day)));
            let held = year * 512 + month * 32 + day;
            comparison.step(&mut block_of_value(held), &Call::Verdict(question(2000, 1, 1)));
        }
    }
    for (month, day) in [(3, 6), (3, 7), (3, 8), (7, 3), (2, 28), (4, 1)] {
        comparison.step(&mut block_of_value(1_036_903), &Call::Verdict(question(2025, month, day)));
    }
}

/// Whole readings that become exact: a gate of that one number lets each through.
fn fahrenheit(comparison: &mut Comparison) {
    let mut block = block_of_value(1_036_903);
    for whole in -14..=40 {
        let exact = (5 * whole) as f32;
        let (unit, degrees) = (FAHRENHEIT, (32 + 9 * whole) as f32);
        let gate = Question { unit, degrees, kind: GATE_BETWEEN, low: exact, high: exact, ..question(2025, 3, 7) };
        let call = Call::Verdict(gate);
        if comparison.step(&mut block, &call).answer != 0 {
            comparison.note(&call, &block, "a whole reading does not become exact");
        }
    }
}
