//! Removals whose every number is written out.

use crate::calls::{Call, Outcome};
use crate::model::{word_at, Store, CELL};
use crate::self_test::{bytes, fresh, insert, make, root};

/// Runs every case; the first that fails ends the program.
pub fn run() {
    last_key();
    sparse_of_two_left();
    seven_children_and_eight();
    emptied_end_and_mid();
    value_and_prefix();
    chain_of_one_kept();
    no_room();
    answers_in_order();
    foreign_split_of_few();
}

/// Removes, and gives answer and count.
fn remove(block: &mut [u8], key: &[u8]) -> (u8, u32) {
    let outcome = make(block, Call::Remove { key: key.to_vec() });
    (outcome.answer, outcome.number)
}

/// A fresh block with keys of one character each, their values from 0 on.
fn with_children(cells: usize, characters: &[u8]) -> Vec<u8> {
    let mut block = fresh(cells);
    for (value, character) in characters.iter().enumerate() {
        assert_eq!(insert(&mut block, &[*character], value as u32).0, 0);
    }
    block
}

/// A cell's bytes.
fn cell(block: &[u8], number: usize) -> &[u8] {
    &block[number * CELL..][..CELL]
}

/// Sample A without its key: no cell is taken, and the old one keeps its bytes.
fn last_key() {
    let mut block = fresh(4);
    insert(&mut block, &[0x41], 0);
    let before = block.clone();
    assert_eq!(remove(&mut block, &[0x41]), (0, 0));
    assert_eq!((root(&block), &block[..3 * CELL]), (0, &before[..3 * CELL]));
    assert_eq!(remove(&mut block, &[0x41]), (11, 0));
}

/// Sample G without key 41: the two that are left stand in rising order.
fn sparse_of_two_left() {
    let mut block = fresh(8);
    for (key, value) in [("434841", 0), ("41", 1), ("35", 2)] {
        insert(&mut block, &bytes(key), value);
    }
    assert_eq!((remove(&mut block, &[0x41]), root(&block)), ((0, 1), 0x9E));
    let left = bytes("FFFFFFFD 0000003A 00000000 00000000 00000000 00000000 35430000 00000006");
    assert_eq!(cell(&block, 4), left);
}

/// Of the split of seven children six are left as a sparse cell; of eight, seven stay a split.
fn seven_children_and_eight() {
    let seven = [0x33, 0x35, 0x41, 0x42, 0x43, 0x50, 0x51];
    let mut block = with_children(16, &seven);
    let mut eight = block.clone();
    assert_eq!((remove(&mut block, &[0x42]), root(&block)), ((0, 1), 0x1BE));
    assert_eq!(cell(&block, 13)[0x18..], bytes("33 35 41 43 50 51 AEF6"));
    insert(&mut eight, &[0x52], 7);
    assert_eq!((remove(&mut eight, &[0x33]), root(&eight)), ((0, 3), 0x9C));
}

/// An end and its mid that are emptied take no cell; their words are NONE above.
fn emptied_end_and_mid() {
    let mut block = with_children(24, &[0x33, 0x41, 0x42, 0x43, 0x50, 0x51, 0x52, 0x53]);
    assert_eq!((remove(&mut block, &[0x33]), root(&block)), ((0, 1), 0x21C));
    assert_eq!(cell(&block, 16)[..0x14], [0; 0x14]);
}

/// Sample H: the prefix becomes its linked node, or the value over nothing a leaf.
fn value_and_prefix() {
    let mut block = fresh(8);
    insert(&mut block, &[0x43, 0x48, 0x41], 0);
    insert(&mut block, &[0x43], 5);
    let mut other = block.clone();
    assert_eq!((remove(&mut block, &[0x43]), root(&block)), ((0, 1), 0x9B));
    assert_eq!(cell(&block, 4)[0x1B..], bytes("43 0000003A"));
    assert_eq!((remove(&mut other, &[0x43, 0x48, 0x41]), root(&other)), ((0, 1), 0x9B));
    assert_eq!(cell(&other, 4)[0x1B..], bytes("43 FFFFFFFA"));
}

/// One child kept makes a chain in a new cell, before which the chain above writes its character.
fn chain_of_one_kept() {
    let mut block = fresh(8);
    insert(&mut block, &[0x41, 0x42, 0x43], 1);
    insert(&mut block, &[0x41, 0x44], 2);
    assert_eq!(remove(&mut block, &[0x41, 0x44]), (0, 1));
    assert_eq!(cell(&block, root(&block) as usize / CELL)[0x1A..], bytes("41 42 0000003B"));
    assert_eq!(root(&block) % 32, 0x1A);
}

/// A removal needs cells too: 7 until a snapshot is released, but 11 comes before.
fn no_room() {
    let mut block = fresh(4);
    insert(&mut block, &[0x41], 0);
    assert_eq!(make(&mut block, Call::Snapshot { slot: 1 }), Outcome::bare(0));
    insert(&mut block, &[0x42], 0);
    assert_eq!(remove(&mut block, &[0x41]), (7, 0));
    assert_eq!(remove(&mut block, &[0x43]), (11, 0));
    assert_eq!(make(&mut block, Call::Release { slot: 1 }), Outcome::bare(0));
    assert_eq!((remove(&mut block, &[0x41]), root(&block)), ((0, 1), 0x3B));
    assert_eq!(word_at(&block, CELL + 0x1C), !0);
}

/// 1, 2, 3 and then 11, each before what comes after it.
fn answers_in_order() {
    assert_eq!(remove(&mut vec![0; 3 * CELL], &[]), (1, 0));
    assert_eq!(remove(&mut vec![0; 4 * CELL], &[]), (2, 0));
    assert_eq!(remove(&mut fresh(4), &[]), (3, 0));
    assert_eq!(remove(&mut fresh(4), &[0x41; 49]), (3, 0));
    assert_eq!(remove(&mut fresh(4), &[0x41; 48]), (11, 0));
}

/// A split of three children stays one while a child is replaced, and becomes sparse when it loses one.
fn foreign_split_of_few() {
    let mut block = fresh(16);
    for (offset, digits) in [
        (CELL + 0x10, "0000005C"),
        (2 * CELL, "0000007C"),
        (3 * CELL, "FFFFFFFE FFFFFFFD 0000009B"),
        (4 * CELL + 0x1B, "41 000000BE"),
        (5 * CELL, "FFFFFFF0 FFFFFFF1"),
        (5 * CELL + 0x18, "4142 0000 0000 0006"),
        (15 * CELL, "0000003C"),
    ] {
        let written = bytes(digits);
        block[offset..offset + written.len()].copy_from_slice(&written);
    }
    let shown = Store::decode(&block).expect("a sound block").root.table();
    assert_eq!(shown.keys().map(|key| key.len()).collect::<Vec<_>>(), [1, 1, 3, 3]);
    let mut replaced = block.clone();
    assert_eq!((remove(&mut replaced, &[2, 0x41, 0x41]), root(&replaced) % 32), ((0, 4), 0x1C));
    assert_eq!((remove(&mut block, &[0]), root(&block)), ((0, 1), 0xDE));
    assert_eq!(cell(&block, 6), bytes("FFFFFFFD 0000009B 00000000 00000000 00000000 00000000 01020000 00000006"));
}
