//! Embedded prefixes whose every number is written out.

use crate::calls::Call;
use crate::model::{put_word, word_at, CELL};
use crate::self_test::{bytes, fresh_of, insert, make, root};

/// Runs every case; the first that fails ends the program.
pub fn run() {
    value_over_a_chain();
    longest_run();
    set_anew_and_removed();
    offsets();
    old_node();
    value_over_a_split();
    path_through();
}

/// A cell's bytes.
fn cell(block: &[u8], number: usize) -> &[u8] {
    &block[number * CELL..][..CELL]
}

/// A cell's value and offset as those of a prefix, and its last word.
fn prefix(block: &[u8], number: usize) -> (u32, u8, u32) {
    (word_at(block, number * CELL), block[number * CELL + 4], word_at(block, number * CELL + 0x1C))
}

/// Removes, and gives answer and count.
fn remove(block: &mut [u8], key: &[u8]) -> (u8, u32) {
    let outcome = make(block, Call::Remove { key: key.to_vec() });
    (outcome.answer, outcome.number)
}

/// Key 43 with 5, then 43 48 41 with 0, in a fresh block of 8 cells.
fn value_and_longer_key(edition: u32) -> (Vec<u8>, u32) {
    let mut block = fresh_of(edition, 8);
    assert_eq!(insert(&mut block, &[0x43], 5), (0, 1));
    let (answer, count) = insert(&mut block, &[0x43, 0x48, 0x41], 0);
    assert_eq!(answer, 0);
    (block, count)
}

/// The value is put back into the new chain's cell in edition 2, into a cell of its own in edition 1.
fn value_over_a_chain() {
    let (block, count) = value_and_longer_key(1);
    assert_eq!((count, root(&block)), (3, 0x9B));
    let (block, count) = value_and_longer_key(2);
    assert_eq!((count, root(&block)), (2, 0x7B));
    let embedded = bytes("00000005 1A000000 00000000 00000000 00000000 00000000 00004841 FFFFFFFF");
    assert_eq!(cell(&block, 2), embedded);
    assert_eq!(cell(&block, 3)[0x1B..], bytes("43 0000005F"));
}

/// A run of 23 characters leaves room for the value, one of 24 does not.
fn longest_run() {
    for (length, count, root_word) in [(23, 2, 0x7B), (24, 3, 0x9B)] {
        let mut block = fresh_of(2, 8);
        insert(&mut block, &[0x43], 5);
        let key = [vec![0x43], vec![0x41; length]].concat();
        assert_eq!((insert(&mut block, &key, 0), root(&block)), ((0, count), root_word));
        match length {
            23 => assert_eq!(prefix(&block, 2), (5, 0x05, !0)),
            _ => assert_eq!(prefix(&block, 3), (5, 0xFF, 0x44)),
        }
    }
}

/// At the key's end the linked node is old: a new value stands alone, and a removal leaves the node's own word.
fn set_anew_and_removed() {
    let (mut block, _) = value_and_longer_key(2);
    let mut removed = block.clone();
    assert_eq!((insert(&mut block, &[0x43], 9), root(&block)), ((0, 2), 0xBB));
    let standalone = bytes("00000009 FF000000 00000000 00000000 00000000 00000000 00000000 0000005A");
    assert_eq!((cell(&block, 4), &cell(&block, 5)[0x1B..]), (&standalone[..], &bytes("43 0000009F")[..]));
    assert_eq!((remove(&mut removed, &[0x43]), root(&removed)), ((0, 1), 0x9B));
    assert_eq!(cell(&removed, 4)[0x1B..], bytes("43 0000005A"));
    assert_eq!(cell(&removed, 2)[..5], bytes("00000005 1A"));
}

/// The offsets that there are, and those that are refused; edition 1 and edition 3 have none.
fn offsets() {
    let (block, _) = value_and_longer_key(2);
    let with = |offset: u8, edition: u32| {
        let mut block = block.clone();
        block[2 * CELL + 4] = offset;
        put_word(&mut block, 7 * CELL + 0x1C, edition);
        make(&mut block, Call::Validate).answer
    };
    for offset in 0..=0xFF {
        let sound = (0x05..=0x1B).contains(&offset);
        assert_eq!(with(offset, 2), if sound { 0 } else { 2 }, "offset {offset:02X}");
        assert_eq!((with(offset, 1), with(offset, 3)), (2, 2));
    }
}

/// A value set over a node that was there stands alone in either edition.
fn old_node() {
    for edition in [1, 2] {
        let mut block = fresh_of(edition, 8);
        insert(&mut block, &[0x43, 0x48, 0x41], 0);
        assert_eq!((insert(&mut block, &[0x43], 5), root(&block)), ((0, 2), 0x7B));
        assert_eq!(prefix(&block, 2), (5, 0xFF, 0x3A));
    }
}

/// The seventh child below a value makes a split whose head has room for it.
fn value_over_a_split() {
    for (edition, count) in [(1, 8), (2, 7)] {
        let mut block = fresh_of(edition, 32);
        insert(&mut block, &[0x43], 5);
        for character in [0x33, 0x35, 0x41, 0x42, 0x43, 0x50] {
            assert_eq!(insert(&mut block, &[0x43, character], 0).0, 0);
        }
        assert_eq!(insert(&mut block, &[0x43, 0x51], 0), (0, count));
        if edition == 2 {
            assert_eq!(cell(&block, 24)[..0x10], bytes("00000005 1C000000 00000000 00000000"));
            assert_eq!((root(&block), &cell(&block, 25)[0x1B..]), (0x33B, &bytes("43 0000031F")[..]));
        }
    }
}

/// A path through an embedded prefix is copied: by an insertion below it, and by a removal there that leaves a leaf.
fn path_through() {
    let (mut block, _) = value_and_longer_key(2);
    let mut removed = block.clone();
    assert_eq!((insert(&mut block, &[0x43, 0x48, 0x42], 1), root(&block)), ((0, 3), 0xDB));
    let sparse = bytes("FFFFFFFF FFFFFFFE 00000000 00000000 00000000 00000000 41420000 00000006");
    assert_eq!(cell(&block, 4), sparse);
    assert_eq!(cell(&block, 5), bytes("00000005 1B000000 00000000 00000000 00000000 00000000 00000048 0000009E"));
    assert_eq!((remove(&mut removed, &[0x43, 0x48, 0x41]), root(&removed)), ((0, 1), 0x9B));
    assert_eq!(cell(&removed, 4)[0x1B..], bytes("43 FFFFFFFA"));
}
