//! Where the search for cells starts and how it wraps, with every root and cell written out.

use crate::calls::{Call, Outcome};
use crate::model::{word_at, CELL, EDITIONS};
use crate::self_test::{bytes, fresh_of, insert, make, root};
use crate::write_list::{bytes_for, stores_in, Asked};

/// Runs every case, in either edition; the first that fails ends the program.
pub fn run() {
    for edition in EDITIONS {
        sample_after_g(edition);
        after_restore(edition);
        below_held(edition);
        split_and_wrap(edition);
        removals_of_split(edition);
        wraps_over_prefixes(edition);
        smallest_block(edition);
        empty_table(edition);
        empty_past_held(edition);
    }
}

/// A cell's bytes.
fn cell(block: &[u8], number: usize) -> &[u8] {
    &block[number * CELL..][..CELL]
}

/// Enters a value under a key of one character; gives the cells taken and the root.
fn enter(block: &mut [u8], character: u8, value: u32) -> (u32, u32) {
    let (answer, count) = insert(block, &[character], value);
    assert_eq!(answer, 0);
    (count, root(block))
}

/// Removes a key that is shown; gives the cells taken and the root.
fn remove(block: &mut [u8], key: &[u8]) -> (u32, u32) {
    let outcome = make(block, Call::Remove { key: key.to_vec() });
    assert_eq!(outcome.answer, 0);
    (outcome.number, root(block))
}

/// Makes a call on a slot, which must be accepted.
fn accepted(block: &mut [u8], call: Call) {
    assert_eq!(make(block, call), Outcome::bare(0));
}

/// Sample G and the new one after it; then on to the last usable cell, and past cell 1, which the root reaches.
fn sample_after_g(edition: u32) {
    let mut block = fresh_of(edition, 8);
    assert_eq!((insert(&mut block, &[0x43, 0x48, 0x41], 0), root(&block)), ((0, 1), 0x39));
    assert_eq!(enter(&mut block, 0x41, 1), (1, 0x5E));
    for (value, word) in [(2, 0x7E), (3, 0x9E), (4, 0xBE), (5, 0xDE), (6, 0x5E)] {
        assert_eq!(enter(&mut block, 0x35, value), (1, word));
    }
    let first = "FFFFFFFE 0000003A";
    let with = |value: &str| bytes(&format!("{first} {value} 00000000 00000000 00000000 41433500 00000026"));
    assert_eq!((cell(&block, 4), cell(&block, 2)), (&with("FFFFFFFC")[..], &with("FFFFFFF9")[..]));
}

/// The search starts past the root that a restore sets, not past the newest cell.
fn after_restore(edition: u32) {
    let mut block = fresh_of(edition, 8);
    assert_eq!(enter(&mut block, 0x41, 0), (1, 0x3B));
    accepted(&mut block, Call::Snapshot { slot: 1 });
    assert_eq!(enter(&mut block, 0x41, 1), (1, 0x5B));
    assert_eq!(enter(&mut block, 0x41, 2), (1, 0x7B));
    accepted(&mut block, Call::Restore { slot: 1 });
    assert_eq!((enter(&mut block, 0x41, 3), word_at(&block, 2 * CELL + 0x1C)), ((1, 0x5B), !3));
}

/// A cell past the root's is taken though one further up is held, and that one is passed over.
fn below_held(edition: u32) {
    let mut block = fresh_of(edition, 8);
    enter(&mut block, 0x41, 0);
    accepted(&mut block, Call::Snapshot { slot: 1 });
    enter(&mut block, 0x41, 1);
    assert_eq!(enter(&mut block, 0x41, 2), (1, 0x7B));
    accepted(&mut block, Call::Snapshot { slot: 2 });
    accepted(&mut block, Call::Restore { slot: 1 });
    for (value, word) in [(3, 0x5B), (4, 0x9B), (5, 0xBB), (6, 0xDB), (7, 0x5B)] {
        assert_eq!(enter(&mut block, 0x41, value), (1, word));
    }
}

/// A block of so many cells with the seven children that make a split in cells 7 to 12.
fn split(edition: u32, cells: usize) -> Vec<u8> {
    let mut block = fresh_of(edition, cells);
    let first = [(0x33, 0x3B), (0x35, 0x5E), (0x41, 0x7E), (0x42, 0x9E), (0x43, 0xBE), (0x50, 0xDE)];
    for (value, (character, word)) in first.into_iter().enumerate() {
        assert_eq!(enter(&mut block, character, value as u32), (1, word));
    }
    assert_eq!(enter(&mut block, 0x51, 6), (6, 0x19C));
    block
}

/// The cells of a write list, in the order in which they come.
fn listed_cells(block: &mut [u8], key: &[u8], value: u32, cells: usize) -> Vec<usize> {
    let asked = Asked { key: key.to_vec(), value, buffer: vec![0; bytes_for(cells)] };
    let outcome = make(block, Call::WriteList(asked));
    assert_eq!((outcome.answer, outcome.number as usize), (0, 8 * cells + 1));
    stores_in(&outcome.buffer)[..8 * cells].iter().step_by(8).map(|(position, _)| position / CELL).collect()
}

/// An eighth child below a split whose head is in cell 12: the last two usable cells, then cell 1; where cell 12 is the
/// last usable one, cells 1 to 3; and where cell 13 is, that and then 1 and 2.
fn split_and_wrap(edition: u32) {
    for (cells, taken, word) in [(16, [13, 14, 1], 0x3C), (14, [1, 2, 3], 0x7C), (15, [13, 1, 2], 0x5C)] {
        let mut block = split(edition, cells);
        assert_eq!(listed_cells(&mut block, &[0x52], 7, 3), taken);
        assert_eq!(enter(&mut block, 0x52, 7), (3, word));
        let end = bytes("FFFFFFFA FFFFFFF9 FFFFFFF8 00000000 00000000 00000000 00000000 00000000");
        assert_eq!(cell(&block, taken[0]), end);
        assert_eq!(word_at(&block, taken[1] * CELL + 8) as usize, taken[0] * CELL + 0x1C);
        let mids = [word_at(&block, taken[2] * CELL + 0x10), word_at(&block, taken[2] * CELL + 0x14)];
        assert_eq!(mids.map(|word| word as usize), [8 * CELL + 0x1C, taken[1] * CELL + 0x1C]);
    }
}

/// Removals that pass over held cells, come to the last usable one, and go on in cell 1.
fn removals_of_split(edition: u32) {
    let mut block = split(edition, 16);
    assert_eq!(enter(&mut block, 0x52, 7), (3, 0x3C));
    assert_eq!(enter(&mut block, 0x53, 8), (3, 0x9C));
    assert_eq!(enter(&mut block, 0x53, 9), (3, 0x15C));
    assert_eq!(remove(&mut block, &[0x33]), (3, 0x1BC));
    assert_eq!(remove(&mut block, &[0x35]), (1, 0x1DC));
    assert_eq!(remove(&mut block, &[0x41]), (1, 0x3E));
    assert_eq!(cell(&block, 1)[0x18..], bytes("42 43 50 51 52 53 AEF6"));
}

/// An insertion that wraps to cell 1; then a removal that wraps. In edition 1 it takes all that is free, the cell just
/// below the root's own last; in edition 2 the value is in the chain's cell, and one cell less is taken.
fn wraps_over_prefixes(edition: u32) {
    let mut block = fresh_of(edition, 8);
    for (last, word) in [(0x41, 0x3A), (0x42, 0x7B), (0x43, 0xBB)] {
        assert_eq!((insert(&mut block, &[0x43, last], u32::from(last) - 0x41).0, root(&block)), (0, word));
    }
    assert_eq!(enter(&mut block, 0x43, 5), (2, 0x3B));
    let prefix = bytes("00000005 FF000000 00000000 00000000 00000000 00000000 00000000 0000009E");
    assert_eq!((cell(&block, 6), &cell(&block, 1)[0x1B..]), (&prefix[..], &bytes("43 000000DF")[..]));
    assert_eq!(remove(&mut block, &[0x43, 0x43]), (3, 0xBB));
    assert_eq!((word_at(&block, 3 * CELL + 0x1C), word_at(&block, 5 * CELL + 0x1C)), (0x5E, 0x7F));
    let removed = remove(&mut block, &[0x43, 0x42]);
    if edition == 1 {
        assert_eq!((removed, word_at(&block, 4 * CELL + 0x1C)), ((3, 0x9B), 0x3F));
        assert_eq!((word_at(&block, CELL), word_at(&block, CELL + 0x1C)), (5, 0xDB));
        assert_eq!(cell(&block, 6)[0x1B..], bytes("41 FFFFFFFF"));
    } else {
        assert_eq!((removed, word_at(&block, CELL + 0x1C)), ((2, 0x3B), 0xDF));
        let embedded = bytes("00000005 1B000000 00000000 00000000 00000000 00000000 00000041 FFFFFFFF");
        assert_eq!(cell(&block, 6), embedded);
    }
}

/// In a block of 4 cells the root goes from the last usable cell, which is 2, to cell 1 and back; 7 comes where both
/// are held.
fn smallest_block(edition: u32) {
    let mut block = fresh_of(edition, 4);
    for (value, word) in [(0, 0x3B), (1, 0x5B), (2, 0x3B), (3, 0x5B)] {
        assert_eq!(enter(&mut block, 0x41, value), (1, word));
    }
    accepted(&mut block, Call::Snapshot { slot: 1 });
    assert_eq!(enter(&mut block, 0x41, 4), (1, 0x3B));
    assert_eq!(insert(&mut block, &[0x41], 5), (7, 0));
    accepted(&mut block, Call::Release { slot: 1 });
    assert_eq!(enter(&mut block, 0x41, 6), (1, 0x5B));
}

/// With an empty table the search starts at cell 1, wherever the last root was: emptied by a removal, or by a restore.
fn empty_table(edition: u32) {
    let mut block = fresh_of(edition, 4);
    assert_eq!((insert(&mut block, &[0x41; 29], 0), root(&block)), ((0, 2), 0x5B));
    assert_eq!(remove(&mut block, &[0x41; 29]), (0, 0));
    assert_eq!(enter(&mut block, 0x41, 7), (1, 0x3B));
    assert_eq!(remove(&mut block, &[0x41]), (0, 0));
    assert_eq!(enter(&mut block, 0x41, 8), (1, 0x3B));
    let mut block = fresh_of(edition, 8);
    accepted(&mut block, Call::Snapshot { slot: 3 });
    for (value, word) in [(0, 0x3B), (1, 0x5B), (2, 0x7B)] {
        assert_eq!(enter(&mut block, 0x41, value), (1, word));
    }
    accepted(&mut block, Call::Restore { slot: 3 });
    assert_eq!(enter(&mut block, 0x41, 9), (1, 0x3B));
}

/// With an empty table cells that a slot holds are passed over from cell 1 on; the root that it holds is no start.
fn empty_past_held(edition: u32) {
    let mut block = fresh_of(edition, 8);
    enter(&mut block, 0x41, 0);
    accepted(&mut block, Call::Snapshot { slot: 2 });
    assert_eq!(enter(&mut block, 0x42, 1), (1, 0x5E));
    assert_eq!(remove(&mut block, &[0x41]), (1, 0x7B));
    assert_eq!(remove(&mut block, &[0x42]), (0, 0));
    assert_eq!(enter(&mut block, 0x43, 2), (1, 0x5B));
    assert_eq!(enter(&mut block, 0x43, 3), (1, 0x7B));
    accepted(&mut block, Call::Snapshot { slot: 2 });
    assert_eq!(remove(&mut block, &[0x43]), (0, 0));
    for (value, word) in [(4, 0x3B), (5, 0x5B), (6, 0x9B)] {
        assert_eq!(enter(&mut block, 0x44, value), (1, word));
    }
}
