//! Write lists whose every byte is written out.

use crate::calls::{Call, Outcome};
use crate::compare::Comparison;
use crate::model::{put_word, CELL};
use crate::self_test::{bytes, fresh, fresh_of, insert, make};
use crate::write_list::{bytes_for, stores_in, Asked, RECORD};

/// Runs every case; the first that fails ends the program.
pub fn run() {
    of_sample_e();
    of_two_cells();
    sizes();
    of_fresh_blocks();
    of_seven_children();
    of_an_embedded_value();
    answers_in_order();
    cut_at_every_place();
}

/// What stands in a buffer before a list.
const FILLER: u8 = 0xEE;

/// The list of a pair into a buffer of so many bytes; gives answer and records, and the buffer.
fn listed(block: &[u8], key: &[u8], value: u32, size: usize) -> ((u8, u32), Vec<u8>) {
    let asked = Asked { key: key.to_vec(), value, buffer: vec![FILLER; size] };
    let mut copy = block.to_vec();
    let Outcome { answer, number, buffer, .. } = make(&mut copy, Call::WriteList(asked));
    assert!(copy == block, "a write list leaves the block");
    ((answer, number), buffer)
}

/// The stores of a pair's list, which must be whole and give what the insertion gives.
fn stores(block: &[u8], key: &[u8], value: u32) -> Vec<(usize, u32)> {
    let mut entered = block.to_vec();
    let (answer, count) = insert(&mut entered, key, value);
    assert_eq!(answer, 0);
    let size = bytes_for(count as usize);
    let ((answer, records), buffer) = listed(block, key, value, size);
    assert_eq!((answer, records as usize * RECORD), (0, size));
    let stores = stores_in(&buffer);
    let mut stored = block.to_vec();
    stores.iter().for_each(|(position, word)| put_word(&mut stored, *position, *word));
    assert!(stored == entered, "the stores give what the insertion gives");
    stores
}

/// The words of a cell with their positions.
fn cell(number: usize, words: &str) -> Vec<(usize, u32)> {
    let words = stores_in(&bytes(&words.split(' ').map(|word| format!("00000000{word}")).collect::<String>()));
    words.into_iter().enumerate().map(|(place, (_, word))| (number * CELL + 4 * place, word)).collect()
}

/// Sample E: key 43 48 41 with 0 in a fresh block of 8 cells.
fn sample_e() -> Vec<u8> {
    let mut block = fresh(8);
    assert_eq!(insert(&mut block, &[0x43, 0x48, 0x41], 0), (0, 1));
    block
}

/// The list of 41 with 1 into sample E, byte for byte.
fn of_sample_e() {
    let expected = bytes(
        "00000040 FFFFFFFE  00000044 0000003A  00000048 00000000  0000004C 00000000  00000050 00000000 \
         00000054 00000000  00000058 41430000  0000005C 00000006  000000E0 0000005E",
    );
    assert_eq!(listed(&sample_e(), &[0x41], 1, 72), ((0, 9), expected));
}

/// The list of 43 with 5 into sample E: the prefix's cell, then the chain's, then the root word.
fn of_two_cells() {
    let prefix = cell(2, "00000005 FF000000 00000000 00000000 00000000 00000000 00000000 0000003A");
    let chain = cell(3, "00000000 00000000 00000000 00000000 00000000 00000000 00000043 0000005F");
    assert_eq!(stores(&sample_e(), &[0x43], 5), [prefix, chain, vec![(0xE0, 0x7B)]].concat());
}

/// 71 bytes are too few for nine records and stay; past 72 they stay too.
fn sizes() {
    let (_, whole) = listed(&sample_e(), &[0x41], 1, 72);
    for size in 0..72 {
        assert_eq!(listed(&sample_e(), &[0x41], 1, size), ((15, 0), vec![FILLER; size]));
    }
    for size in [72, 73, 79, 80, 81, 5000] {
        let (told, buffer) = listed(&sample_e(), &[0x41], 1, size);
        assert_eq!((told, &buffer[..72]), ((0, 9), &whole[..]));
        assert_eq!(buffer[72..], vec![FILLER; size - 72]);
    }
    assert_eq!(listed(&sample_e(), &[0x43], 5, 135).0, (15, 0));
    assert_eq!(listed(&sample_e(), &[0x43], 5, 136).0, (0, 17));
}

/// Sample A in either edition, and a label of 29 bytes, which takes two cells, the deeper first.
fn of_fresh_blocks() {
    for edition in [1, 2] {
        let chain = cell(1, "00000000 00000000 00000000 00000000 00000000 00000000 00000041 FFFFFFFF");
        assert_eq!(stores(&fresh_of(edition, 4), &[0x41], 0), [chain, vec![(0x60, 0x3B)]].concat());
        let full = cell(1, "41414141 41414141 41414141 41414141 41414141 41414141 41414141 FFFFFFFF");
        let first = cell(2, "00000000 00000000 00000000 00000000 00000000 00000000 00000041 00000020");
        assert_eq!(stores(&fresh_of(edition, 4), &[0x41; 29], 0), [full, first, vec![(0x60, 0x5B)]].concat());
    }
}

/// The seventh child: each mid's ends and then that mid, the head last.
fn of_seven_children() {
    let mut block = fresh(16);
    for (value, character) in [0x33, 0x35, 0x41, 0x42, 0x43, 0x50].into_iter().enumerate() {
        insert(&mut block, &[character], value as u32);
    }
    let none = "00000000 00000000 00000000";
    let cells = [
        cell(7, &format!("{none} FFFFFFFF 00000000 FFFFFFFE 00000000 00000000")),
        cell(8, &format!("{none} {none} 000000FC 00000000")),
        cell(9, &format!("00000000 FFFFFFFD FFFFFFFC FFFFFFFB {none} 00000000")),
        cell(10, &format!("FFFFFFFA FFFFFFF9 {none} {none}")),
        cell(11, &format!("0000013C 00000000 0000015C {none} 00000000 00000000")),
        cell(12, &format!("{none} 00000000 0000011C 0000017C 00000000 00000000")),
    ];
    assert_eq!(stores(&block, &[0x51], 6), [cells.concat(), vec![(0x1E0, 0x19C)]].concat());
}

/// A value embedded in the chain that the same entry takes: that cell comes once, where it was taken, with its last bytes.
fn of_an_embedded_value() {
    let mut block = fresh_of(2, 8);
    insert(&mut block, &[0x43], 5);
    let embedded = cell(2, "00000005 1A000000 00000000 00000000 00000000 00000000 00004841 FFFFFFFF");
    let chain = cell(3, "00000000 00000000 00000000 00000000 00000000 00000000 00000043 0000005F");
    assert_eq!(stores(&block, &[0x43, 0x48, 0x41], 0), [embedded, chain, vec![(0xE0, 0x7B)]].concat());
}

/// 1, 2, 3, 4, 7 and then 15, each before what comes after it, and always with the buffer as it was.
fn answers_in_order() {
    let mut full = fresh(4);
    insert(&mut full, &[0x41], 0);
    make(&mut full, Call::Snapshot { slot: 1 });
    insert(&mut full, &[0x41], 1);
    for size in [0, 71, 72, 200] {
        let answer = |block: &[u8], key: &[u8], value: u32| {
            let ((answer, records), buffer) = listed(block, key, value, size);
            assert!(records == 0 && buffer == vec![FILLER; size]);
            answer
        };
        for key in [&[][..], &[0x41; 49], &[0x41; 300]] {
            assert_eq!(answer(&[0; 3 * CELL], key, u32::MAX), 1);
            assert_eq!(answer(&[0; 4 * CELL], key, u32::MAX), 2);
            assert_eq!(answer(&full, key, u32::MAX), 3);
        }
        assert_eq!(answer(&full, &[0x41], 0x8000_0000), 4);
        assert_eq!(answer(&full, &[0x41], 2), 7);
    }
    assert_eq!(listed(&fresh(4), &[0x41], 2, 71).0, (15, 0));
    assert_eq!(listed(&fresh(4), &[0x41], 0x7FFF_FFFF, 72).0, (0, 9));
}

/// Lists of sample E in either edition, cut at each of their places.
fn cut_at_every_place() {
    for (edition, cells, places) in [(1, 3, 26), (2, 2, 18)] {
        let mut block = fresh_of(edition, 8);
        insert(&mut block, &[0x43], 5);
        make(&mut block, Call::Snapshot { slot: 2 });
        let asked = Asked { key: vec![0x43, 0x48, 0x41], value: 0, buffer: vec![FILLER; bytes_for(cells)] };
        let outcome = make(&mut block, Call::WriteList(asked.clone()));
        let mut comparison = Comparison::new(None, false);
        comparison.cut_alone(&block, &asked, &outcome);
        assert_eq!((comparison.cut_lists, comparison.cuts, comparison.differences), (1, places, 0));
    }
}
