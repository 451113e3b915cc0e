//! Write lists: the list of stores of every label entered, checked; the filling of a block through lists, measured.

use crate::insertion::STORE;
use crate::plain::{put_word, word_at, CELL, LONGEST_KEY};
use crate::{plain, proved};

/// The bytes of the longest list: eight records for each of the most cells that an insertion takes, and one for the root.
const LONGEST_LIST: usize = ((4 * LONGEST_KEY + 10) * (CELL / 4) + 1) * STORE;

/// What every buffer is filled with before a call, so that a byte that stays as it was can be told.
const UNTOUCHED: u8 = 0xA5;

/// The answer number and the records of a label's list, and the block after its stores. Both programs must agree in a buffer with
/// room, in one of the list's size and in one that is a byte short; a label that finds no cells is told so in an empty one too.
pub fn entered(block: &[u8], label: &[u8], value: u32) -> ((u8, u32), Vec<u8>) {
    let (answer, mut list) = listed(block, label, value, LONGEST_LIST);
    let past = list.split_off(answer.1 as usize * STORE);
    assert!(past.iter().all(|byte| *byte == UNTOUCHED), "the bytes past the list of {label:?}");
    let size = list.len();
    let exact = listed(block, label, value, size);
    assert!(exact == (answer, list.clone()), "the list of {label:?} in a buffer of its size");
    if answer.0 == 0 {
        let short = listed(block, label, value, size - 1);
        assert!(short == ((15, 0), vec![UNTOUCHED; size - 1]), "the list of {label:?} in a buffer a byte short");
    }
    let mut block = block.to_vec();
    store(&mut block, &list);
    (answer, block)
}

/// Checks the refusals 1 to 4, each with the reasons for those after it too; 7 and 15 are met by the labels entered.
pub fn compare_refusals(block: &[u8]) {
    let (mut unsound, long, over) = (block.to_vec(), [0; LONGEST_KEY + 1], 1 << 31);
    unsound[block.len() - 1] = 0;
    for (block, label, answer) in [
        (&unsound[1..], &long[..], 1),
        (&unsound, &long, 2),
        (block, &long, 3),
        (block, &[], 3),
        (block, &long[1..], 4),
    ] {
        assert_eq!(listed(block, label, over, 0), ((answer, 0), Vec::new()), "refusal {answer}");
    }
}

/// The answer number, the records and the buffer of a list, on which both programs must agree to the last byte.
pub fn listed(block: &[u8], label: &[u8], value: u32, size: usize) -> ((u8, u32), Vec<u8>) {
    let (mut ours, mut theirs) = (vec![UNTOUCHED; size], vec![UNTOUCHED; size]);
    let answer = proved::write_list(block, label, value, &mut ours);
    assert_eq!(answer, plain::write_list(block, label, value, &mut theirs), "the list of {label:?} in {size} bytes");
    assert!(ours == theirs, "the bytes of the list of {label:?} in {size} bytes");
    (answer, ours)
}

/// An insertion through a list, in one buffer for all labels: the list is asked for, then its stores are made.
pub fn through(
    write_list: impl Fn(&[u8], &[u8], u32, &mut [u8]) -> (u8, u32),
) -> impl FnMut(&mut [u8], &[u8], u32) -> (u8, u32) {
    let mut list = vec![0; LONGEST_LIST];
    move |block, label, value| {
        let answer = write_list(block, label, value, &mut list);
        store(block, &list[..answer.1 as usize * STORE]);
        answer
    }
}

/// The memory driver of both programs: it makes the stores of a list one after the other.
#[inline(never)]
pub fn store(block: &mut [u8], list: &[u8]) {
    for record in list.chunks_exact(STORE) {
        put_word(block, word_at(record, 0) as usize, word_at(record, 4));
    }
}
