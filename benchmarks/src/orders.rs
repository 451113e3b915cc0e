//! Order words: the check of one alone, on the words of a block and on words drawn from all that are valid.

use crate::labels::Random;
use crate::plain::{cell_of, kind_of, put_word, word_at, CELL, SPARSE};
use crate::timing::{measure, Work};
use crate::walk::nodes;
use crate::{plain, proved};
use std::hint::black_box;

/// The cells of a block for one order word: the first, which no node has, the sparse node's, a free one and the trailer's.
const CELLS: usize = 4;

/// How many words one measurement asks for.
const WORDS: usize = 8720;

/// Checks every order word with both programs, then measures the check and a validation on words drawn from the valid ones, which
/// come in no order that a processor could learn.
pub fn compare_and_report() {
    let mut random = Random(436);
    let valid: Vec<u16> = (0..=u16::MAX).filter(|order| judged(*order)).collect();
    assert_eq!(valid.len(), 436, "valid order words");
    let words: Vec<u16> = (0..WORDS).map(|_| valid[random.below(valid.len())]).collect();
    report_words("| 4 | 1 | drawn", &words);
    let blocks: Vec<Vec<u8>> = words.iter().map(|order| block_of(*order)).collect();
    let ours = || blocks.iter().map(|block| u64::from(proved::validate(black_box(block)))).sum();
    let theirs = || blocks.iter().map(|block| u64::from(plain::validate(black_box(block)))).sum();
    report("| 4 | 1 | drawn | validate", &ours, &theirs);
}

/// Measures the check alone on the order words of a block, in the order in which a validation meets them.
pub fn report_block(start: &str, block: &[u8]) {
    let met = met_in(block);
    if !met.is_empty() {
        report_words(start, &met.iter().copied().cycle().take(WORDS).collect::<Vec<u16>>());
    }
}

/// Measures the check alone, on these words.
fn report_words(start: &str, words: &[u16]) {
    let ours = || words.iter().map(|order| u64::from(proved::is_valid_order(black_box(*order)))).sum();
    let theirs = || words.iter().map(|order| u64::from(is_valid(black_box(*order)))).sum();
    report(&format!("{start} | order word"), &ours, &theirs);
}

/// Measures and prints one line of the table.
fn report(start: &str, ours: &Work, theirs: &Work) {
    let taken = measure(ours, theirs);
    let (ours, theirs) = (taken.ours / WORDS as f64, taken.theirs / WORDS as f64);
    println!("{start} | plain | {ours:.1} | {theirs:.1} | {:.2} |", taken.ratio);
}

/// The order words that the root's tree of a sound block has, in rising order of the keys that lead to them.
fn met_in(block: &[u8]) -> Vec<u16> {
    let sparse = nodes(block).into_iter().filter(|word| kind_of(*word) == SPARSE);
    sparse.map(|word| word_at(block, cell_of(word) * CELL + 0x1C) as u16).collect()
}

/// Whether an order word is valid, by both programs, alone and in its block.
fn judged(order: u16) -> bool {
    let block = block_of(order);
    let (answer, valid) = (proved::validate(&block), proved::is_valid_order(order));
    assert_eq!(answer, plain::validate(&block), "a block with order word {order:04X}");
    assert_eq!(valid, is_valid(order), "order word {order:04X}");
    assert_eq!(valid, answer == 0, "order word {order:04X} alone and in its block");
    valid
}

/// Whether an order word is valid, in plain Rust: its digits from the lowest, with a bit for each that was met.
fn is_valid(order: u16) -> bool {
    let (mut rest, mut met, mut count) = (order, 0u32, 0);
    while rest != 0 {
        let digit = rest % 6;
        if met >> digit & 1 == 1 || (digit == 1 && met & 1 == 0) {
            return false;
        }
        met |= 1 << digit;
        count += 1;
        rest /= 6;
    }
    count >= 2 && met == (1 << count) - 1
}

/// A block whose one node is a sparse cell with this order word, its characters rising as the word lists them.
fn block_of(order: u16) -> Vec<u8> {
    let mut block = plain::fresh(CELLS, 1);
    let (mut rest, mut count) = (order, 0);
    while rest != 0 {
        block[CELL + 0x18 + usize::from(rest % 6)] = 0x41 + count;
        count += 1;
        rest /= 6;
    }
    for position in 0..usize::from(count.min(6)) {
        put_word(&mut block, CELL + 4 * position, !(position as u32));
    }
    block[CELL + 0x1E..CELL + 0x20].copy_from_slice(&order.to_be_bytes());
    put_word(&mut block, (CELLS - 1) * CELL, CELL as u32 + 0x1E);
    block
}
