//! Every order word: the valid ones are found by writing down two to six characters in each order, and the library's own check, which
//! a sparse cell's other rules would cover up in part, is asked for all 65,536 words.

use crate::compare::Comparison;
use crate::model::order_word;
use std::collections::BTreeSet;

/// Asks the other program, where there is one, for every word.
pub fn run(comparison: &mut Comparison) {
    let valid = valid_words();
    let ends = (valid.first().copied(), valid.last().copied());
    assert_eq!((valid.len(), ends), (436, (Some(6), Some(44_790))), "436 words from 6 to 44,790");
    for word in 0..=u16::MAX {
        comparison.order_word(word, valid.contains(&word));
    }
}

/// The order words of all cells of two to six children whose characters differ.
fn valid_words() -> BTreeSet<u16> {
    (2..=6).flat_map(arrangements).filter_map(|characters| order_word(&characters)).collect()
}

/// So many characters in every order.
fn arrangements(count: u8) -> Vec<Vec<u8>> {
    if count == 0 {
        return vec![Vec::new()];
    }
    let insert_at = |characters: &Vec<u8>, place: usize| {
        let mut longer = characters.clone();
        longer.insert(place, count);
        longer
    };
    let shorter = arrangements(count - 1);
    shorter.iter().flat_map(|characters| (0..count.into()).map(|place| insert_at(characters, place))).collect()
}
