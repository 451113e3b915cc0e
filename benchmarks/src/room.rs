//! The room that values over inner nodes take in each edition, where the same labels are entered in the same order.

use crate::labels::{self, Random, SEED};
use crate::plain::{cell_of, kind_of, CELL, PREFIX, STANDALONE};
use crate::{validation, walk, Case, LOTS};

/// The lots that there are labels for; every block is full before the last of them.
const ALL_LOTS: usize = 100;

/// Prints one line for each case: the cells and prefixes of its full block, and the labels held if it goes on until answer 7.
pub fn report(cases: &[Case]) {
    println!();
    println!("| cells | edition | labels | cells reached | cells taken | standalone | embedded | labels at answer 7 |");
    println!("|---|---|---|---|---|---|---|---|");
    for case in cases {
        let (standalone, embedded) = prefixes(&case.full);
        let (start, reached, taken) = (case.start(), reached(&case.full), case.taken);
        println!("{start} | {reached} | {taken} | {standalone} | {embedded} | {} |", held_when_refused(case.clone()));
    }
}

/// How many cells the root of a sound block reaches.
fn reached(block: &[u8]) -> usize {
    let mut reached = [0; 2048];
    assert!(validation::is_sound(block, &mut reached));
    reached.iter().filter(|roots| **roots != 0).count()
}

/// How many prefixes the root's tree has with a cell of their own, and how many in the cell of their node.
fn prefixes(block: &[u8]) -> (usize, usize) {
    let prefixes = walk::nodes(block).into_iter().filter(|word| kind_of(*word) == PREFIX);
    let (standalone, embedded): (Vec<u32>, Vec<u32>) =
        prefixes.partition(|word| block[cell_of(*word) * CELL + 4] == STANDALONE);
    (standalone.len(), embedded.len())
}

/// How many labels are held when one of more lots finds no room; lot goes after lot, each in mixed order.
fn held_when_refused(mut case: Case) -> usize {
    let mut random = Random(SEED ^ ALL_LOTS as u64);
    let mut more = (LOTS..ALL_LOTS).flat_map(|lot| random.mixed(labels::lots(lot, 1)));
    let answer = more.find_map(|label| Some(case.enter(label)).filter(|answer| *answer != 0));
    assert_eq!(answer, Some(7), "a label that finds no room");
    case.map.len()
}
