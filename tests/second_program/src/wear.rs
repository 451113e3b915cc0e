//! Wear: how the search for a change's cells goes on from the root's own cell, and round the block.

use crate::counted::WearCase;
use crate::model::{word_at, CELL, SPLIT};

/// What the search for so many of the free cells, which are given in the order of taking, meets in the block that a
/// change finds; nothing where none is taken. A restored block has come to another root just before.
pub fn met_by_search(block: &[u8], free: &[usize], count: usize, restored: bool) -> Vec<WearCase> {
    let (taken, left) = free.split_at(count);
    let (Some(first), Some(last)) = (taken.first(), taken.last()) else {
        return Vec::new();
    };
    let (root, last_usable) = (word_at(block, block.len() - CELL), block.len() / CELL - 2);
    let own = root as usize / CELL;
    let next = if own == last_usable { 1 } else { own + 1 };
    let wrapped = taken.windows(2).any(|pair| pair[1] < pair[0]);
    let highest = taken.iter().max();
    let free_above = free.iter().filter(|cell| *cell > first).count();
    let cases = [
        (WearCase::EmptyTable, own == 0),
        (WearCase::EmptyPastHeld, own == 0 && *first > 1),
        (WearCase::EmptyToLastUsable, own == 0 && *last == last_usable),
        (WearCase::RootInLastUsable, own == last_usable),
        (WearCase::PastHeld, own > 0 && *first != next),
        (WearCase::Wrapped, wrapped),
        (WearCase::WrappedAtOnce, *first < own && own < last_usable),
        (WearCase::JustBelowRoot, *last + 1 == own),
        (WearCase::AllRound, wrapped && left.is_empty()),
        (WearCase::LowerLeft, left.iter().any(|cell| Some(cell) < highest)),
        (WearCase::BelowHeld, 0 < own && own < *first && free_above < last_usable - first),
        (WearCase::SplitRoot, root % 32 == u32::from(SPLIT)),
        (WearCase::AfterRestore, restored),
    ];
    cases.into_iter().filter_map(|(case, holds)| holds.then_some(case)).collect()
}
