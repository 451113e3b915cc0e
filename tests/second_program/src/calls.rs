//! Every call of the specification on a block, its answers tried in the order in which they are to be given.

use crate::counted::{BuildCase, Change, WearCase};
use crate::coverage::Coverage;
use crate::encode::{entered, fresh_cells, Build, Layer};
use crate::limits::{held_limits, limits_met};
use crate::model::{put_word, word_at, Node, Store, CELL, EDITIONS, LONGEST_KEY};
use crate::pages::{self, page, Page, Printed};
use crate::removal::without;
use crate::verdict::{verdict, Question};
use crate::wear::met_by_search;
use crate::write_list::{self, write_list, Asked};
use std::ops::Bound;

/// A call with its arguments.
#[derive(Clone, Debug)]
pub enum Call {
    Format { edition: u32 },
    Validate,
    Insert { key: Vec<u8>, value: u32 },
    Get { key: Vec<u8> },
    NextKey { key: Vec<u8> },
    Snapshot { slot: u32 },
    Restore { slot: u32 },
    Release { slot: u32 },
    Verdict(Question),
    Remove { key: Vec<u8> },
    Page(Page),
    WriteList(Asked),
}

/// An answer number with every value that goes beside it; the dose by its bits, the number of a page or of a write list that of its
/// records; the buffer that was lent to either as the call left it, empty where none was lent.
#[derive(Clone, Debug, PartialEq, Eq)]
pub struct Outcome {
    pub answer: u8,
    pub number: u32,
    pub key: [u8; LONGEST_KEY],
    pub dose: u32,
    pub page: Printed,
    pub buffer: Vec<u8>,
}

impl Outcome {
    /// An answer with zeros beside it, which is how every refusal comes.
    pub fn bare(answer: u8) -> Outcome {
        let (key, page) = ([0; LONGEST_KEY], Printed::default());
        Outcome { answer, number: 0, key, dose: 0, page, buffer: Vec::new() }
    }

    /// Done, with a count, value or size.
    pub fn done(number: u32) -> Outcome {
        Outcome { number, ..Outcome::bare(0) }
    }
}

impl Call {
    /// The call's place in the list of calls.
    pub fn number(&self) -> usize {
        match self {
            Call::Format { .. } => 0,
            Call::Validate => 1,
            Call::Insert { .. } => 2,
            Call::Get { .. } => 3,
            Call::NextKey { .. } => 4,
            Call::Snapshot { .. } => 5,
            Call::Restore { .. } => 6,
            Call::Release { .. } => 7,
            Call::Verdict(_) => 8,
            Call::Remove { .. } => 9,
            Call::Page(_) => 10,
            Call::WriteList(_) => 11,
        }
    }
}

/// Makes a call on a block and counts what it met; a page or write list that is refused leaves its buffer.
pub fn perform(block: &mut [u8], call: &Call, coverage: &mut Coverage) -> Outcome {
    let mut outcome = answer(block, call, coverage);
    match (call, outcome.answer) {
        (Call::Page(page), 1..) => {
            outcome.buffer.clone_from(&page.buffer);
            pages::meet_refused(page, outcome.answer, coverage);
        }
        (Call::WriteList(asked), 1..) => {
            outcome.buffer.clone_from(&asked.buffer);
            write_list::meet_refused(asked, outcome.answer, coverage);
        }
        _ => {}
    }
    coverage.call(call.number(), outcome.answer, block.len());
    limits_met(block.len(), call, outcome.answer).into_iter().for_each(|limit| coverage.limit(limit));
    outcome
}

/// The answers that every call shares, and then the call's own.
fn answer(block: &mut [u8], call: &Call, coverage: &mut Coverage) -> Outcome {
    if !valid_length(block.len()) {
        return Outcome::bare(1);
    }
    if let Call::Format { edition } = call {
        return format(block, *edition);
    }
    let store = match Store::decode(block) {
        Ok(store) => store,
        Err(flaw) => {
            coverage.flaw(flaw);
            return Outcome::bare(2);
        }
    };
    coverage.meet(&store.met);
    match call {
        Call::Format { .. } | Call::Validate => Outcome::bare(0),
        Call::Insert { key, value } => insert(block, store, key, *value, coverage),
        Call::Remove { key } => remove(block, store, key, coverage),
        Call::Get { key } => get(&store, key),
        Call::NextKey { key } => next_key(&store, key),
        Call::Page(asked) => page(&store.root.table(), asked, coverage),
        Call::WriteList(asked) => write_list(block, store, asked, coverage),
        Call::Snapshot { slot } => snapshot(block, *slot),
        Call::Restore { slot } => {
            let outcome = restore(block, *slot);
            coverage.restored(block, store.root.word);
            outcome
        }
        Call::Release { slot } => release(block, *slot),
        Call::Verdict(question) => {
            let held = store.root.table().get(&question.label).copied();
            let outcome = verdict(held, question);
            let limits = held.map(|held| held_limits(question, held, outcome.answer));
            limits.into_iter().flatten().for_each(|limit| coverage.limit(limit));
            outcome
        }
    }
}

/// Whether a block of this length holds from 4 to 2,048 whole cells.
pub fn valid_length(length: usize) -> bool {
    length % CELL == 0 && (4..=2048).contains(&(length / CELL))
}

/// Whether a key that must name something has a valid length.
pub fn valid_key(key: &[u8]) -> bool {
    (1..=LONGEST_KEY).contains(&key.len())
}

/// Makes a block fresh: all zero but for the number of cells and the edition, which must be one that there is.
fn format(block: &mut [u8], edition: u32) -> Outcome {
    if !EDITIONS.contains(&edition) {
        return Outcome::bare(1);
    }
    let trailer = block.len() - CELL;
    block.fill(0);
    put_word(block, trailer + 0x14, (trailer / CELL + 1) as u32);
    put_word(block, trailer + 0x1C, edition);
    Outcome::bare(0)
}

/// Puts one pair into the root's table; the number is the count of cells taken.
fn insert(block: &mut [u8], store: Store, key: &[u8], value: u32, coverage: &mut Coverage) -> Outcome {
    let entered = enter(block, store, key, value, Change::Insertion, coverage);
    counted(entered, Change::Insertion, coverage)
}

/// Puts one pair into the root's table, for an insertion or for its write list; gives what was laid down, or the refusal.
pub fn enter(
    block: &mut [u8],
    store: Store,
    key: &[u8],
    value: u32,
    change: Change,
    coverage: &mut Coverage,
) -> Result<Laid, u8> {
    if !valid_key(key) {
        return Err(3);
    }
    if value > 0x7FFF_FFFF {
        return Err(4);
    }
    let free = store.free_cells();
    let mut build = Build { edition: store.edition, cases: Vec::new() };
    let tree = entered(store.root.top, key, value, &mut build);
    lay_down(block, free, Some(tree), (change, build), coverage)
}

/// Takes one key out of the root's table; the number is the count of cells taken, which may be none.
fn remove(block: &mut [u8], store: Store, key: &[u8], coverage: &mut Coverage) -> Outcome {
    if !valid_key(key) {
        return Outcome::bare(3);
    }
    if !store.root.table().contains_key(key) {
        return Outcome::bare(11);
    }
    let free = store.free_cells();
    let mut build = Build { edition: store.edition, cases: Vec::new() };
    let tree = without(store.root.top.expect("the root shows a key"), key, &mut build);
    let left = lay_down(block, free, tree, (Change::Removal, build), coverage);
    counted(left, Change::Removal, coverage)
}

/// What a change laid down: the cells that it took, in the order taken, and the cases that its build and the search for
/// its cells went through.
pub struct Laid {
    pub taken: Vec<usize>,
    pub cases: Vec<BuildCase>,
    pub searched: Vec<WearCase>,
}

/// Writes a new tree and its root word, where the free cells are enough.
fn lay_down(
    block: &mut [u8],
    free: Vec<usize>,
    tree: Option<Node>,
    (change, mut build): (Change, Build),
    coverage: &mut Coverage,
) -> Result<Laid, u8> {
    let count = tree.as_ref().map_or(0, fresh_cells);
    coverage.room(change, count, free.len());
    if count > free.len() {
        return Err(7);
    }
    if count == 0 {
        build.push(BuildCase::NothingTaken);
    }
    let searched = met_by_search(block, &free, count, coverage.is_restored(block));
    let trailer = block.len() - CELL;
    let mut layer = Layer::new(block, free);
    let root = tree.map_or(0, |tree| layer.lay(&tree));
    let taken = layer.taken;
    put_word(block, trailer, root);
    Ok(Laid { taken, cases: build.cases, searched })
}

/// The outcome of a change: the number is the count of cells taken.
fn counted(laid: Result<Laid, u8>, change: Change, coverage: &mut Coverage) -> Outcome {
    match laid {
        Ok(laid) => {
            coverage.built(change, &laid.cases, &laid.searched);
            Outcome::done(laid.taken.len() as u32)
        }
        Err(answer) => Outcome::bare(answer),
    }
}

/// The value of a key that the root shows.
fn get(store: &Store, key: &[u8]) -> Outcome {
    if !valid_key(key) {
        return Outcome::bare(3);
    }
    match store.root.table().get(key) {
        Some(value) => Outcome::done(*value),
        None => Outcome::bare(11),
    }
}

/// The least key shown that is greater than the given one; the number is its size.
fn next_key(store: &Store, key: &[u8]) -> Outcome {
    if key.len() > LONGEST_KEY {
        return Outcome::bare(3);
    }
    let table = store.root.table();
    let mut greater = table.range::<[u8], _>((Bound::Excluded(key), Bound::Unbounded));
    let Some((next, _)) = greater.next() else {
        return Outcome::bare(11);
    };
    let mut outcome = Outcome::done(next.len() as u32);
    outcome.key[..next.len()].copy_from_slice(next);
    outcome
}

/// Whether a slot's held bit is set.
fn is_held(block: &[u8], slot: u32) -> bool {
    block[block.len() - CELL + 0x10] >> (slot - 1) & 1 == 1
}

/// Where a slot's word stands in the block.
fn slot_offset(block: &[u8], slot: u32) -> usize {
    block.len() - CELL + 4 * slot as usize
}

/// Holds the present root in a slot, in place of any older one.
fn snapshot(block: &mut [u8], slot: u32) -> Outcome {
    if !(1..=3).contains(&slot) {
        return Outcome::bare(5);
    }
    let trailer = block.len() - CELL;
    let root = word_at(block, trailer);
    put_word(block, slot_offset(block, slot), root);
    block[trailer + 0x10] |= 1 << (slot - 1);
    Outcome::bare(0)
}

/// Makes a held slot's word the root; the slot stays held.
fn restore(block: &mut [u8], slot: u32) -> Outcome {
    if !(1..=3).contains(&slot) {
        return Outcome::bare(5);
    }
    if !is_held(block, slot) {
        return Outcome::bare(6);
    }
    let root = word_at(block, slot_offset(block, slot));
    let trailer = block.len() - CELL;
    put_word(block, trailer, root);
    Outcome::bare(0)
}

/// Clears a held slot, word and bit.
fn release(block: &mut [u8], slot: u32) -> Outcome {
    if !(1..=3).contains(&slot) {
        return Outcome::bare(5);
    }
    if !is_held(block, slot) {
        return Outcome::bare(6);
    }
    put_word(block, slot_offset(block, slot), 0);
    let trailer = block.len() - CELL;
    block[trailer + 0x10] &= !(1 << (slot - 1));
    Outcome::bare(0)
}
