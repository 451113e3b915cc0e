//! The ledger beside a history: it never looks into the block, and says what each call must answer.

use crate::calls::{valid_key, Call};
use crate::model::{Store, Table, EDITIONS};

/// The present table, and for each slot a table or nothing.
#[derive(Default)]
pub struct Ledger {
    present: Table,
    slots: [Option<Table>; 3],
}

impl Ledger {
    /// Feeds a call and whether it got 7; gives the answer it must have had, or nothing for a call that only reads.
    pub fn feed(&mut self, call: &Call, no_room: bool) -> Option<u8> {
        match call {
            Call::Format { edition } if !EDITIONS.contains(edition) => Some(1),
            Call::Format { .. } => {
                *self = Ledger::default();
                Some(0)
            }
            Call::Insert { key, value } => Some(self.insert(key, *value, no_room)),
            Call::Remove { key } => Some(self.remove(key, no_room)),
            Call::Snapshot { slot } => Some(self.snapshot(*slot)),
            Call::Restore { slot } => Some(self.restore(*slot)),
            Call::Release { slot } => Some(self.release(*slot)),
            Call::Validate | Call::Get { .. } | Call::NextKey { .. } => None,
            Call::Verdict(_) | Call::Page(_) | Call::WriteList(_) => None,
        }
    }

    /// The ledger of a sound block that no history made: what its root and snapshots show.
    #[cfg(alone)]
    pub fn of(store: &Store) -> Ledger {
        let slots = [0, 1, 2].map(|place: usize| store.snapshots[place].as_ref().map(|tree| tree.table()));
        Ledger { present: store.root.table(), slots }
    }

    /// Whether a block shows the present table, and its snapshots exactly the tables of the slots.
    pub fn shown_by(&self, store: &Store) -> bool {
        let mut slots = self.slots.iter().zip(&store.snapshots);
        let same = slots.all(|(slot, snapshot)| *slot == snapshot.as_ref().map(|tree| tree.table()));
        same && store.root.table() == self.present
    }

    /// Insert: 3 or 4 by the arguments, 7 if that was fed, else the key has this value.
    fn insert(&mut self, key: &[u8], value: u32, no_room: bool) -> u8 {
        if !valid_key(key) {
            return 3;
        }
        if value > i32::MAX as u32 {
            return 4;
        }
        if no_room {
            return 7;
        }
        self.present.insert(key.to_vec(), value);
        0
    }

    /// Remove: 3 by the argument, 11 if the present table lacks the key, 7 if that was fed, else its pair goes.
    fn remove(&mut self, key: &[u8], no_room: bool) -> u8 {
        if !valid_key(key) {
            return 3;
        }
        if !self.present.contains_key(key) {
            return 11;
        }
        if no_room {
            return 7;
        }
        self.present.remove(key);
        0
    }

    /// A valid slot's place in the list.
    fn place(slot: u32) -> Option<usize> {
        [1, 2, 3].iter().position(|valid| *valid == slot)
    }

    /// Snapshot: the slot holds the present table.
    fn snapshot(&mut self, slot: u32) -> u8 {
        let Some(place) = Ledger::place(slot) else {
            return 5;
        };
        self.slots[place] = Some(self.present.clone());
        0
    }

    /// Restore: the present table is the slot's, which the slot keeps.
    fn restore(&mut self, slot: u32) -> u8 {
        let Some(place) = Ledger::place(slot) else {
            return 5;
        };
        let Some(table) = &self.slots[place] else {
            return 6;
        };
        self.present = table.clone();
        0
    }

    /// Release: the slot has nothing.
    fn release(&mut self, slot: u32) -> u8 {
        let Some(place) = Ledger::place(slot) else {
            return 5;
        };
        match self.slots[place].take() {
            Some(_) => 0,
            None => 6,
        }
    }
}
