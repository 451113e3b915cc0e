//! Cuts: the stores of a write list made one by one, as a driver makes them, with the power lost before each of them in turn.

use crate::calls::{perform, Call, Outcome};
use crate::coverage::Coverage;
use crate::model::{put_word, Store, Table};
use crate::write_list::{stores_in, Asked, RECORD};

/// Makes a call by the program that made the list.
pub type Make<'a> = dyn FnMut(&mut [u8], &Call) -> Outcome + 'a;

/// What a sound block shows: the root's table, and of each slot the table that it holds.
type Shown = (Table, [Option<Table>; 3]);

/// What must be met again after every cut: what the block shows, the list, and what the insertion gives.
struct Uncut<'a> {
    shown: Shown,
    list: Call,
    listed: &'a Outcome,
    entry: Call,
    entered: (Outcome, Vec<u8>),
}

/// Makes a list's stores on a copy of its block, cut before each of them; gives at how many places, or what is wrong.
pub fn cut(block: &[u8], asked: &Asked, listed: &Outcome, make: &mut Make) -> Result<u64, String> {
    let bytes =
        listed.buffer.get(..listed.number as usize * RECORD).ok_or("the list has fewer records than it counts")?;
    let uncut = Uncut::of(block, asked, listed, make)?;
    let stores = stores_in(bytes);
    let mut cut = block.to_vec();
    for (made, (position, word)) in stores.iter().enumerate() {
        let place = format!("cut after {made} of {} stores", stores.len());
        uncut.check(&cut, make).map_err(|fault| format!("{place}: {fault}"))?;
        if position + 4 > cut.len() {
            return Err(format!("{place}: the next is outside of the block"));
        }
        put_word(&mut cut, *position, *word);
    }
    let mut by_model = block.to_vec();
    perform(&mut by_model, &uncut.entry, &mut Coverage::new());
    if cut != uncut.entered.1 || cut != by_model {
        return Err("the block after the last store is not what the insertion gives".to_string());
    }
    Ok(stores.len() as u64 + 1)
}

/// What a block shows by the model's reader, which must find it sound.
fn shown_by(block: &[u8]) -> Result<Shown, String> {
    let store = Store::decode(block).map_err(|flaw| format!("the model finds the block unsound ({flaw:?})"))?;
    Ok((store.root.table(), store.snapshots.map(|snapshot| snapshot.map(|tree| tree.table()))))
}

impl Uncut<'_> {
    /// All that is met on the block before the first store.
    fn of<'a>(block: &[u8], asked: &Asked, listed: &'a Outcome, make: &mut Make) -> Result<Uncut<'a>, String> {
        let (list, entry) = (Call::WriteList(asked.clone()), asked.entry());
        let mut entered = block.to_vec();
        let outcome = make(&mut entered, &entry);
        Ok(Uncut { shown: shown_by(block)?, list, listed, entry, entered: (outcome, entered) })
    }

    /// Judges a cut block: it is sound and shows what it showed, and list and insertion give anew what they gave.
    fn check(&self, cut: &[u8], make: &mut Make) -> Result<(), String> {
        let mut copy = cut.to_vec();
        let judged = make(&mut copy, &Call::Validate).answer;
        if judged != 0 {
            return Err(format!("the block is judged with {judged}"));
        }
        if shown_by(cut)? != self.shown {
            return Err("the root or a slot shows another table".to_string());
        }
        if make(&mut copy, &self.list) != *self.listed || copy != cut {
            return Err("the list asked for anew is another, or the block was touched".to_string());
        }
        if make(&mut copy, &self.entry) != self.entered.0 || copy != self.entered.1 {
            return Err("the insertion made anew gives another block".to_string());
        }
        Ok(())
    }
}
