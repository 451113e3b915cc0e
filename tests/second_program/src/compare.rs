//! One call, or one list of them, on both programs: answers, values and every byte of the block are compared.

use crate::calls::{perform, Call, Outcome};
use crate::coverage::Coverage;
use crate::cuts::{cut, Make};
use crate::display::{block_in_words, differing_bytes, differing_cells, hexadecimal, page_in_words, stores_in_words};
use crate::ledger::Ledger;
use crate::lists::{run, Ended, List, NOT_FRESH};
use crate::model::Store;
use crate::write_list::Asked;
use std::fmt::Debug;

/// The other program's way to make a call and a list of calls, and to judge an order word.
#[derive(Clone, Copy)]
pub struct Other {
    pub call: fn(&mut [u8], &Call) -> Outcome,
    pub list: fn(&mut List) -> Ended,
    /// Whether an order word is valid.
    pub order_word: fn(u16) -> bool,
}

/// The most differences that are kept to be printed at the end.
const KEPT: usize = 4;

/// One write list in so many is cut where there is no other program: by the model's own calls it takes long.
#[cfg(alone)]
const ALONE_LISTS: u64 = 16;

/// The counts of a run, its differences, and the other program where there is one.
pub struct Comparison {
    pub coverage: Coverage,
    /// What the lists and the calls in them met.
    pub listed: Coverage,
    pub differences: u64,
    /// The write lists whose stores were cut, and at how many places in all.
    pub cut_lists: u64,
    pub cuts: u64,
    pub seed: u64,
    other: Option<Other>,
    traced: bool,
    /// Differences on small blocks, each with the size of its block and its text.
    kept: Vec<(usize, String)>,
}

impl Comparison {
    /// Nothing compared yet; a traced run prints each call before it is made, to find one that never comes back.
    pub fn new(other: Option<Other>, traced: bool) -> Comparison {
        let (coverage, listed) = (Coverage::new(), Coverage::new());
        let (cut_lists, cuts, kept) = (0, 0, Vec::new());
        Comparison { coverage, listed, differences: 0, cut_lists, cuts, seed: 0, other, traced, kept }
    }

    /// Makes a call on the block, compares, and leaves the model's bytes in the block.
    pub fn step(&mut self, block: &mut Vec<u8>, call: &Call) -> Outcome {
        let before = block.clone();
        if self.traced {
            eprintln!("{call:02X?} on {}", hexadecimal(&before));
        }
        let own = perform(block, call, &mut self.coverage);
        if let Some(other) = self.other {
            let mut their_block = before.clone();
            let their = (other.call)(&mut their_block, call);
            if own != their || *block != their_block {
                let cells = differing_cells(block, &their_block);
                let bytes = differing_bytes(&own.buffer, &their.buffer);
                let (own, their) = (describe(call, &own), describe(call, &their));
                let what = format!("the model answers   {own}\nthe library answers {their}{cells}{bytes}");
                self.note(call, &before, &what);
            }
            if let (Call::WriteList(asked), 0) = (call, their.answer) {
                self.cut(&before, asked, &their, &mut |block, call| (other.call)(block, call));
            }
        }
        #[cfg(alone)]
        if let (Call::WriteList(asked), 0, 0) = (call, own.answer, self.coverage.calls % ALONE_LISTS) {
            self.cut_alone(&before, asked, &own);
        }
        #[cfg(alone)]
        if let Err(fault) = crate::invariants::check(&before, block, call, &own) {
            self.note(call, &before, &fault);
        }
        own
    }

    /// Cuts a write list at every place, by the program that made it.
    fn cut(&mut self, block: &[u8], asked: &Asked, listed: &Outcome, make: &mut Make) {
        match cut(block, asked, listed, make) {
            Ok(places) => {
                self.cut_lists += 1;
                self.cuts += places;
            }
            Err(fault) => self.note(&format_args!("write list {asked:?}"), block, &fault),
        }
    }

    /// Cuts a write list at every place, by the model.
    #[cfg(alone)]
    pub fn cut_alone(&mut self, block: &[u8], asked: &Asked, listed: &Outcome) {
        let mut coverage = Coverage::new();
        self.cut(block, asked, listed, &mut |block, call| perform(block, call, &mut coverage));
    }

    /// Prints how often write lists were cut, and gives one where that falls short; without another program it cannot.
    pub fn report_cuts(&self) -> usize {
        let least = if self.other.is_some() && self.coverage.calls >= 1_000_000 { 1_000_000 } else { 0 };
        println!("write lists cut: {}, at {} places, {least} asked for", self.cut_lists, self.cuts);
        usize::from(self.cuts < least)
    }

    /// Makes a call of a history and holds its answer and the block against the ledger.
    pub fn step_with_ledger(&mut self, block: &mut Vec<u8>, call: &Call, ledger: &mut Ledger) -> Outcome {
        let before = block.clone();
        let outcome = self.step(block, call);
        let Some(expected) = ledger.feed(call, outcome.answer == 7) else {
            return outcome;
        };
        if expected != outcome.answer {
            self.note(call, &before, &format!("the ledger says {expected}, the model {}", outcome.answer));
        }
        let shown = Store::decode(block).is_ok_and(|store| ledger.shown_by(&store));
        if !shown {
            self.note(call, &before, "the block does not show the ledger's tables");
        }
        outcome
    }

    /// Runs a list of calls, compares its end, its count, every answer byte and every byte of the block, and holds the
    /// answers and the last block against the ledger.
    pub fn list(&mut self, list: List) {
        let mut own = list.clone();
        if self.traced {
            eprintln!("{} on {} bytes", hexadecimal(&list.bytes), list.block.len());
        }
        let (ended, made) = run(&mut own, &mut self.listed);
        if let Some(other) = self.other {
            let mut their = list.clone();
            let their_end = (other.list)(&mut their);
            if ended != their_end || own != their {
                let (answers, their_answers) = (hexadecimal(&own.answers), hexadecimal(&their.answers));
                let cells = differing_cells(&own.block, &their.block);
                let ends = format!("the model   {ended:?} {answers}\nthe library {their_end:?} {their_answers}{cells}");
                self.note(&list, &list.block, &ends);
            }
        }
        let mut ledger = Ledger::default();
        let fed = made.iter().zip(&own.answers).all(|(call, answer)| ledger.feed(call, *answer == 7) == Some(*answer));
        let shown = ended.number == NOT_FRESH || Store::decode(&own.block).is_ok_and(|store| ledger.shown_by(&store));
        if !fed || !shown {
            let what = "a list's answers or its last block are not the ledger's";
            self.note(&list, &list.block, what);
        }
    }

    /// Asks the other program whether an order word is valid.
    pub fn order_word(&mut self, word: u16, valid: bool) {
        if let Some(other) = self.other {
            if (other.order_word)(word) != valid {
                self.note(&format_args!("order word {word:04X}"), &[], &format!("it is valid: {valid}, by the model"));
            }
        }
    }

    /// Counts a difference; the first is printed at once, of the others those on the smallest blocks are kept.
    pub fn note(&mut self, call: &dyn Debug, before: &[u8], what: &str) {
        self.differences += 1;
        let first = self.differences == 1;
        let largest = self.kept.last().filter(|_| self.kept.len() == KEPT).map_or(usize::MAX, |(size, _)| *size);
        if !first && before.len() >= largest {
            return;
        }
        let block = block_in_words(before);
        let text = format!("DIFFERENCE in the scene of seed {}\ncall: {call:02X?}\n{block}\n{what}", self.seed);
        if first {
            return println!("{text}");
        }
        self.kept.push((before.len(), text));
        self.kept.sort_by_key(|(size, _)| *size);
        self.kept.truncate(KEPT);
    }

    /// Prints the differences that were kept.
    pub fn print_kept(&self) {
        self.kept.iter().for_each(|(_, text)| println!("{text}"));
    }
}

/// An outcome in words.
fn describe(call: &Call, outcome: &Outcome) -> String {
    let in_words = match call {
        Call::Page(_) => Some(page_in_words(outcome)),
        Call::WriteList(_) => Some(stores_in_words(outcome)),
        _ => None,
    };
    if let Some(records) = in_words {
        return format!("{}, {} records, {records}", outcome.answer, outcome.number);
    }
    let key = hexadecimal(&outcome.key);
    format!("{}, number {}, key {key}, dose {:08X}", outcome.answer, outcome.number, outcome.dose)
}
