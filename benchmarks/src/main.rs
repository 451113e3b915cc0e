//! Measures the proved library against a plain program over the same bytes, and against the standard library's map.

mod insertion;
mod labels;
mod orders;
mod pages;
mod plain;
mod printing;
mod proved;
mod removal;
mod room;
mod timing;
mod validation;
mod walk;
mod wear;
mod write_list;

use labels::{Random, SEED};
use plain::{edition_of, put_word, CELL};
use std::collections::BTreeMap;
use std::hint::black_box;
use timing::{measure, Work};

/// The labels that one look-up or next-key measurement asks for.
const QUESTIONS: usize = 2000;

/// The labels that both programs are asked for the pages after.
const PAGES: usize = 50;

/// The serial numbers of the case of 2,000 labels, which leave much of the largest block free.
const SERIALS: usize = 2000;

/// The lots of the case of 2,000 labels with values over inner nodes.
const LOTS: usize = 40;

/// A block, the name of its labels, what was entered into it one after the other, the cells that this took, the map of what was
/// not refused, the labels that it is asked for, those that are removed from it one after the other, and what is left of it then.
#[derive(Clone, Default)]
struct Case {
    name: &'static str,
    fresh: Vec<u8>,
    full: Vec<u8>,
    entered: Vec<(Vec<u8>, u32)>,
    taken: u32,
    map: BTreeMap<Vec<u8>, u32>,
    questions: Vec<Vec<u8>>,
    removed: Vec<Vec<u8>>,
    left: Vec<u8>,
}

/// Prints everything, or the wear of the cells alone where that is asked for.
fn main() {
    match std::env::args().nth(1).as_deref() {
        None => report_all(),
        Some("wear") => wear::report(),
        Some(other) => panic!("nothing, or wear, can be asked for, not {other}"),
    }
}

/// Checks and measures every case, and prints a table of times, one of the room that values over inner nodes take, one of wear.
fn report_all() {
    for cells in [16, 256, 2048] {
        Case::drawn(cells, 2).compare();
    }
    println!("| cells | edition | labels | call | against | proved, ns a call | other, ns a call | ratio, median |");
    println!("|---|---|---|---|---|---|---|---|");
    for case in [Case::drawn(16, 1), Case::drawn(256, 1), Case::drawn(2048, 1), Case::serials(2048)] {
        case.compare();
        case.against_plain();
        case.against_map();
    }
    let lots = [Case::lots(2048, 1), Case::lots(2048, 2)];
    for case in &lots {
        case.compare();
        case.against_plain();
    }
    orders::compare_and_report();
    room::report(&lots);
    wear::report();
}

impl Case {
    /// A block of so many cells, filled with labels as they are drawn until answer 7, that one included.
    fn drawn(cells: usize, edition: u32) -> Case {
        let mut random = Random(SEED ^ cells as u64);
        let mut case = Case::fresh("drawn", cells, edition);
        while case.enter(random.label()) == 0 {}
        let drawn = random.labels(QUESTIONS / 2);
        case.ask(&mut random, drawn)
    }

    /// A block of so many cells with the labels of 2,000 serial numbers; the questions are for other numbers too.
    fn serials(cells: usize) -> Case {
        let others = labels::serials(SERIALS, QUESTIONS / 2);
        Case::fresh("serials", cells, 1).hold(labels::serials(0, SERIALS), others)
    }

    /// A block of so many cells with the labels of lots, boxes and cartridges; the questions are for those of other lots too.
    fn lots(cells: usize, edition: u32) -> Case {
        let others = labels::lots(LOTS, LOTS / 2);
        Case::fresh("in lots", cells, edition).hold(labels::lots(0, LOTS), others)
    }

    /// A fresh block of so many cells, the same from both programs, with nothing entered or asked.
    fn fresh(name: &'static str, cells: usize, edition: u32) -> Case {
        let mut fresh = vec![0xA5; cells * CELL];
        assert_eq!(proved::format(&mut fresh, edition), 0, "a fresh block of edition {edition}");
        assert_eq!(fresh, plain::fresh(cells, edition), "the bytes of a fresh block");
        Case { name, full: fresh.clone(), fresh, ..Case::default() }
    }

    /// Enters labels in mixed order, all of which find room, and asks for others too.
    fn hold(mut self, labels: Vec<Vec<u8>>, others: Vec<Vec<u8>>) -> Case {
        let mut random = Random(SEED ^ labels.len() as u64);
        for label in random.mixed(labels) {
            assert_eq!(self.enter(label), 0, "room for every label");
        }
        self.ask(&mut random, others)
    }

    /// Enters a label with both programs, at once and through a list of stores; all must agree on the answer and every byte.
    fn enter(&mut self, label: Vec<u8>) -> u8 {
        let value = (self.entered.len() * 7919) as u32;
        let mut beside = self.full.clone();
        let listed = write_list::entered(&self.full, &label, value);
        let answer = proved::insert(&mut self.full, &label, value);
        assert_eq!(answer, plain::insert(&mut beside, &label, value), "insertion of {label:?}");
        assert_eq!(self.full, beside, "the bytes after {label:?}");
        let records = if answer.0 == 0 { 8 * answer.1 + 1 } else { 0 };
        assert_eq!(listed, ((answer.0, records), beside), "the list of {label:?} and the bytes after its stores");
        assert!(matches!(answer.0, 0 | 7), "answer {} to a valid insertion", answer.0);
        if answer.0 == 0 {
            self.map.insert(label.clone(), value);
            self.taken += answer.1;
        }
        self.entered.push((label, value));
        answer.0
    }

    /// Asks for the given labels, and for as many that were entered, in mixed order.
    fn ask(mut self, random: &mut Random, others: Vec<Vec<u8>>) -> Case {
        let held: Vec<Vec<u8>> = self.map.keys().cloned().collect();
        let mut questions: Vec<Vec<u8>> = others.iter().map(|_| held[random.below(held.len())].clone()).collect();
        questions.extend(others);
        assert_eq!(questions.len(), QUESTIONS);
        self.questions = random.mixed(questions);
        self.removed = random.mixed(held);
        self.left = self.full.clone();
        self.empty();
        self
    }

    /// Removes every label with both programs, which must agree on the answer and every byte, of labels that are gone too.
    fn empty(&mut self) {
        for label in &self.removed {
            let mut beside = self.left.clone();
            let answer = proved::remove(&mut self.left, label);
            assert_eq!(answer, plain::remove(&mut beside, label), "removal of {label:?}");
            assert_eq!(self.left, beside, "the bytes after {label:?}");
            assert!(matches!(answer.0, 0 | 7), "answer {} to a valid removal", answer.0);
            let again = proved::remove(&mut beside, label);
            assert_eq!(again.0, if answer.0 == 0 { 11 } else { 7 }, "removal of {label:?} again");
            assert_eq!(again, plain::remove(&mut beside, label), "removal of {label:?} again");
        }
    }

    /// Checks that both programs, and the map where it can, answer every question alike, on damaged blocks too.
    fn compare(&self) {
        for label in &self.questions {
            let answer = proved::get(&self.full, label);
            assert_eq!(answer, plain::get(&self.full, label), "look-up of {label:?}");
            assert_eq!(answer, self.map.get(label).map_or((11, 0), |value| (0, *value)), "map look-up of {label:?}");
            let next = proved::next_key(&self.full, label);
            assert_eq!(next, plain::next_key(&self.full, label), "next key after {label:?}");
        }
        pages::compare(&self.full, &self.map, &self.questions[..PAGES]);
        write_list::compare_refusals(&self.full);
        self.compare_damaged();
    }

    /// Checks that both validations agree on blocks with one bit altered, and on the same bytes as a block of another edition.
    fn compare_damaged(&self) {
        let mut random = Random(self.full.len() as u64);
        let (mut damaged, mut sound) = (self.full.clone(), 0);
        for _ in 0..QUESTIONS {
            let place = random.below(damaged.len());
            damaged[place] ^= 1 << random.below(8);
            let answer = proved::validate(&damaged);
            assert_eq!(answer, plain::validate(&damaged), "validation with byte {place} altered");
            sound += usize::from(answer == 0);
            damaged[place] = self.full[place];
        }
        assert!(0 < sound && sound < QUESTIONS, "altered blocks of both sorts");
        for edition in 0..4 {
            let place = damaged.len() - 4;
            put_word(&mut damaged, place, edition);
            let answer = proved::validate(&damaged);
            assert_eq!(answer, plain::validate(&damaged), "validation as a block of edition {edition}");
        }
    }

    /// Measures every call against the plain program.
    fn against_plain(&self) {
        let (full, fills) = (&self.full, self.fills());
        let ours = || self.each(|_| proved::validate(black_box(full)).into());
        self.report("validate", "plain", QUESTIONS, &ours, &|| self.each(|_| plain::validate(black_box(full)).into()));
        let ours = || self.each(|label| proved::get(full, label).1);
        self.report("look-up", "plain", QUESTIONS, &ours, &|| self.each(|label| plain::get(full, label).1));
        let ours = || self.each(|label| proved::next_key(full, label).size);
        self.report("next key", "plain", QUESTIONS, &ours, &|| self.each(|label| plain::next_key(full, label).size));
        let (ours, theirs) = (|| self.fill(fills, proved::insert), || self.fill(fills, plain::insert));
        self.report("insert", "plain", fills * self.entered.len(), &ours, &theirs);
        let ours = || self.fill(fills, write_list::through(proved::write_list));
        let theirs = || self.fill(fills, write_list::through(plain::write_list));
        self.report("write list", "plain", fills * self.entered.len(), &ours, &theirs);
        let (ours, theirs) = (|| self.emptied(fills, proved::remove), || self.emptied(fills, plain::remove));
        self.report("remove", "plain", fills * self.removed.len(), &ours, &theirs);
        pages::report(&self.start(), full, &self.map);
        orders::report_block(&self.start(), full);
    }

    /// Measures look-up and insertion against the standard library's map, which has no block and judges nothing.
    fn against_map(&self) {
        let (map, fills) = (&self.map, self.fills());
        let ours = || self.each(|label| proved::get(&self.full, label).1);
        self.report("look-up", "map", QUESTIONS, &ours, &|| self.each(|label| map.get(label).copied().unwrap_or(0)));
        let (ours, theirs) = (|| self.fill(fills, proved::insert), || self.fill_map(fills));
        self.report("insert", "map", fills * self.entered.len(), &ours, &theirs);
    }

    /// How often a block is filled or emptied in one measurement, so that none is too short for the clock.
    fn fills(&self) -> usize {
        (12_800_000 / (self.full.len() * self.entered.len())).clamp(1, 4000)
    }

    /// Measures one call and prints its line of the table.
    fn report(&self, call: &str, against: &str, calls: usize, ours: &Work, theirs: &Work) {
        let taken = measure(ours, theirs);
        let (ours, theirs) = (taken.ours / calls as f64, taken.theirs / calls as f64);
        println!("{} | {call} | {against} | {ours:.0} | {theirs:.0} | {:.2} |", self.start(), taken.ratio);
    }

    /// The beginning of every line of the table for this case.
    fn start(&self) -> String {
        format!("| {} | {} | {} {}", self.full.len() / CELL, edition_of(&self.full), self.map.len(), self.name)
    }

    /// Asks for every label and adds the numbers up.
    fn each(&self, ask: impl Fn(&[u8]) -> u32) -> u64 {
        self.questions.iter().map(|label| u64::from(ask(black_box(label)))).sum()
    }

    /// Fills fresh blocks with all that was entered, so many times, and adds the counts up.
    fn fill(&self, fills: usize, mut insert: impl FnMut(&mut [u8], &[u8], u32) -> (u8, u32)) -> u64 {
        let mut taken = 0;
        for _ in 0..fills {
            let mut block = self.fresh.clone();
            for (label, value) in &self.entered {
                taken += u64::from(insert(&mut block, black_box(label), *value).1);
            }
            assert!(black_box(block) == self.full);
        }
        taken
    }

    /// Removes all labels from the full block, so many times, and adds the counts up.
    fn emptied(&self, times: usize, remove: impl Fn(&mut [u8], &[u8]) -> (u8, u32)) -> u64 {
        let mut taken = 0;
        for _ in 0..times {
            let mut block = self.full.clone();
            for label in &self.removed {
                taken += u64::from(remove(&mut block, black_box(label)).1);
            }
            assert!(black_box(block) == self.left);
        }
        taken
    }

    /// Fills maps with the same labels, so many times, and adds their sizes up; a label refused by the block is entered here.
    fn fill_map(&self, fills: usize) -> u64 {
        let mut sizes = 0;
        for _ in 0..fills {
            let mut map = BTreeMap::new();
            for (label, value) in &self.entered {
                map.insert(black_box(label).clone(), *value);
            }
            sizes += black_box(map).len() as u64;
        }
        sizes
    }
}
