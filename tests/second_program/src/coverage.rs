//! What the calls have met: answers by call, shapes of nodes, build cases, broken rules.

use crate::counted::{
    BuildCase, Change, Flaw, ListCase, PageCase, Room, SeriesCase, Shape, Spoilt, WearCase, WriteCase, BUILT, SEARCHED,
};
use crate::limits::{all_limits, Limit};
use crate::model::{word_at, CELL, FIRST_EMBEDDED, SPLIT};
use std::collections::BTreeMap;

/// The calls, in the order of `Call::number`.
pub const CALLS: [&str; 12] = [
    "format",
    "validate",
    "insert",
    "get",
    "next_key",
    "snapshot",
    "restore",
    "release",
    "verdict",
    "remove",
    "page",
    "write_list",
];

/// The answers that there are, from 0 on.
const ANSWERS: usize = 16;

/// The answers that each call can give.
const REACHABLE: [&[usize]; CALLS.len()] = [
    &[0, 1],
    &[0, 1, 2],
    &[0, 1, 2, 3, 4, 7],
    &[0, 1, 2, 3, 11],
    &[0, 1, 2, 3, 11],
    &[0, 1, 2, 5],
    &[0, 1, 2, 5, 6],
    &[0, 1, 2, 5, 6],
    &[0, 1, 2, 3, 8, 9, 10, 11, 12, 13, 14],
    &[0, 1, 2, 3, 7, 11],
    &[0, 1, 2, 3, 15],
    &[0, 1, 2, 3, 4, 7, 15],
];

/// The answers that the calls of a list can give: its block is fresh, so none of its own calls gets 1 or 2.
const LISTED: [(usize, &[usize]); 6] =
    [(0, &[0, 1]), (2, &[0, 3, 4, 7]), (5, &[0, 5]), (6, &[0, 5, 6]), (7, &[0, 5, 6]), (9, &[0, 3, 7, 11])];

/// The places at which an embedded prefix's node may stand: those of a chain and, last, the head of a split.
const PLACES: usize = (SPLIT - FIRST_EMBEDDED) as usize + 1;

/// The shapes and order words of one block, and by place the nodes of its embedded prefixes.
#[derive(Default)]
pub struct Met {
    shapes: [u64; Shape::NAMES.len()],
    orders: Vec<u16>,
    places: [u64; PLACES],
}

impl Met {
    /// Counts a shape.
    pub fn add(&mut self, shape: Shape, count: u64) {
        self.shapes[shape as usize] += count;
    }

    /// Counts a sparse node by its number of children, and its order word.
    pub fn sparse(&mut self, children: usize, order: u16) {
        let shapes =
            [Shape::SparseOfTwo, Shape::SparseOfThree, Shape::SparseOfFour, Shape::SparseOfFive, Shape::SparseOfSix];
        self.add(shapes[children - 2], 1);
        self.orders.push(order);
    }

    /// Counts an embedded prefix by its offset.
    pub fn add_embedded(&mut self, offset: u8) {
        self.places[usize::from(offset - FIRST_EMBEDDED)] += 1;
    }

    /// How many embedded prefixes the block has.
    pub fn embedded(&self) -> u64 {
        self.places.iter().sum()
    }
}

/// All counts of a run.
pub struct Coverage {
    pub calls: u64,
    pub large_calls: u64,
    answers: [[u64; ANSWERS]; CALLS.len()],
    shapes: [u64; Shape::NAMES.len()],
    cases: [[u64; BuildCase::NAMES.len()]; BUILT.len()],
    flaws: [u64; Flaw::NAMES.len()],
    rooms: [[u64; Room::NAMES.len()]; BUILT.len()],
    wear: [[u64; WearCase::NAMES.len()]; BUILT.len()],
    /// The last block whose root a restore has moved, as that left it.
    restored: Vec<u8>,
    orders: BTreeMap<u16, u64>,
    places: [u64; PLACES],
    spoilt: [u64; Spoilt::NAMES.len()],
    limits: BTreeMap<Limit, u64>,
    lists: [u64; ListCase::NAMES.len()],
    pages: [u64; PageCase::NAMES.len()],
    series: [u64; SeriesCase::NAMES.len()],
    write_lists: [u64; WriteCase::NAMES.len()],
}

impl Coverage {
    /// Nothing met yet.
    pub fn new() -> Coverage {
        Coverage {
            calls: 0,
            large_calls: 0,
            answers: [[0; ANSWERS]; CALLS.len()],
            shapes: [0; Shape::NAMES.len()],
            cases: [[0; BuildCase::NAMES.len()]; BUILT.len()],
            flaws: [0; Flaw::NAMES.len()],
            rooms: [[0; Room::NAMES.len()]; BUILT.len()],
            wear: [[0; WearCase::NAMES.len()]; BUILT.len()],
            restored: Vec::new(),
            orders: BTreeMap::new(),
            places: [0; PLACES],
            spoilt: [0; Spoilt::NAMES.len()],
            limits: all_limits().into_iter().map(|limit| (limit, 0)).collect(),
            lists: [0; ListCase::NAMES.len()],
            pages: [0; PageCase::NAMES.len()],
            series: [0; SeriesCase::NAMES.len()],
            write_lists: [0; WriteCase::NAMES.len()],
        }
    }

    /// Counts a call by its answer and by the size of its block.
    pub fn call(&mut self, call: usize, answer: u8, block_length: usize) {
        self.calls += 1;
        self.large_calls += u64::from(block_length >= 64 * 32);
        self.answers[call][answer as usize] += 1;
    }

    /// Counts a sound block's shapes.
    pub fn meet(&mut self, met: &Met) {
        for (sum, count) in self.shapes.iter_mut().zip(met.shapes) {
            *sum += count;
        }
        for (sum, count) in self.places.iter_mut().zip(met.places) {
            *sum += count;
        }
        for order in &met.orders {
            *self.orders.entry(*order).or_default() += 1;
        }
    }

    /// Counts a broken rule.
    pub fn flaw(&mut self, flaw: Flaw) {
        self.flaws[flaw as usize] += 1;
    }

    /// Counts a way to spoil an embedded prefix that was refused as it must be.
    pub fn spoilt(&mut self, way: Spoilt) {
        self.spoilt[way as usize] += 1;
    }

    /// Counts the build cases of an accepted change, and those of the search for its cells.
    pub fn built(&mut self, change: Change, cases: &[BuildCase], searched: &[WearCase]) {
        for case in cases {
            self.cases[change as usize][*case as usize] += 1;
        }
        for case in searched {
            self.wear[change as usize][*case as usize] += 1;
        }
    }

    /// Remembers a block that a restore has left, where its root was another before.
    pub fn restored(&mut self, block: &[u8], old_root: u32) {
        if word_at(block, block.len() - CELL) != old_root {
            self.restored = block.to_vec();
        }
    }

    /// Whether a block still is as a restore left it that moved its root.
    pub fn is_restored(&self, block: &[u8]) -> bool {
        self.restored == block
    }

    /// How many values were put into the cells of their nodes.
    pub fn embedded(&self) -> u64 {
        let cases = [BuildCase::EmbeddedPast05, BuildCase::EmbeddedAt05, BuildCase::EmbeddedInHead];
        cases.iter().map(|case| self.cases[0][*case as usize] + self.cases[1][*case as usize]).sum()
    }

    /// Counts a change whose cells meet the free ones closely.
    pub fn room(&mut self, change: Change, count: usize, free: usize) {
        let rooms = &mut self.rooms[change as usize];
        rooms[Room::TookLastFree as usize] += u64::from(count == free && count > 0);
        rooms[Room::OneShort as usize] += u64::from(count == free + 1);
    }

    /// Counts a limit that a call met, if it is one of those that are asked for.
    pub fn limit(&mut self, limit: Limit) {
        if let Some(count) = self.limits.get_mut(&limit) {
            *count += 1;
        }
    }

    /// Counts a case of a list where it holds.
    pub fn list(&mut self, case: ListCase, holds: bool) {
        self.lists[case as usize] += u64::from(holds);
    }

    /// Counts the cases of a page that hold.
    pub fn page(&mut self, cases: &[(PageCase, bool)]) {
        for (case, holds) in cases {
            self.pages[*case as usize] += u64::from(*holds);
        }
    }

    /// Counts the cases of a series of pages that hold.
    pub fn series(&mut self, cases: &[(SeriesCase, bool)]) {
        for (case, holds) in cases {
            self.series[*case as usize] += u64::from(*holds);
        }
    }

    /// Counts the cases of a write list that hold.
    pub fn write_list(&mut self, cases: &[(WriteCase, bool)]) {
        for (case, holds) in cases {
            self.write_lists[*case as usize] += u64::from(*holds);
        }
    }

    /// How many lists were run.
    pub fn lists(&self) -> u64 {
        let ends = [ListCase::AtEnd, ListCase::NotFresh, ListCase::NoCall, ListCase::Full];
        ends.iter().map(|case| self.lists[*case as usize]).sum()
    }

    /// The least count that is asked for: this much in a million calls or more, none in a shorter trial.
    fn demanded(&self, least: u64) -> u64 {
        if self.calls < 1_000_000 { 0 } else { least }
    }

    /// Prints every count and gives the number of those that fall short.
    pub fn report(&self) -> usize {
        let least = self.demanded(1000);
        let mut short = 0;
        for (call, reachable) in REACHABLE.iter().enumerate() {
            short += self.report_answers(call, reachable, least);
        }
        short += print_counts("shapes", Shape::NAMES, &self.shapes, least);
        for (change, (title, cases)) in BUILT.iter().enumerate() {
            let own = cases.iter().map(|case| *case as usize);
            short += print_own(title, BuildCase::NAMES, &self.cases[change], own, least);
            short += print_counts("room", Room::NAMES, &self.rooms[change], least);
            short += self.report_wear(change, least);
        }
        short += print_counts("broken rules", Flaw::NAMES, &self.flaws, least);
        short += print_counts("embedded prefixes spoilt and refused", Spoilt::NAMES, &self.spoilt, least);
        let places: Vec<String> = (FIRST_EMBEDDED..=SPLIT).map(|place| format!("at {place:02X}")).collect();
        let places: Vec<&str> = places.iter().map(String::as_str).collect();
        short += print_counts("nodes of embedded prefixes", &places, &self.places, least);
        short += print_counts("pages", PageCase::NAMES, &self.pages, least);
        short += print_counts("series of pages", SeriesCase::NAMES, &self.series, self.demanded(50));
        short += print_counts("write lists", WriteCase::NAMES, &self.write_lists, least);
        short += self.report_limits();
        let words = self.orders.len();
        println!("order words met: {words} of 436");
        short + usize::from(words != 436) + self.report_large(least)
    }

    /// Prints what the lists met, with the answers of their calls, and gives the number of counts that fall short.
    pub fn report_lists(&self, least: u64) -> usize {
        let mut short = print_counts("lists of calls", ListCase::NAMES, &self.lists, least);
        for (call, reachable) in LISTED {
            short += self.report_answers(call, reachable, least);
        }
        for change in [Change::Insertion, Change::Removal] {
            short += self.report_wear(change as usize, least);
        }
        short + self.report_large(least)
    }

    /// Prints how the searches of a change went and gives the number of cases that fall short.
    fn report_wear(&self, change: usize, least: u64) -> usize {
        let own = SEARCHED[change].iter().map(|case| *case as usize);
        print_own("search for cells", WearCase::NAMES, &self.wear[change], own, least)
    }

    /// Prints a call's answers and gives the number of those that fall short; an answer that it cannot give is one too.
    fn report_answers(&self, call: usize, reachable: &[usize], least: u64) -> usize {
        let answers = &self.answers[call];
        let counts: Vec<String> = reachable.iter().map(|answer| format!("{answer}: {}", answers[*answer])).collect();
        println!("{:<10} {}", CALLS[call], counts.join("  "));
        let inside: u64 = reachable.iter().map(|answer| answers[*answer]).sum();
        let few = reachable.iter().filter(|answer| answers[**answer] < least).count();
        few + usize::from(inside != answers.iter().sum())
    }

    /// Prints how often the rarest limit was met and gives the number of those that fall short.
    fn report_limits(&self) -> usize {
        let least = self.demanded(20);
        let rarest = self.limits.values().min().copied().unwrap_or(0);
        println!("limits met: {}, each at least {rarest} times", self.limits.len());
        let few = self.limits.iter().filter(|(_, count)| **count < least);
        few.clone().for_each(|(limit, count)| println!("    too few: {limit:?} {count}, {least} asked for"));
        few.count()
    }

    /// Prints the share of the larger blocks, which must be a fifth of the calls where any count is asked for.
    fn report_large(&self, least: u64) -> usize {
        println!("calls on blocks of 64 cells or more: {} of {}, a fifth asked for", self.large_calls, self.calls);
        usize::from(least > 0 && self.large_calls * 5 < self.calls)
    }
}

/// Prints a change's own counts and gives the number of those under the least; a case that is not its own is one too.
fn print_own(title: &str, names: &[&str], counts: &[u64], own: impl Iterator<Item = usize>, least: u64) -> usize {
    let (names, own_counts): (Vec<&str>, Vec<u64>) = own.map(|case| (names[case], counts[case])).unzip();
    let strays = usize::from(own_counts.iter().sum::<u64>() != counts.iter().sum());
    strays + print_counts(title, &names, &own_counts, least)
}

/// Prints one family of counts and gives the number of those under the least.
fn print_counts(title: &str, names: &[&str], counts: &[u64], least: u64) -> usize {
    println!("{title}:");
    let pairs: Vec<String> = names.iter().zip(counts).map(|(name, count)| format!("{name} {count}")).collect();
    for line in pairs.chunks(6) {
        println!("    {}", line.join(", "));
    }
    for (name, count) in names.iter().zip(counts).filter(|(_, count)| **count < least) {
        println!("    too few: {name} {count}, {least} asked for");
    }
    counts.iter().filter(|count| **count < least).count()
}
