//! Series of pages: what a block shows after a key, page by page, each page begun after the last key in the bytes of the one
//! before it, until none remain.

use crate::calls::Call;
use crate::compare::Comparison;
use crate::counted::SeriesCase;
use crate::foreign::{foreign_block, junk};
use crate::generate::{Scene, HISTORY};
use crate::model::{Store, Table, EDITIONS, LONGEST_KEY};
use crate::pages::{drawn_bytes, drawn_size, ends_of, long_keys, pairs_in, record, records_after, Page, LEAST_BUFFER};
use crate::random::Random;
use crate::schedule::calls;

/// So many series, each on a block of its own and with its own seed.
pub fn run(comparison: &mut Comparison, count: u64) {
    for number in 0..count {
        comparison.seed = number;
        let mut random = Random::seeded(number + 0x3_0000_0000);
        let cells = drawn_cells(&mut random);
        let (block, history) = match random.below(10) {
            0 => (fresh(comparison, cells, &mut random), true),
            1..=3 => (after_history(comparison, cells, &mut random), true),
            4 | 5 => (of_long_keys(comparison, cells, &mut random), true),
            _ => (foreign_block(cells, LONGEST_KEY, &Scene::drawn(&mut random), &mut random), false),
        };
        match Store::decode(&block) {
            Ok(store) => Series::drawn(block, store, history, &mut random).run(comparison, &mut random),
            Err(_) => comparison.note(&"a series of pages", &block, "a block that was built sound is not"),
        }
    }
}

/// The number of cells of a series' block; few blocks are large, since all of a table is printed.
fn drawn_cells(random: &mut Random) -> usize {
    match random.below(100) {
        0..=7 => random.between(4, 8),
        8..=27 => random.between(9, 30),
        28..=67 => random.between(31, 100),
        68..=98 => random.between(101, 300),
        _ => random.pick(&[512, 1024, 2047, 2048]),
    }
}

/// A fresh block, whose table is empty.
pub fn fresh(comparison: &mut Comparison, cells: usize, random: &mut Random) -> Vec<u8> {
    let mut block = junk(cells, random);
    comparison.step(&mut block, &Call::Format { edition: random.pick(&EDITIONS) });
    block
}

/// A block that calls of all kinds have made.
pub fn after_history(comparison: &mut Comparison, cells: usize, random: &mut Random) -> Vec<u8> {
    let mut scene = Scene::drawn(random);
    let mut block = fresh(comparison, cells, random);
    let count = random.between(5, 60);
    calls(comparison, &mut block, &mut scene, &HISTORY, count, random);
    block
}

/// A block of keys about as long as they may be.
pub fn of_long_keys(comparison: &mut Comparison, cells: usize, random: &mut Random) -> Vec<u8> {
    let mut block = fresh(comparison, cells.max(16), random);
    for key in long_keys(random) {
        comparison.step(&mut block, &Call::Insert { key, value: random.word() >> 1 });
    }
    block
}

/// How the sizes of a series' buffers are drawn.
#[derive(Clone, Copy, PartialEq)]
enum Sizes {
    Least,
    Small,
    ByRecords,
    Any,
}

/// A block with its table, the key after which it is printed, and how.
struct Series {
    block: Vec<u8>,
    store: Store,
    table: Table,
    start: Vec<u8>,
    sizes: Sizes,
    history: bool,
}

impl Series {
    /// Draws where to begin and how large the buffers are: a long table is not printed in the smallest ones.
    fn drawn(block: Vec<u8>, store: Store, history: bool, random: &mut Random) -> Series {
        let table = store.root.table();
        let start = drawn_start(&table, random);
        let sizes = match records_after(&table, &start).len() {
            0..=100 => random.pick(&[Sizes::Least, Sizes::Small, Sizes::ByRecords, Sizes::ByRecords, Sizes::Any]),
            _ => random.pick(&[Sizes::ByRecords, Sizes::Any, Sizes::Any]),
        };
        Series { block, store, table, start, sizes, history }
    }

    /// Prints all pages, and holds the bytes used, joined, against one page with room for all, the sorted list of pairs, and the
    /// walk from key to key.
    fn run(&mut self, comparison: &mut Comparison, random: &mut Random) {
        let Some(pages) = self.all_pages(comparison, random) else {
            return;
        };
        let joined: Vec<u8> = pages.iter().flat_map(|(used, _)| used).copied().collect();
        let size = joined.len().max(LEAST_BUFFER) + random.pick(&[0, 0, 1, 400]);
        let one = Page { key: self.start.clone(), buffer: drawn_bytes(size, random) };
        let printed = comparison.step(&mut self.block, &Call::Page(one.clone()));
        if printed.page.more != 0 || printed.buffer[..printed.page.used as usize] != joined {
            comparison.note(&one, &self.block, "one page with room for all is not the pages joined");
        }
        if records_after(&self.table, &self.start).concat() != joined {
            comparison.note(&one, &self.block, "the pages joined are not the table's records in order");
        }
        if self.walked(comparison) != joined {
            comparison.note(&one, &self.block, "the pages joined are not what the walk from key to key gives");
        }
        self.meet(&pages, comparison);
    }

    /// The bytes used of each page and the size of its buffer; nothing where a page goes wrong, which is noted.
    fn all_pages(&mut self, comparison: &mut Comparison, random: &mut Random) -> Option<Vec<(Vec<u8>, usize)>> {
        let mut pages = Vec::new();
        let mut key = self.start.clone();
        loop {
            let size = self.drawn_size(&key, random);
            let asked = Page { key, buffer: drawn_bytes(size, random) };
            let outcome = comparison.step(&mut self.block, &Call::Page(asked.clone()));
            let used = outcome.buffer[..outcome.page.used as usize].to_vec();
            let last = pairs_in(&used).and_then(|pairs| pairs.into_iter().last());
            pages.push((used, size));
            if outcome.answer == 0 && outcome.page.more == 0 {
                return Some(pages);
            }
            let Some((last, _)) = last.filter(|(last, _)| *last > asked.key) else {
                comparison.note(&asked, &self.block, "a page of a series does not go on");
                return None;
            };
            key = last;
        }
    }

    /// The size of the buffer for the page after a key, never under the least.
    fn drawn_size(&self, key: &[u8], random: &mut Random) -> usize {
        let ends = ends_of(&records_after(&self.table, key));
        let all = ends.last().copied().unwrap_or(0);
        let share = all / random.between(1, 8);
        match self.sizes {
            Sizes::Least => LEAST_BUFFER,
            Sizes::Small => random.between(LEAST_BUFFER, 2 * LEAST_BUFFER + 20),
            Sizes::ByRecords => drawn_size(&ends, random).max(LEAST_BUFFER + all / 20),
            Sizes::Any => random.between(LEAST_BUFFER, LEAST_BUFFER + share),
        }
    }

    /// The records that the calls for the next key and for its value give.
    fn walked(&mut self, comparison: &mut Comparison) -> Vec<u8> {
        let mut records = Vec::new();
        let mut key = self.start.clone();
        loop {
            let next = comparison.step(&mut self.block, &Call::NextKey { key });
            if next.answer != 0 {
                return records;
            }
            key = next.key[..next.number as usize].to_vec();
            let found = comparison.step(&mut self.block, &Call::Get { key: key.clone() });
            records.extend(record(&key, found.number));
        }
    }

    /// Counts what the series met in its block, its start and its pages.
    fn meet(&self, pages: &[(Vec<u8>, usize)], comparison: &mut Comparison) {
        let Series { store, table, start, sizes, history, .. } = self;
        let records = records_after(table, start);
        let (last, size) = &pages[pages.len() - 1];
        let several = pages.len() > 1;
        let shown = table.contains_key(start);
        comparison.coverage.series(&[
            (SeriesCase::EmptyTable, table.is_empty()),
            (SeriesCase::NothingAfterKey, !table.is_empty() && records.is_empty()),
            (SeriesCase::OnePage, !several && !records.is_empty()),
            (SeriesCase::TwoPages, pages.len() == 2),
            (SeriesCase::TenPages, pages.len() >= 10),
            (SeriesCase::HundredRecords, several && records.len() >= 100),
            (SeriesCase::LeastBuffersOnly, several && *sizes == Sizes::Least),
            (SeriesCase::OneRecordEach, several && pages.len() == records.len()),
            (SeriesCase::LastFitsExactly, several && last.len() == *size),
            (SeriesCase::FromEmptyKey, several && start.is_empty()),
            (SeriesCase::AfterShown, several && shown),
            (SeriesCase::AfterAbsent, several && !shown && !start.is_empty()),
            (SeriesCase::LongestRecord, several && records.iter().any(|record| record.len() == LEAST_BUFFER)),
            (SeriesCase::OfHistory, several && *history),
            (SeriesCase::OfForeign, several && !*history),
            (SeriesCase::EditionOne, several && store.edition == 1),
            (SeriesCase::EditionTwo, several && store.edition == 2),
            (SeriesCase::WithEmbedded, several && store.met.embedded() > 0),
            (SeriesCase::WithSnapshot, several && store.snapshots.iter().any(Option::is_some)),
        ]);
    }
}

/// The key after which a series begins: mostly empty, else one that is shown, begins one, or is any.
fn drawn_start(table: &Table, random: &mut Random) -> Vec<u8> {
    let place = random.below(table.len().max(1));
    match (random.below(10), table.keys().nth(place)) {
        (0 | 1, Some(key)) => key.clone(),
        (2, Some(key)) => key[..random.below(key.len())].to_vec(),
        (3, _) => drawn_bytes(random.between(1, LONGEST_KEY), random),
        _ => Vec::new(),
    }
}
