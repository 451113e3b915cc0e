//! The limits of the specification, met exactly and missed by one step: which of them a call meets, and calls for each.

use crate::calls::{valid_length, Call};
use crate::compare::Comparison;
use crate::coverage::CALLS;
use crate::foreign::{foreign_block, junk};
use crate::generate::Scene;
use crate::model::{CELL, EDITIONS, LONGEST_KEY};
use crate::pages::{drawn_bytes, Page, LEAST_BUFFER};
use crate::random::Random;
use crate::sweeps::{block_of_value, insert, question};
use crate::verdict::{celsius, day_number, Question, CELSIUS, FAHRENHEIT, GATE_AT_LEAST, GATE_BETWEEN};
use crate::write_list::{drawn_write_list, Asked};

/// A number of the sheet or the reading.
#[derive(Clone, Copy, Debug, PartialEq, Eq, PartialOrd, Ord)]
pub enum Number {
    Section,
    Length,
    AtLeast,
    BetweenLow,
    BetweenHigh,
    Celsius,
    Fahrenheit,
}

/// A limit that a call meets. It counts only where no answer before it hides it; calls by `Call::number`.
#[derive(Clone, Copy, Debug, PartialEq, Eq, PartialOrd, Ord)]
pub enum Limit {
    /// A call on a block of so many bytes.
    Block(usize, usize),
    /// A call with a key of so many bytes.
    Key(usize, usize),
    /// A call with a value.
    Value(usize, u32),
    /// A call on a slot.
    Slot(usize, u32),
    /// A number of the sheet or the reading, by its bits.
    Number(Number, u32),
    /// How many steps the reading in Celsius lies over a limit of the gate.
    Gate(Number, i32),
    /// The edition that a fresh block is asked for by.
    Edition(u32),
    Today([u32; 3]),
    Held(u32),
    /// How many days today lies past the expiry day.
    Past(i32),
    /// The bytes lent to a page.
    Buffer(usize),
}

const KEYS: [usize; 6] = [0, 1, 47, 48, 49, 255];
const VALUES: [u32; 4] = [2_147_483_646, 2_147_483_647, 2_147_483_648, 4_294_967_295];
const SLOTS: [u32; 6] = [0, 1, 3, 4, 255, 4_294_967_295];
const CELLS: [usize; 5] = [3, 4, 2047, 2048, 2049];
const ASKED_EDITIONS: [u32; 8] = [0, 1, 2, 3, 256, 257, 258, u32::MAX];
const LAST_DAY: [u32; 3] = [2199, 12, 31];
const BUFFERS: [usize; 6] = [0, 1, LEAST_BUFFER - 1, LEAST_BUFFER, LEAST_BUFFER + 1, 65_536];
const DAYS: [[u32; 3]; 6] = [[1999, 12, 31], [2000, 1, 1], LAST_DAY, [2200, 1, 1], [2100, 2, 28], [2100, 2, 29]];

/// The bounds of each number.
const BOUNDS: [(Number, f32, f32); 7] = [
    (Number::Section, 0.5, 100.0),
    (Number::Length, 1.0, 10_000.0),
    (Number::AtLeast, -100.0, 400.0),
    (Number::BetweenLow, -100.0, 400.0),
    (Number::BetweenHigh, -100.0, 400.0),
    (Number::Celsius, -100.0, 400.0),
    (Number::Fahrenheit, -100.0, 400.0),
];

/// The bytes of so many cells, and one more and one less.
fn lengths(cells: usize) -> [usize; 3] {
    [cells * CELL - 1, cells * CELL, cells * CELL + 1]
}

/// Two bounds, with the next number on either side of each.
fn about(low: f32, high: f32) -> [f32; 6] {
    [low.next_down(), low, low.next_up(), high.next_down(), high, high.next_up()]
}

/// A date as the number that a block holds.
fn packed([year, month, day]: [u32; 3]) -> u32 {
    year * 512 + month * 32 + day
}

/// Every limit that a run must meet.
pub fn all_limits() -> Vec<Limit> {
    let mut limits = Vec::new();
    let blocks = CELLS.into_iter().flat_map(lengths);
    limits.extend(blocks.flat_map(|bytes| (0..CALLS.len()).map(move |call| Limit::Block(call, bytes))));
    limits.extend(KEYS.into_iter().flat_map(|bytes| [2, 3, 4, 8, 9, 10, 11].map(|call| Limit::Key(call, bytes))));
    limits.extend(VALUES.into_iter().flat_map(|value| [2, 11].map(|call| Limit::Value(call, value))));
    limits.extend(SLOTS.into_iter().flat_map(|slot| [5, 6, 7].map(|call| Limit::Slot(call, slot))));
    for (number, low, high) in BOUNDS {
        limits.extend(about(low, high).map(|bound| Limit::Number(number, bound.to_bits())));
    }
    for number in [Number::AtLeast, Number::BetweenLow, Number::BetweenHigh] {
        limits.extend([-1, 0, 1].map(|steps| Limit::Gate(number, steps)));
    }
    limits.extend(ASKED_EDITIONS.map(Limit::Edition));
    limits.extend(DAYS.map(Limit::Today));
    limits.extend(DAYS.map(|day| Limit::Held(packed(day))));
    limits.extend([-1, 0, 1].map(Limit::Past));
    limits.extend(BUFFERS.map(Limit::Buffer));
    limits
}

/// What may be a limit in a call on a block of so many bytes, as far as its answer lets it be seen.
pub fn limits_met(block_length: usize, call: &Call, answer: u8) -> Vec<Limit> {
    let number = call.number();
    let mut limits = vec![Limit::Block(number, block_length)];
    if let (Call::Format { edition }, true) = (call, valid_length(block_length)) {
        limits.push(Limit::Edition(*edition));
    }
    if (1..=2).contains(&answer) {
        return limits;
    }
    match call {
        Call::Format { .. } | Call::Validate => {}
        Call::Insert { key, value } | Call::WriteList(Asked { key, value, .. }) => {
            limits.push(Limit::Key(number, key.len()));
            limits.extend((answer != 3).then_some(Limit::Value(number, *value)));
        }
        Call::Get { key } | Call::NextKey { key } | Call::Remove { key } => {
            limits.push(Limit::Key(number, key.len()));
        }
        Call::Page(page) => {
            limits.push(Limit::Key(number, page.key.len()));
            limits.extend((answer != 3).then_some(Limit::Buffer(page.buffer.len())));
        }
        Call::Snapshot { slot } | Call::Restore { slot } | Call::Release { slot } => {
            limits.push(Limit::Slot(number, *slot));
        }
        Call::Verdict(question) => {
            limits.push(Limit::Key(number, question.label.len()));
            limits.extend(question_limits(question, answer));
        }
    }
    limits
}

/// The limits of a question's sheet, reading and day, each where the answers before it don't apply.
fn question_limits(question: &Question, answer: u8) -> Vec<Limit> {
    let reached = |refusal: u8| answer == 0 || answer >= refusal;
    let Question { year, month, day, unit, degrees, kind, low, high, section, length, .. } = question;
    let mut numbers = vec![(8, Number::Section, section), (8, Number::Length, length)];
    match *kind {
        GATE_AT_LEAST => numbers.push((8, Number::AtLeast, low)),
        GATE_BETWEEN => numbers.extend([(8, Number::BetweenLow, low), (8, Number::BetweenHigh, high)]),
        _ => {}
    }
    match *unit {
        CELSIUS => numbers.push((9, Number::Celsius, degrees)),
        FAHRENHEIT => numbers.push((9, Number::Fahrenheit, degrees)),
        _ => {}
    }
    numbers.retain(|(refusal, _, _)| reached(*refusal));
    let mut limits: Vec<Limit> =
        numbers.iter().map(|(_, number, held)| Limit::Number(*number, held.to_bits())).collect();
    limits.extend(reached(10).then_some(Limit::Today([*year, *month, *day])));
    if let (0 | 14, Some(reading)) = (answer, celsius(*unit, *degrees)) {
        let gate = numbers.iter().filter(|(_, number, _)| (Number::AtLeast..=Number::BetweenHigh).contains(number));
        limits.extend(gate.filter_map(|(_, number, limit)| Some(Limit::Gate(*number, steps_over(reading, **limit)?))));
    }
    limits
}

/// How many steps a reading lies over a limit, where it is at most one.
fn steps_over(reading: f32, limit: f32) -> Option<i32> {
    match reading {
        _ if reading == limit => Some(0),
        _ if reading == limit.next_up() => Some(1),
        _ if reading == limit.next_down() => Some(-1),
        _ => None,
    }
}

/// The limits of the value that a block holds for a question's label.
pub fn held_limits(question: &Question, held: u32, answer: u8) -> Vec<Limit> {
    let days = |[year, month, day]: [u32; 3]| day_number(year, month, day).map(|number| number as i32);
    let expiry = days([held / 512, held / 32 % 16, held % 32]);
    match (answer, days([question.year, question.month, question.day]), expiry) {
        (12, _, _) => vec![Limit::Held(held)],
        (0 | 13 | 14, Some(today), Some(expiry)) => vec![Limit::Held(held), Limit::Past(today - expiry)],
        _ => Vec::new(),
    }
}

/// Calls that meet every limit, on blocks of several sizes, so many times each.
pub fn run(comparison: &mut Comparison) {
    for round in 0..20 {
        comparison.seed = round;
        let mut random = Random::seeded(round + 0x1_0000_0000);
        CELLS.into_iter().for_each(|cells| block_lengths(comparison, cells, &mut random));
        for cells in [4, 8, random.between(9, 63), random.between(64, 512), 2048] {
            arguments(comparison, cells, &mut random);
        }
        sheets(comparison);
        days(comparison);
    }
}

/// Every call on a block that would be sound but for its length.
fn block_lengths(comparison: &mut Comparison, cells: usize, random: &mut Random) {
    let scene = Scene::drawn(random);
    let whole = foreign_block(cells, LONGEST_KEY, &scene, random);
    for bytes in lengths(cells) {
        let mut block = whole.clone();
        block.resize(bytes, 0);
        let key = vec![0x41];
        let asked = Call::Verdict(question(2025, 3, 7));
        let (get, next) = (Call::Get { key: key.clone() }, Call::NextKey { key: key.clone() });
        let (snapshot, restore, release) =
            (Call::Snapshot { slot: 3 }, Call::Restore { slot: 3 }, Call::Release { slot: 3 });
        let page = page_after(&key, LEAST_BUFFER, random);
        let list = Call::WriteList(drawn_write_list(&block, key.clone(), packed([2025, 3, 7]), random));
        let (insert, remove) = (insert(&key, packed([2025, 3, 7])), Call::Remove { key });
        let format = Call::Format { edition: scene.edition };
        let rest = [list, insert, get, next, page, snapshot, restore, release, asked, remove, format];
        for call in [Call::Validate].iter().chain(&rest) {
            comparison.step(&mut block, call);
        }
    }
}

/// Keys, values, buffers and slots at their limits on a fresh block.
fn arguments(comparison: &mut Comparison, cells: usize, random: &mut Random) {
    let mut block = junk(cells, random);
    for edition in ASKED_EDITIONS.into_iter().chain([random.pick(&EDITIONS)]) {
        comparison.step(&mut block, &Call::Format { edition });
    }
    for size in KEYS {
        let key = vec![random.pick(&[0x00, 0x41, 0xFF]); size];
        let list = drawn_write_list(&block, key.clone(), packed([2025, 3, 7]), random);
        comparison.step(&mut block, &Call::WriteList(list));
        comparison.step(&mut block, &insert(&key, packed([2025, 3, 7])));
        comparison.step(&mut block, &Call::Get { key: key.clone() });
        comparison.step(&mut block, &Call::NextKey { key: key.clone() });
        comparison.step(&mut block, &page_after(&key, LEAST_BUFFER, random));
        comparison.step(&mut block, &Call::Verdict(Question { label: key.clone(), ..question(2025, 3, 7) }));
        comparison.step(&mut block, &Call::Remove { key: key.clone() });
        comparison.step(&mut block, &insert(&key, packed([2025, 3, 7])));
    }
    for value in VALUES {
        let key = vec![random.byte()];
        comparison.step(&mut block, &insert(&key, value));
        let list = drawn_write_list(&block, key, value, random);
        comparison.step(&mut block, &Call::WriteList(list));
    }
    for size in BUFFERS {
        comparison.step(&mut block, &page_after(&[], size, random));
    }
    for slot in SLOTS {
        for call in [Call::Restore { slot }, Call::Release { slot }, Call::Snapshot { slot }, Call::Restore { slot }] {
            comparison.step(&mut block, &call);
        }
    }
}

/// A page after a key into so many random bytes.
fn page_after(key: &[u8], size: usize, random: &mut Random) -> Call {
    Call::Page(Page { key: key.to_vec(), buffer: drawn_bytes(size, random) })
}

/// Every number of sheet and reading at its bounds, all else valid; then readings at the limits of a gate.
fn sheets(comparison: &mut Comparison) {
    let mut block = block_of_value(packed([2025, 3, 7]));
    for (number, low, high) in BOUNDS {
        for bound in about(low, high) {
            comparison.step(&mut block, &Call::Verdict(with_number(number, bound)));
        }
    }
    for number in [Number::AtLeast, Number::BetweenLow, Number::BetweenHigh] {
        for degrees in [20.0f32.next_down(), 20.0, 20.0f32.next_up()] {
            comparison.step(&mut block, &Call::Verdict(Question { degrees, ..with_number(number, 20.0) }));
        }
    }
}

/// A valid question but for one number.
fn with_number(number: Number, bound: f32) -> Question {
    let asked = question(2025, 3, 7);
    match number {
        Number::Section => Question { section: bound, ..asked },
        Number::Length => Question { length: bound, ..asked },
        Number::AtLeast => Question { kind: GATE_AT_LEAST, low: bound, ..asked },
        Number::BetweenLow => Question { kind: GATE_BETWEEN, low: bound, high: 400.0, ..asked },
        Number::BetweenHigh => Question { kind: GATE_BETWEEN, low: -100.0, high: bound, ..asked },
        Number::Celsius => Question { unit: CELSIUS, degrees: bound, ..asked },
        Number::Fahrenheit => Question { unit: FAHRENHEIT, degrees: bound, ..asked },
    }
}

/// The first and the last day, and the days outside, as today and as the held date; the days about the expiry day.
fn days(comparison: &mut Comparison) {
    for [year, month, day] in DAYS {
        comparison.step(&mut block_of_value(packed(LAST_DAY)), &Call::Verdict(question(year, month, day)));
        comparison.step(&mut block_of_value(packed([year, month, day])), &Call::Verdict(question(2000, 1, 1)));
    }
    for day in [6, 7, 8] {
        comparison.step(&mut block_of_value(packed([2025, 3, 7])), &Call::Verdict(question(2025, 3, day)));
    }
}
