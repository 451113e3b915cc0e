//! Pages: the sorted list of a table's pairs as records, cut before the first that ends past the buffer; and pages to ask for.

use crate::calls::Outcome;
use crate::counted::PageCase;
use crate::coverage::Coverage;
use crate::display::{buffer_in_words, hexadecimal};
use crate::model::{Table, LONGEST_KEY};
use crate::random::Random;
use std::fmt::{Debug, Formatter};
use std::ops::Bound;

/// The least buffer that is taken: a length byte, the longest key and a word.
pub const LEAST_BUFFER: usize = 1 + LONGEST_KEY + 4;

/// What a page is asked for with: the key after which it begins, and the buffer with whatever stands in it.
#[derive(Clone)]
pub struct Page {
    pub key: Vec<u8>,
    pub buffer: Vec<u8>,
}

/// What a page gives beside its answer, the number of its records and its buffer; no other call gives any of it.
#[derive(Clone, Copy, Debug, Default, PartialEq, Eq)]
pub struct Printed {
    pub used: u32,
    /// 1 if records remain, 0 if not.
    pub more: u32,
}

impl Debug for Page {
    /// The key and the size of the buffer, with its first bytes, for a difference.
    fn fmt(&self, formatter: &mut Formatter) -> std::fmt::Result {
        let (key, buffer) = (hexadecimal(&self.key), buffer_in_words(&self.buffer));
        write!(formatter, "after key '{key}' into {buffer}")
    }
}

/// The record of a pair: the key's length in one byte, the key, the value as a word.
pub fn record(key: &[u8], value: u32) -> Vec<u8> {
    let length = u8::try_from(key.len()).expect("a key of a table");
    [&[length], key, &value.to_be_bytes()].concat()
}

/// The records of all keys of a table that are greater than a key, in order.
pub fn records_after(table: &Table, key: &[u8]) -> Vec<Vec<u8>> {
    let greater = table.range::<[u8], _>((Bound::Excluded(key), Bound::Unbounded));
    greater.map(|(key, value)| record(key, *value)).collect()
}

/// Where each record ends when all are written one behind the other.
pub fn ends_of(records: &[Vec<u8>]) -> Vec<usize> {
    let longer = |end: &mut usize, record: &Vec<u8>| {
        *end += record.len();
        Some(*end)
    };
    records.iter().scan(0, longer).collect()
}

/// The pairs whose records some bytes are, one behind the other; nothing where they are no whole records.
pub fn pairs_in(bytes: &[u8]) -> Option<Vec<(Vec<u8>, u32)>> {
    let mut pairs = Vec::new();
    let mut rest = bytes;
    while let Some((length, past)) = rest.split_first() {
        let (key, past) = past.split_at_checked(usize::from(*length))?;
        let (value, past) = past.split_first_chunk()?;
        pairs.push((key.to_vec(), u32::from_be_bytes(*value)));
        rest = past;
    }
    Some(pairs)
}

/// The page of a sound block's table: as many of the records after the key as end inside the buffer.
pub fn page(table: &Table, asked: &Page, coverage: &mut Coverage) -> Outcome {
    let Page { key, buffer } = asked;
    if key.len() > LONGEST_KEY {
        return Outcome::bare(3);
    }
    if buffer.len() < LEAST_BUFFER {
        return Outcome::bare(15);
    }
    let records = records_after(table, key);
    let ends = ends_of(&records);
    let count = ends.partition_point(|end| *end <= buffer.len());
    meet_printed(table, asked, &ends, count, coverage);
    let mut bytes = records[..count].concat();
    let (used, more) = (bytes.len() as u32, u32::from(count < records.len()));
    bytes.extend_from_slice(&buffer[bytes.len()..]);
    Outcome { page: Printed { used, more }, buffer: bytes, ..Outcome::done(count as u32) }
}

/// Counts what a page met: how the first records, so many of all by their ends, meet the buffer, and the key among the others.
fn meet_printed(table: &Table, asked: &Page, ends: &[usize], count: usize, coverage: &mut Coverage) {
    let Page { key, buffer } = asked;
    let (room, more) = (buffer.len(), count < ends.len());
    let used = if count == 0 { 0 } else { ends[count - 1] };
    let (exact, short) = (used == room, more && ends[count] == room + 1);
    let longest = ends.first() == Some(&LEAST_BUFFER);
    let shown = table.contains_key(key);
    let begins = |other: &Vec<u8>| other.len() > key.len() && other.starts_with(key);
    coverage.page(&[
        (PageCase::LeastBuffer, room == LEAST_BUFFER),
        (PageCase::HugeBuffer, room >= 0x1_0000),
        (PageCase::ExactFitOfOne, exact && count == 1),
        (PageCase::ExactFitOfTwo, exact && count == 2),
        (PageCase::ExactFitOfMore, exact && count > 2),
        (PageCase::ExactWithMore, exact && more),
        (PageCase::ExactToTheLast, exact && !more),
        (PageCase::OneByteShort, short && count + 1 < ends.len()),
        (PageCase::OneByteShortOfLast, short && count + 1 == ends.len()),
        (PageCase::OneByteOver, used + 1 == room),
        (PageCase::LongestRecord, longest),
        (PageCase::TenRecords, count >= 10),
        (PageCase::RoomForAll, count > 0 && !more && !exact),
        (PageCase::NothingLeft, ends.is_empty() && !table.is_empty()),
        (PageCase::NothingAtAll, key.is_empty() && table.is_empty()),
        (PageCase::FromEmptyKey, key.is_empty() && !table.is_empty()),
        (PageCase::AfterShown, shown),
        (PageCase::AfterGreatest, shown && ends.is_empty()),
        (PageCase::AfterAbsent, !key.is_empty() && !shown && !table.is_empty()),
        (PageCase::AfterPrefix, !key.is_empty() && !shown && table.keys().any(begins)),
        (PageCase::AfterExtension, (1..key.len()).any(|length| table.contains_key(&key[..length]))),
        (PageCase::AfterKeyOf48, key.len() == LONGEST_KEY && !table.is_empty()),
        (PageCase::AfterKeyWith00, key.contains(&0x00) && !ends.is_empty()),
        (PageCase::AfterKeyWithFF, key.contains(&0xFF) && !ends.is_empty()),
    ]);
}

/// Counts what a refused page met: a buffer under the least, and refusals that come after its own.
pub fn meet_refused(asked: &Page, answer: u8, coverage: &mut Coverage) {
    let (long, short) = (asked.key.len() > LONGEST_KEY, asked.buffer.len() < LEAST_BUFFER);
    coverage.page(&[
        (PageCase::NoBuffer, answer == 15 && asked.buffer.is_empty()),
        (PageCase::OneUnderLeast, answer == 15 && asked.buffer.len() == LEAST_BUFFER - 1),
        (PageCase::ShortOnBadSize, answer == 1 && short),
        (PageCase::ShortOnUnsound, answer == 2 && short),
        (PageCase::ShortBesideLongKey, answer == 3 && short),
        (PageCase::LongKeyOnBadSize, answer == 1 && long),
        (PageCase::LongKeyOnUnsound, answer == 2 && long),
    ]);
}

/// A page to ask for of a table: after the given key or one that has to do with those shown, into a buffer of random bytes whose
/// size has mostly to do with the records. Where nothing is shown, the block being unsound maybe, key and buffer are often bad.
pub fn drawn_page(key: Vec<u8>, table: &Table, random: &mut Random) -> Page {
    let mut key = drawn_start(key, table, random);
    let mut size = drawn_size(&ends_of(&records_after(table, &key)), random);
    let bad = if table.is_empty() { 30 } else { 3 };
    if random.chance(bad) {
        key.resize(random.pick(&[49, 49, 50, 300]), random.pick(&[0x00, 0x41, 0xFF]));
    }
    if random.chance(bad) {
        size = random.below(LEAST_BUFFER);
    }
    Page { key, buffer: drawn_bytes(size, random) }
}

/// A key to begin after: the given one, or by those of a table one that is shown, begins another, goes on from one, or stands
/// just before one of the longest.
fn drawn_start(given: Vec<u8>, table: &Table, random: &mut Random) -> Vec<u8> {
    if table.is_empty() || random.chance(30) {
        return given;
    }
    let keys: Vec<&Vec<u8>> = table.keys().collect();
    let mut key = keys[random.below(keys.len())].clone();
    let edge = random.pick(&[0x00, 0xFF, 0x41]);
    match random.below(11) {
        0..=2 => {}
        3 | 4 => key.truncate(random.below(key.len())),
        5 => key.push(edge),
        6 => key.resize(random.pick(&[47, 48, 48, 49]), edge),
        7 => key = keys[keys.len() - 1].clone(),
        _ => key = before_a_longest(&keys, random),
    }
    key
}

/// The key before one of the longest, empty where that is the first.
fn before_a_longest(keys: &[&Vec<u8>], random: &mut Random) -> Vec<u8> {
    let longest = keys.iter().map(|key| key.len()).max().unwrap_or(0);
    let places: Vec<usize> = (0..keys.len()).filter(|place| keys[*place].len() == longest).collect();
    match random.pick(&places) {
        0 => Vec::new(),
        place => keys[place - 1].clone(),
    }
}

/// The size of a buffer for records that end where they are said to: mostly from the least on, and often where a record ends or
/// a byte beside that; seldom under the least, or huge.
pub fn drawn_size(ends: &[usize], random: &mut Random) -> usize {
    let all = ends.last().copied().unwrap_or(0);
    let fits: Vec<usize> = ends.iter().copied().filter(|end| *end >= LEAST_BUFFER).collect();
    match random.below(60) {
        0..=2 => random.pick(&[0, 0, 0, 1, 51, 52, 52, 52]),
        3 | 4 => random.pick(&[0xFFFF, 0x1_0000, 0x1_0001, 100_000]),
        5..=12 => all.max(LEAST_BUFFER) + random.pick(&[0, 1, 2, 300]),
        13..=24 => random.between(LEAST_BUFFER, LEAST_BUFFER + all),
        25..=48 if !fits.is_empty() => {
            let place = random.pick(&[0, 0, 1, 2, fits.len() / 2, fits.len() - 1, fits.len() - 1]).min(fits.len() - 1);
            fits[place] + 1 - random.pick(&[0, 1, 1, 1, 2, 2])
        }
        _ => LEAST_BUFFER + random.pick(&[0, 0, 0, 1, 2, 6, 52, 53]),
    }
}

/// Keys about as long as they may be, most of which differ in their last bytes alone, and some short ones; in mixed order.
pub fn long_keys(random: &mut Random) -> Vec<Vec<u8>> {
    let stem = match random.chance(50) {
        true => vec![random.pick(&[0x00, 0x41, 0xFF]); LONGEST_KEY],
        false => drawn_bytes(LONGEST_KEY, random),
    };
    let mut keys = Vec::new();
    for _ in 0..random.between(1, 8) {
        let mut key = stem[..random.pick(&[48, 48, 48, 48, 47, 46, 44, 30])].to_vec();
        let last = key.len() - 1;
        key[last - random.pick(&[0, 0, 1, 3])] = random.byte();
        keys.push(key);
    }
    for _ in 0..random.below(4) {
        keys.push(drawn_bytes(random.between(1, 5), random));
    }
    random.shuffle(&mut keys);
    keys
}

/// So many random bytes.
pub fn drawn_bytes(size: usize, random: &mut Random) -> Vec<u8> {
    let mut bytes: Vec<u8> = (0..size.div_ceil(8)).flat_map(|_| random.bits().to_be_bytes()).collect();
    bytes.truncate(size);
    bytes
}
