//! Lists of calls encoded in bytes, as the library's runner takes them, and the model's way to run one: call by call.

use crate::calls::{perform, valid_length, Call};
use crate::counted::ListCase;
use crate::coverage::Coverage;
use crate::foreign::junk;
use crate::generate::{other_edition, Scene, LISTED};
use crate::hostile::bad_length_block;
use crate::model::{CELL, EDITIONS};
use crate::random::Random;
use std::fmt::{Debug, Formatter};

/// How a run ended, by the library's numbers: the bytes are at their end, the block cannot be made fresh (its size is
/// bad or the edition is none), the bytes encode no call, or no answer byte is left.
pub const AT_END: u8 = 0;
pub const NOT_FRESH: u8 = 1;
pub const NO_CALL: u8 = 2;
pub const FULL: u8 = 3;

/// The end of a run, and how many calls it made.
#[derive(Clone, Copy, Debug, PartialEq, Eq)]
pub struct Ended {
    pub number: u8,
    pub count: usize,
}

/// What is lent to a run: a block, the edition that it is to be of, encoded calls, and bytes for the answers.
#[derive(Clone, PartialEq, Eq)]
pub struct List {
    pub block: Vec<u8>,
    pub edition: u32,
    pub bytes: Vec<u8>,
    pub answers: Vec<u8>,
}

impl Debug for List {
    /// The edition and the calls that its bytes encode, for a difference.
    fn fmt(&self, formatter: &mut Formatter) -> std::fmt::Result {
        write!(formatter, "a list of edition {} with room for {} answers:", self.edition, self.answers.len())?;
        let mut rest = self.bytes.as_slice();
        while let Some((call, past)) = decode(rest) {
            write!(formatter, "\n    {call:02X?}")?;
            rest = past;
        }
        write!(formatter, "\n    then bytes {rest:02X?}")
    }
}

/// Appends a call: 1, the key's size, the key and the value; 2, 3, 4 and the slot; or 5, the key's size and the key;
/// numbers highest byte first.
pub fn encode(call: &Call, bytes: &mut Vec<u8>) {
    let (tag, slot) = match call {
        Call::Insert { key, value } => {
            put_key(1, key, bytes);
            return bytes.extend(value.to_be_bytes());
        }
        Call::Remove { key } => return put_key(5, key, bytes),
        Call::Snapshot { slot } => (2, slot),
        Call::Restore { slot } => (3, slot),
        Call::Release { slot } => (4, slot),
        _ => unreachable!("no other call stands in a list"),
    };
    bytes.push(tag);
    bytes.extend(slot.to_be_bytes());
}

/// Appends a tag, a key's size and the key.
fn put_key(tag: u8, key: &[u8], bytes: &mut Vec<u8>) {
    bytes.extend([tag, u8::try_from(key.len()).expect("a key of up to 255 bytes")]);
    bytes.extend(key);
}

/// The call at the front of some bytes, and the bytes past it; nothing where they encode none.
pub fn decode(bytes: &[u8]) -> Option<(Call, &[u8])> {
    let (tag, rest) = bytes.split_first()?;
    if *tag == 1 || *tag == 5 {
        let (size, rest) = rest.split_first()?;
        let (key, rest) = rest.split_at_checked(usize::from(*size))?;
        let key = key.to_vec();
        if *tag == 5 {
            return Some((Call::Remove { key }, rest));
        }
        let (value, rest) = rest.split_first_chunk()?;
        return Some((Call::Insert { key, value: u32::from_be_bytes(*value) }, rest));
    }
    let (slot, rest) = rest.split_first_chunk()?;
    let slot = u32::from_be_bytes(*slot);
    match tag {
        2 => Some((Call::Snapshot { slot }, rest)),
        3 => Some((Call::Restore { slot }, rest)),
        4 => Some((Call::Release { slot }, rest)),
        _ => None,
    }
}

/// Makes the block fresh and the calls on it one by one, each answer into its byte; gives the end and the calls made.
pub fn run(list: &mut List, coverage: &mut Coverage) -> (Ended, Vec<Call>) {
    let mut made = Vec::new();
    let mut rest = list.bytes.as_slice();
    let embedded = coverage.embedded();
    let formatted = perform(&mut list.block, &Call::Format { edition: list.edition }, coverage).answer == 0;
    let mut number = if formatted { AT_END } else { NOT_FRESH };
    while formatted && !rest.is_empty() {
        let Some(answer) = list.answers.get_mut(made.len()) else {
            number = FULL;
            break;
        };
        let Some((call, past)) = decode(rest) else {
            number = NO_CALL;
            break;
        };
        *answer = perform(&mut list.block, &call, coverage).answer;
        made.push(call);
        rest = past;
    }
    let ended = Ended { number, count: made.len() };
    coverage.list(ListCase::Embeds, coverage.embedded() > embedded);
    meet(list, rest, &made, ended, coverage);
    (ended, made)
}

/// Counts what a run met at its end and in its calls.
fn meet(list: &List, rest: &[u8], made: &[Call], ended: Ended, coverage: &mut Coverage) {
    let ends = [ListCase::AtEnd, ListCase::NotFresh, ListCase::NoCall, ListCase::Full];
    coverage.list(ends[usize::from(ended.number)], true);
    let filled = made.len() == list.answers.len();
    coverage.list(ListCase::EndAsAnswersFill, ended.number == AT_END && filled && !made.is_empty());
    coverage.list(ListCase::NothingAtAll, ended.number == AT_END && filled && made.is_empty());
    coverage.list(ListCase::AnswersLeftOver, ended.number != NOT_FRESH && !filled);
    coverage.list(ListCase::NoAnswerByte, ended.number == FULL && made.is_empty());
    coverage.list(ListCase::FullBeforeNoCall, ended.number == FULL && decode(rest).is_none());
    if ended.number == NO_CALL {
        let lacks_one = decode(&[rest, &[0]].concat()).is_some();
        coverage.list(ListCase::OtherTag, !(1..=5).contains(&rest[0]) && rest.len() >= 5);
        coverage.list(ListCase::InsertCut, rest[0] == 1);
        coverage.list(ListCase::SlotCut, (2..=4).contains(&rest[0]));
        coverage.list(ListCase::RemoveCut, rest[0] == 5);
        coverage.list(ListCase::OneByteShort, lacks_one);
    }
    for call in made {
        let (key, cases) = match call {
            Call::Insert { key, .. } => {
                (key, [ListCase::KeyOf0, ListCase::KeyOf48, ListCase::KeyOf49, ListCase::KeyOf255])
            }
            Call::Remove { key } => {
                (key, [ListCase::RemovedOf0, ListCase::RemovedOf48, ListCase::RemovedOf49, ListCase::RemovedOf255])
            }
            _ => continue,
        };
        [0, 48, 49, 255].into_iter().zip(cases).for_each(|(size, case)| coverage.list(case, key.len() == size));
    }
    coverage.list(ListCase::LongList, made.len() >= 500);
    coverage.list(ListCase::LargeBlock, list.block.len() >= 64 * CELL);
    coverage.list(ListCase::EditionOne, list.edition == 1 && !made.is_empty());
    coverage.list(ListCase::EditionTwo, list.edition == 2 && !made.is_empty());
    let other = !EDITIONS.contains(&list.edition);
    coverage.list(ListCase::OtherEdition, other && valid_length(list.block.len()));
}

/// A list: mostly short and of valid calls, refused ones among them; its bytes are often damaged, its answers too few.
pub fn drawn_list(number: u64, random: &mut Random) -> List {
    let long = number % 250 == 0;
    let count = match (long, random.below(20)) {
        (true, _) => random.between(600, 1000),
        (_, 0) => 0,
        (_, 1..=15) => random.between(1, 12),
        (_, 16..=18) => random.between(13, 40),
        _ => random.between(41, 100),
    };
    let mut scene = Scene::drawn(random);
    let mut bytes = Vec::new();
    for _ in 0..count {
        encode(&listed_call(&mut scene, random), &mut bytes);
    }
    damage_bytes(&mut bytes, random);
    let room = match random.below(10) {
        0..=4 => count + random.between(0, 9),
        5 | 6 => count,
        7 => count.saturating_sub(1),
        8 => random.below(count + 1),
        _ => random.pick(&[0, 0, 1, 2]),
    };
    let answers = (0..room).map(|_| random.byte()).collect();
    let block = if long { junk(random.pick(&[40, 128, 256, 512, 1024, 2048]), random) } else { drawn_block(random) };
    let edition = if random.chance(97) { scene.edition } else { other_edition(random) };
    List { block, edition, bytes, answers }
}

/// A call that a list may hold; its key has at most the 255 bytes that can be encoded.
fn listed_call(scene: &mut Scene, random: &mut Random) -> Call {
    let mut call = scene.call(&LISTED, random);
    if let Call::Insert { key, .. } | Call::Remove { key } = &mut call {
        key.truncate(255);
    }
    call
}

/// A block of any bytes, which the run makes fresh: under 64 cells or not, seldom of a bad length.
fn drawn_block(random: &mut Random) -> Vec<u8> {
    let cells = match random.below(100) {
        0..=2 => return bad_length_block(random),
        3..=20 => random.between(4, 8),
        21..=42 => random.between(9, 20),
        43..=72 => random.between(21, 63),
        73..=90 => random.between(64, 128),
        91..=97 => random.between(129, 512),
        _ => random.pick(&[513, 1024, 2047, 2048]),
    };
    junk(cells, random)
}

/// Leaves half of the lists as they are; cuts, extends or alters the others, so that some bytes encode no call.
fn damage_bytes(bytes: &mut Vec<u8>, random: &mut Random) {
    let place = random.below(bytes.len() + 1);
    match random.below(14) {
        0 => bytes.truncate(place),
        1 => drop(bytes.pop()),
        2 => {
            bytes.push(random.pick(&[0, 6, 7, 0x7F, 0x80, 0xFF]));
            bytes.extend((0..random.below(10)).map(|_| random.byte()));
        }
        3 => {
            let start = random.below(5);
            bytes.extend(&[1, 2, 3, 4, 5, 9, 1, 5, 1, 2][start..random.between(start + 1, start + 5)]);
        }
        4 => bytes.insert(place, random.byte()),
        5 if place < bytes.len() => bytes[place] = random.pick(&[0, 1, 2, 3, 4, 5, 6, 48, 49, 255]),
        6 => *bytes = (0..random.below(60)).map(|_| random.pick(&[0, 0, 0, 1, 1, 2, 3, 4, 5, 5, 6])).collect(),
        _ => {}
    }
}
