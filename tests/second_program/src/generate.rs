//! Seeded arguments: keys, values, dates, sheets and whole calls, valid and not.

use crate::calls::Call;
use crate::model::{Table, EDITIONS};
use crate::pages::drawn_page;
use crate::random::Random;
use crate::verdict::{celsius, days_in_month, Question, CELSIUS, FAHRENHEIT, GATE_ANY, GATE_AT_LEAST, GATE_BETWEEN};
use crate::write_list::Asked;
use std::collections::BTreeSet;

/// How often each call comes, in the order of `Call::number`.
pub type Weights = [usize; 12];

/// Calls of a history from a formatted block, while its table grows.
pub const HISTORY: Weights = [1, 3, 36, 10, 12, 9, 7, 5, 17, 10, 9, 4];
/// Calls of a history while its table shrinks.
pub const SHRINKING: Weights = [0, 2, 8, 5, 6, 4, 3, 4, 6, 40, 6, 3];
/// Calls on a sound block that no history made.
pub const FOREIGN: Weights = [0, 6, 36, 11, 15, 6, 6, 4, 16, 30, 14, 6];
/// Calls on a block that may be unsound.
pub const HOSTILE: Weights = [1, 20, 16, 10, 10, 9, 9, 9, 16, 12, 10, 10];
/// Calls of a list.
pub const LISTED: Weights = [0, 0, 62, 0, 0, 14, 13, 11, 0, 34, 0, 0];
/// Calls on a block of a bad length.
pub const BAD_LENGTH: Weights = [1, 1, 1, 1, 1, 1, 1, 1, 1, 1, 3, 2];
/// Entries by their write lists, and calls on slots between them.
pub const STORED: Weights = [0, 0, 0, 0, 0, 3, 1, 1, 0, 0, 0, 15];

/// The most keys that a scene remembers.
const REMEMBERED: usize = 64;

/// What the calls of one scene have in common, so that they meet: an edition, characters, earlier keys, a day.
pub struct Scene {
    pub edition: u32,
    alphabet: Vec<u8>,
    longest: usize,
    keys: Vec<Vec<u8>>,
    day: [u32; 3],
}

impl Scene {
    /// Draws a scene.
    pub fn drawn(random: &mut Random) -> Scene {
        let first = random.byte() & 0xF8;
        let count = random.between(9, 40);
        let alphabet = match random.below(6) {
            0 => vec![0x41, 0x42],
            1 => (0..random.between(3, 8)).map(|_| random.byte()).collect(),
            2 => (first..=first + 7).collect(),
            3 => (0..count).map(|_| random.byte()).collect(),
            4 => vec![0x00, 0xFF, 0x7F, 0x80, 0x3F, 0x40, 0xBF, 0xC0, 0x07, 0x08, 0x41],
            _ => (0..=255).collect(),
        };
        let longest = match alphabet.len() {
            0..=8 => random.pick(&[1, 2, 3, 8, 30, 48]),
            _ => random.pick(&[1, 1, 1, 2, 4, 48]),
        };
        let year = random.pick(&[2000, 2023, 2024, 2025, 2100, 2104, 2199]);
        let month = random.between(1, 12) as u32;
        let day = random.between(1, days_in_month(year, month) as usize) as u32;
        let edition = if random.chance(60) { 2 } else { 1 };
        Scene { edition, alphabet, longest, keys: Vec::new(), day: [year, month, day] }
    }

    /// Remembers keys that the block shows.
    pub fn remember(&mut self, keys: impl Iterator<Item = Vec<u8>>) {
        self.keys.extend(keys.take(REMEMBERED));
    }

    /// A key of valid length: an earlier one, one near it, or a new one.
    fn valid_key(&mut self, random: &mut Random) -> Vec<u8> {
        let mut key = match self.keys.len() {
            0 => self.new_key(random),
            count => self.keys[random.below(count)].clone(),
        };
        let place = random.below(key.len());
        match random.below(12) {
            0..=3 => {}
            4 | 5 => key.extend(self.new_key(random)),
            6 => key.truncate(place + 1),
            7 => key[place] = random.pick(&self.alphabet),
            8 | 9 => key[place] ^= random.pick(&[0x01, 0x08, 0x40, 0x80]),
            _ => key = self.new_key(random),
        }
        key.truncate(48);
        if self.keys.len() == REMEMBERED {
            self.keys.swap_remove(random.below(REMEMBERED));
        }
        self.keys.push(key.clone());
        key
    }

    /// A key that owes nothing to earlier ones.
    fn new_key(&self, random: &mut Random) -> Vec<u8> {
        let length = match random.below(10) {
            0 if self.longest == 48 => random.pick(&[23, 24, 25, 27, 28, 29, 47, 48]),
            1 => random.between(1, self.longest),
            _ => random.between(1, self.longest.min(4)),
        };
        (0..length).map(|_| random.pick(&self.alphabet)).collect()
    }

    /// A key that now and then has a bad length.
    fn key(&mut self, random: &mut Random) -> Vec<u8> {
        if !random.chance(5) {
            return self.valid_key(random);
        }
        let length = random.pick(&[0, 0, 49, 50, 64, 256, 300, 0x1_0001]);
        (0..length).map(|_| random.pick(&self.alphabet)).collect()
    }

    /// A key to ask for: mostly an earlier one as it was.
    fn asked_key(&mut self, random: &mut Random) -> Vec<u8> {
        match self.keys.len() {
            count if count > 0 && random.chance(60) => self.keys[random.below(count)].clone(),
            _ => self.key(random),
        }
    }

    /// A key to remove: mostly an earlier one, which is then often forgotten, so that the next is likely shown too.
    fn key_to_remove(&mut self, random: &mut Random) -> Vec<u8> {
        let count = self.keys.len();
        if count == 0 || random.chance(25) {
            return self.key(random);
        }
        let place = random.below(count);
        match random.chance(60) {
            true => self.keys.swap_remove(place),
            false => self.keys[place].clone(),
        }
    }

    /// A key to start the order walk from, which may be empty and need not be shown.
    fn start_key(&mut self, random: &mut Random) -> Vec<u8> {
        match random.below(10) {
            0 | 1 => Vec::new(),
            2 => vec![random.pick(&[0x00, 0xFF]); random.between(1, 48)],
            3 => (0..random.between(1, 5)).map(|_| random.byte()).collect(),
            _ => self.key(random),
        }
    }

    /// A value: often a date near the scene's day, now and then over the greatest value.
    pub fn value(&self, random: &mut Random) -> u32 {
        let [mut year, mut month, mut day] = self.date(random);
        match random.below(20) {
            0 => return random.pick(&[0, 1, 0x7FFF_FFFF]),
            1 => return random.word() >> 1,
            2 => month = random.pick(&[0, 13, 14, 15]),
            3 => day = random.pick(&[0, 29, 30, 31]),
            4 => [year, month, day] = random.pick(&[[2100, 2, 29], [2023, 2, 29], [2024, 2, 30], [2199, 12, 31]]),
            5 => year = random.pick(&[1999, 2200]),
            _ => {}
        }
        year * 512 + month * 32 + day
    }

    /// A date near the scene's day, so that days, months and years all get to decide.
    fn date(&self, random: &mut Random) -> [u32; 3] {
        let [year, month, day] = self.day;
        for _ in 0..8 {
            let exchanged = near(1, random) == 3;
            let date = match exchanged {
                true => [year, day, month],
                false => [near(year, random), near(month, random), near(day, random)],
            };
            if (2000..=2199).contains(&date[0]) && date[2] >= 1 && date[2] <= days_in_month(date[0], date[1]) {
                return date;
            }
        }
        self.day
    }

    /// A call with its arguments.
    pub fn call(&mut self, weights: &Weights, random: &mut Random) -> Call {
        match random.weighted(weights) {
            0 => Call::Format { edition: self.asked_edition(random) },
            1 => Call::Validate,
            2 => {
                let (key, value) = self.pair(random);
                Call::Insert { key, value }
            }
            3 => Call::Get { key: self.asked_key(random) },
            4 => Call::NextKey { key: self.start_key(random) },
            5 => Call::Snapshot { slot: slot(random) },
            6 => Call::Restore { slot: slot(random) },
            7 => Call::Release { slot: slot(random) },
            8 => Call::Verdict(self.question(random)),
            9 => Call::Remove { key: self.key_to_remove(random) },
            10 => Call::Page(drawn_page(self.start_key(random), &Table::new(), random)),
            _ => {
                let (key, value) = self.pair(random);
                Call::WriteList(Asked { key, value, buffer: Vec::new() })
            }
        }
    }

    /// A pair to enter, now and then with a value over the greatest.
    fn pair(&mut self, random: &mut Random) -> (Vec<u8>, u32) {
        let value = if random.chance(4) { random.word() | 1 << 31 } else { self.value(random) };
        let value = if random.chance(1) { random.pick(&[0x8000_0000, 0xFFFF_FFFF]) } else { value };
        (self.key(random), value)
    }

    /// An edition to ask for: mostly one that there is.
    fn asked_edition(&self, random: &mut Random) -> u32 {
        match random.below(10) {
            0..=5 => self.edition,
            6..=7 => random.pick(&EDITIONS),
            _ => other_edition(random),
        }
    }

    /// A question for a verdict, with none, one or several faults.
    fn question(&mut self, random: &mut Random) -> Question {
        let mut question = self.valid_question(random);
        while random.chance(36) {
            spoil_question(&mut question, random);
        }
        question
    }

    /// A question with a valid sheet, reading and day, its limits often met exactly.
    fn valid_question(&mut self, random: &mut Random) -> Question {
        let [year, month, day] = self.date(random);
        let unit = random.pick(&[CELSIUS, FAHRENHEIT]);
        let degrees = valid_number(-100.0, 400.0, random);
        let reading = celsius(unit, degrees).expect("a valid reading");
        let limit = |random: &mut Random| match random.below(4) {
            0 => valid_number(-100.0, 400.0, random),
            1 => reading,
            2 => reading.next_up().min(400.0),
            _ => reading.next_down().max(-100.0),
        };
        let kind = random.pick(&[GATE_ANY, GATE_AT_LEAST, GATE_BETWEEN]);
        let (first, second) = (limit(random), limit(random));
        let (mut low, mut high) = (first.min(second), first.max(second));
        if kind == GATE_ANY {
            low = strange_number(-100.0, 400.0, random);
        }
        if kind != GATE_BETWEEN {
            high = strange_number(-100.0, 400.0, random);
        }
        let section = valid_number(0.5, 100.0, random);
        let length = valid_number(1.0, 10_000.0, random);
        let label = self.asked_key(random);
        Question { label, year, month, day, unit, degrees, kind, low, high, section, length }
    }
}

/// Keys that share all but their ends, in mixed order: children of one node, most of them close together, some with keys
/// below them; the node may have a value itself.
pub fn children_of(random: &mut Random) -> Vec<Vec<u8>> {
    let path = vec![random.byte(); random.pick(&[0, 0, 1, 2, 27, 28, 40])];
    let first = random.byte();
    let mask = random.pick(&[0x07, 0x1F, 0x3F, 0x3F, 0xFF]);
    let mut characters = BTreeSet::new();
    for number in 0..random.pick(&[3, 8, 9, 10, 12, 14, 18, 24]) {
        let near = first & !mask | random.byte() & mask;
        characters.insert(if number < 2 { near ^ random.pick(&[0x40, 0x80, 0xC0]) } else { near });
    }
    let mut keys = Vec::new();
    for character in characters {
        let mut key = path.clone();
        key.push(character);
        if random.chance(10) {
            keys.push(key.clone());
        }
        if random.chance(15) {
            key.extend((0..random.between(1, 3)).map(|_| random.byte()));
        }
        keys.push(key);
    }
    if !path.is_empty() && random.chance(40) {
        keys.push(path);
    }
    random.shuffle(&mut keys);
    keys
}

/// Keys of which most begin another: runs one below the other, their lengths about those that leave room for a value in
/// the cell; beside some a key that differs in its last character, below some a few children.
pub fn stems(random: &mut Random) -> Vec<Vec<u8>> {
    let mut keys = Vec::new();
    let mut key = vec![random.byte(); random.pick(&[1, 1, 2, 3, 12, 20])];
    while key.len() < 48 && keys.len() < 12 {
        keys.push(key.clone());
        if random.chance(30) {
            let children = random.pick(&[2, 3, 6, 7, 8]);
            keys.extend((0..children).map(|_| [&key[..], &[random.byte()]].concat()));
        }
        let run = random.pick(&[1, 2, 3, 5, 22, 23, 23, 23, 24, 24, 24, 25, 28]);
        key.extend((0..run).map(|_| random.byte()));
        key.truncate(48);
        if random.chance(50) {
            let (last, path) = key.split_last().expect("a key is not empty");
            keys.push([path, &[last ^ 1]].concat());
        }
    }
    keys.push(key);
    keys
}

/// The number of no edition.
pub fn other_edition(random: &mut Random) -> u32 {
    random.pick(&[0, 3, 3, 4, 255, 256, 257, 258, 0x0100_0000, 0x0200_0000, 0x8000_0001, u32::MAX])
}

/// A number that is the given one or close to it.
fn near(number: u32, random: &mut Random) -> u32 {
    number + random.pick(&[0, 0, 0, 1, 2]) - random.pick(&[0, 0, 0, 1])
}

/// A slot number, valid nine times in ten.
fn slot(random: &mut Random) -> u32 {
    match random.chance(90) {
        true => random.between(1, 3) as u32,
        false => random.pick(&[0, 4, 5, 7, 8, 32, 33, 255, 256, 257, 0x8000_0001, u32::MAX]),
    }
}

/// A number inside its bounds, often on one or beside it.
fn valid_number(low: f32, high: f32, random: &mut Random) -> f32 {
    match random.below(12) {
        0 => low,
        1 => high,
        2 => low.next_up(),
        3 => high.next_down(),
        4 | 5 => (low + random.below((high - low) as usize) as f32).floor().max(low),
        6 if low < 0.0 => random.pick(&[0.0, -0.0, f32::from_bits(1), -32.0, 32.0, 32.0f32.next_up()]),
        _ => (low + (high - low) * (random.word() as f32 / u32::MAX as f32)).clamp(low, high),
    }
}

/// A number that is mostly outside its bounds, or no number at all.
fn strange_number(low: f32, high: f32, random: &mut Random) -> f32 {
    match random.below(10) {
        0 | 1 => f32::NAN,
        2 => -f32::NAN,
        3 => f32::from_bits(0x7F80_0001 | random.word() & 0x803F_FFFF),
        4 => f32::INFINITY,
        5 => f32::NEG_INFINITY,
        6 => low.next_down(),
        7 => high.next_up(),
        8 => random.pick(&[-0.0, 1.0e30, -1.0e30, f32::MAX, f32::MIN]),
        _ => f32::from_bits(random.word()),
    }
}

/// Puts one fault into a question.
fn spoil_question(question: &mut Question, random: &mut Random) {
    let other_number = random.pick(&[0, 4, 5, 255, 256, 257, 0x8000_0001, u32::MAX]);
    match random.below(12) {
        0 => question.kind = other_number,
        1 => question.low = strange_number(-100.0, 400.0, random),
        2 => question.high = strange_number(-100.0, 400.0, random),
        3 => std::mem::swap(&mut question.low, &mut question.high),
        4 => question.section = strange_number(0.5, 100.0, random),
        5 => question.length = strange_number(1.0, 10_000.0, random),
        6 => question.unit = other_number.max(3) * (other_number % 2),
        7 => question.degrees = strange_number(-100.0, 400.0, random),
        8 => question.year = random.pick(&[0, 1999, 2200, 2100, 2025 + 65536, u32::MAX]),
        9 => question.month = random.pick(&[0, 2, 4, 13, 15, 16, 35, 257, u32::MAX]),
        10 => question.day = random.pick(&[0, 29, 30, 31, 32, 33, 39, 256 + 7, u32::MAX]),
        _ => std::mem::swap(&mut question.day, &mut question.month),
    }
}
