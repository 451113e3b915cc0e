//! The specification's samples A to L, its further cases, and what can be tried out whole.

use crate::calls::{perform, Call, Outcome};
use crate::coverage::Coverage;
use crate::foreign::order_word_block;
use crate::generate::Scene;
use crate::lists::{decode, encode, run as run_list, Ended, List, AT_END, FULL, NOT_FRESH, NO_CALL};
use crate::model::{put_word, word_at, Store, CELL};
use crate::random::Random;
use crate::verdict::{
    celsius, day_number, rounded, Question, CELSIUS, FAHRENHEIT, GATE_ANY, GATE_AT_LEAST, GATE_BETWEEN,
};

/// Runs every case; the first that fails ends the program.
pub fn run() {
    samples_a_to_d();
    samples_e_to_h();
    sample_i_order_words();
    samples_j_to_l();
    long_labels();
    seven_children();
    lengths();
    limits_met_exactly();
    a_cell_entered_twice();
    arithmetic();
    foreign_tables_rebuilt();
    lists_of_calls();
    crate::removal_test::run();
    crate::embedded_test::run();
    crate::pages_test::run();
    crate::write_list_test::run();
    crate::wear_test::run();
    println!("second_program alone: samples A to L and the further cases hold");
}

/// A call on the model.
pub fn make(block: &mut [u8], call: Call) -> Outcome {
    perform(block, &call, &mut Coverage::new())
}

/// A fresh block of edition 1.
pub fn fresh(cells: usize) -> Vec<u8> {
    fresh_of(1, cells)
}

/// A fresh block of an edition.
pub fn fresh_of(edition: u32, cells: usize) -> Vec<u8> {
    let mut block = vec![0xAA; cells * CELL];
    assert_eq!(make(&mut block, Call::Format { edition }), Outcome::bare(0));
    block
}

/// Inserts, and gives answer and count.
pub fn insert(block: &mut [u8], key: &[u8], value: u32) -> (u8, u32) {
    let outcome = make(block, Call::Insert { key: key.to_vec(), value });
    (outcome.answer, outcome.number)
}

/// The root word.
pub fn root(block: &[u8]) -> u32 {
    word_at(block, block.len() - CELL)
}

/// The bytes that hexadecimal digits name; blanks between them are for the eye.
pub fn bytes(digits: &str) -> Vec<u8> {
    let digits: Vec<u8> = digits.bytes().filter(|digit| *digit != b' ').collect();
    let byte = |pair: &[u8]| u8::from_str_radix(std::str::from_utf8(pair).unwrap(), 16).unwrap();
    digits.chunks(2).map(byte).collect()
}

/// Samples A, B, C and D.
fn samples_a_to_d() {
    let mut a = fresh(4);
    assert_eq!(insert(&mut a, &[0x41], 0), (0, 1));
    let mut expected = vec![0; 32 + 27];
    expected.extend(bytes("41 FFFFFFFF"));
    expected.extend([0; 32]);
    expected.extend(bytes("0000003B 00000000 00000000 00000000 00000000 00000004 00000000 00000001"));
    assert_eq!(a, expected);
    let mut b = a;
    assert_eq!(make(&mut b, Call::Snapshot { slot: 1 }), Outcome::bare(0));
    assert_eq!(insert(&mut b, &[0x41], 1), (0, 1));
    assert_eq!(root(&b), 0x5B);
    let mut c = b.clone();
    assert_eq!(insert(&mut c, &[0x41], 2), (7, 0));
    assert_eq!(c, b);
    let mut d = b;
    assert_eq!(make(&mut d, Call::Restore { slot: 1 }), Outcome::bare(0));
    assert_eq!(insert(&mut d, &[0x41], 2), (0, 1));
    assert_eq!((root(&d), word_at(&d, 2 * CELL + 0x1C)), (0x5B, !2));
}

/// Samples E, F, G and H.
fn samples_e_to_h() {
    let mut e = fresh(8);
    assert_eq!(insert(&mut e, &[0x43, 0x48, 0x41], 0), (0, 1));
    assert_eq!(root(&e), 0x39);
    let mut f = e.clone();
    assert_eq!(insert(&mut f, &[0x41], 1), (0, 1));
    assert_eq!(root(&f), 0x5E);
    let cell = bytes("FFFFFFFE 0000003A 00000000 00000000 00000000 00000000 41430000 00000006");
    assert_eq!(f[2 * CELL..3 * CELL], cell);
    let mut g = f;
    assert_eq!(insert(&mut g, &[0x35], 2), (0, 1));
    assert_eq!((root(&g), word_at(&g, 3 * CELL + 0x1C) & 0xFFFF), (0x7E, 0x26));
    let mut h = e;
    assert_eq!(insert(&mut h, &[0x43], 5), (0, 2));
    assert_eq!((root(&h), word_at(&h, 2 * CELL + 0x1C)), (0x7B, 0x3A));
}

/// The rule of order words, digit by digit as the specification says it.
fn valid_order(order: u16) -> bool {
    let mut digits = Vec::new();
    let mut rest = order;
    while rest > 0 {
        digits.push(rest % 6);
        rest /= 6;
    }
    let mut sorted = digits.clone();
    sorted.sort_unstable();
    let place = |digit: u16| digits.iter().position(|held| *held == digit);
    (2..=6).contains(&digits.len()) && sorted.into_iter().eq(0..digits.len() as u16) && place(1) > place(0)
}

/// Sample I, and every other word: a sparse node whose characters rise as its word lists them is sound if it is valid.
fn sample_i_order_words() {
    assert!([0x0006, 0x0026, 0x8129].into_iter().all(valid_order));
    assert!(![0x0001, 0x0007].into_iter().any(valid_order));
    assert_eq!((0..=u16::MAX).filter(|order| valid_order(*order)).count(), 436);
    let mut random = Random::seeded(436);
    for order in 0..=u16::MAX {
        let sound = Store::decode(&order_word_block(order, &mut random)).is_ok();
        assert_eq!(sound, valid_order(order), "order word {order:04X}");
    }
}

/// A question about label 41 on a day, all else valid.
fn question(year: u32, month: u32, day: u32) -> Question {
    Question {
        label: vec![0x41],
        year,
        month,
        day,
        unit: CELSIUS,
        degrees: 20.0,
        kind: GATE_ANY,
        low: f32::NAN,
        high: f32::NAN,
        section: 60.0,
        length: 4000.0,
    }
}

/// Samples J, K and L.
fn samples_j_to_l() {
    assert_eq!(2025 * 512 + 3 * 32 + 7, 1_036_903);
    let mut block = fresh(4);
    assert_eq!(insert(&mut block, &[0x41], 1_036_903), (0, 1));
    let good = make(&mut block, Call::Verdict(question(2025, 3, 7)));
    assert_eq!(good, Outcome { dose: 240.0f32.to_bits(), ..Outcome::bare(0) });
    assert_eq!(make(&mut block, Call::Verdict(question(2025, 3, 8))), Outcome::bare(13));
    assert_eq!(make(&mut block, Call::Verdict(question(2025, 7, 3))), Outcome::bare(13));
    assert_eq!(celsius(FAHRENHEIT, 392.0), Some(200.0));
}

/// Labels of 28, 29, 48 and 49 bytes in a fresh block of 4 cells.
fn long_labels() {
    for (length, answer, word) in [(28, 0, 0x20), (29, 0, 0x5B), (48, 0, 0x48), (49, 3, 0)] {
        let mut block = fresh(4);
        assert_eq!(insert(&mut block, &vec![0x41; length], 1).0, answer);
        assert_eq!(root(&block), word, "label of {length}");
    }
}

/// The seven children that make a split of 6 cells.
fn seven_children() {
    let mut block = fresh(32);
    for (value, character) in [0x33, 0x35, 0x41, 0x42, 0x43, 0x50].into_iter().enumerate() {
        assert_eq!(insert(&mut block, &[character], value as u32), (0, 1));
    }
    assert_eq!(insert(&mut block, &[0x51], 6), (0, 6));
}

/// Blocks of 3 and 2,049 cells, and the last lengths that are valid.
fn lengths() {
    for (length, answer) in [(0, 1), (96, 1), (127, 1), (128, 0), (129, 1), (65_536, 0), (2049 * CELL, 1)] {
        let mut block = vec![0xAA; length];
        let before = block.clone();
        for edition in [0, 3, 257, u32::MAX] {
            assert_eq!(make(&mut block, Call::Format { edition }), Outcome::bare(1));
        }
        assert!(block == before);
        for edition in [1, 2] {
            assert_eq!(make(&mut block, Call::Format { edition }).answer, answer);
            assert_eq!(make(&mut block, Call::Validate).answer, answer);
            assert_eq!(block == before, answer == 1);
        }
    }
}

/// Limits of gate, sheet and reading, met exactly and just missed.
fn limits_met_exactly() {
    let mut block = fresh(4);
    insert(&mut block, &[0x41], 1_036_903);
    let mut ask = |change: &dyn Fn(&mut Question)| {
        let mut asked = question(2025, 3, 7);
        change(&mut asked);
        make(&mut block, Call::Verdict(asked)).answer
    };
    assert_eq!(ask(&|asked| (asked.kind, asked.low) = (GATE_AT_LEAST, 20.0)), 0);
    assert_eq!(ask(&|asked| (asked.kind, asked.low) = (GATE_AT_LEAST, 20.0f32.next_up())), 14);
    assert_eq!(ask(&|asked| (asked.kind, asked.low, asked.high) = (GATE_BETWEEN, 20.0, 20.0)), 0);
    assert_eq!(ask(&|asked| (asked.kind, asked.low, asked.high) = (GATE_BETWEEN, 10.0, 20.0f32.next_down())), 14);
    assert_eq!(ask(&|asked| (asked.kind, asked.low, asked.high) = (GATE_BETWEEN, 20.0, 19.0)), 8);
    assert_eq!(ask(&|asked| (asked.kind, asked.low, asked.high) = (GATE_BETWEEN, -100.0, 400.0)), 0);
    assert_eq!(ask(&|asked| (asked.kind, asked.low) = (GATE_AT_LEAST, f32::NAN)), 8);
    assert_eq!(ask(&|asked| (asked.section, asked.length) = (0.5, 1.0)), 0);
    assert_eq!(ask(&|asked| (asked.section, asked.length) = (100.0, 10_000.0)), 0);
    assert_eq!(ask(&|asked| asked.section = 0.5f32.next_down()), 8);
    assert_eq!(ask(&|asked| asked.length = 10_000.0f32.next_up()), 8);
    assert_eq!(ask(&|asked| asked.degrees = 400.0), 0);
    assert_eq!(ask(&|asked| asked.degrees = (-100.0f32).next_down()), 9);
    assert_eq!(ask(&|asked| asked.degrees = f32::NAN), 9);
    assert_eq!(ask(&|asked| (asked.kind, asked.unit) = (4, 3)), 8);
    assert_eq!(ask(&|asked| (asked.unit, asked.month) = (3, 35)), 9);
    assert_eq!(ask(&|asked| (asked.month, asked.label) = (35, vec![0x42])), 10);
    assert_eq!(ask(&|asked| asked.label = vec![0x42]), 11);
    assert_eq!(ask(&|asked| (asked.label, asked.kind) = (vec![], 4)), 3);
}

/// A sparse node with both children in one chain cell is unsound; with one of them a leaf it is sound.
fn a_cell_entered_twice() {
    let mut block = fresh(4);
    put_word(&mut block, CELL, 0x5B);
    put_word(&mut block, CELL + 4, 0x5A);
    block[CELL + 0x18..CELL + 0x20].copy_from_slice(&[0x41, 0x42, 0, 0, 0, 0, 0, 6]);
    put_word(&mut block, 2 * CELL + 0x1C, u32::MAX);
    put_word(&mut block, 3 * CELL, 0x3E);
    assert_eq!(make(&mut block, Call::Validate).answer, 2);
    put_word(&mut block, CELL + 4, u32::MAX);
    assert_eq!(make(&mut block, Call::Validate).answer, 0);
}

/// Fahrenheit and dose by the model's detour equal plain single operations; the exact cases; the calendar.
fn arithmetic() {
    for whole in -14..=40 {
        assert_eq!(celsius(FAHRENHEIT, (32 + 9 * whole) as f32), Some((5 * whole) as f32));
    }
    let mut random = Random::seeded(9);
    for _ in 0..200_000 {
        let degrees = (random.word() as f32 / u32::MAX as f32) * 500.0 - 100.0;
        assert_eq!(celsius(FAHRENHEIT, degrees), Some((degrees - 32.0) * 5.0 / 9.0));
        let (left, right) = (f32::from_bits(random.word()), f32::from_bits(random.word()));
        let product = rounded(left, right, |left, right| left * right);
        assert!(product.to_bits() == (left * right).to_bits() || product.is_nan());
    }
    let days = (0..1 << 21).filter(|value| day_number(value / 512 % 4096, value / 32 % 16, value % 32).is_some());
    assert_eq!(days.count(), 200 * 365 + 49);
    assert!(day_number(2000, 2, 29).is_some() && day_number(2100, 2, 29).is_none() && day_number(2023, 2, 29).is_none());
    assert_eq!(day_number(2100, 3, 1), day_number(2100, 2, 28).map(|day| day + 1));
}

/// The table of a foreign block, inserted into a fresh one in order, is shown there again.
fn foreign_tables_rebuilt() {
    let mut random = Random::seeded(48);
    for _ in 0..300 {
        let scene = Scene::drawn(&mut random);
        let edition = random.pick(&[1, 2]);
        let cells = random.between(4, 63);
        let block = crate::foreign::foreign_block(cells, 48, &scene, &mut random);
        let table = Store::decode(&block).expect("a foreign block is sound").root.table();
        let mut rebuilt = fresh_of(edition, 2048);
        for (key, value) in &table {
            assert_eq!(insert(&mut rebuilt, key, *value).0, 0);
        }
        assert_eq!(Store::decode(&rebuilt).expect("sound").root.table(), table);
    }
}

/// Lists whose bytes, answers and ends are written out, and the encoding of calls undone.
fn lists_of_calls() {
    let encoded = bytes("01 01 41 00000000  02 00000001  01 00 00000000  03 00000002  04 00000001");
    let with = |past: &str, room: usize| {
        let (block, answers) = (vec![0xAA; 4 * CELL], vec![0xEE; room]);
        let mut list = List { block, edition: 1 + room as u32 % 2, bytes: encoded.clone(), answers };
        list.bytes.extend(bytes(past));
        let (ended, _) = run_list(&mut list, &mut Coverage::new());
        (ended.number, ended.count, list.answers)
    };
    assert_eq!(with("", 7), (AT_END, 5, vec![0, 0, 3, 6, 0, 0xEE, 0xEE]));
    assert_eq!(with("", 5), (AT_END, 5, vec![0, 0, 3, 6, 0]));
    assert_eq!(with("", 4), (FULL, 4, vec![0, 0, 3, 6]));
    assert_eq!(with("09", 5), (FULL, 5, vec![0, 0, 3, 6, 0]));
    assert_eq!(with("09", 6), (NO_CALL, 5, vec![0, 0, 3, 6, 0, 0xEE]));
    assert_eq!(with("02 000000", 6), (NO_CALL, 5, vec![0, 0, 3, 6, 0, 0xEE]));
    assert_eq!(with("01 02 41 42 000000", 6), (NO_CALL, 5, vec![0, 0, 3, 6, 0, 0xEE]));
    assert_eq!(with("01 02 41 42 00000000", 6), (AT_END, 6, vec![0, 0, 3, 6, 0, 7]));
    assert_eq!(with("05 01 41  05 01 41  05 00", 8), (AT_END, 8, vec![0, 0, 3, 6, 0, 0, 11, 3]));
    assert_eq!(with("05 02 41", 6), (NO_CALL, 5, vec![0, 0, 3, 6, 0, 0xEE]));
    assert_eq!(with("06 01 41 41 41", 6), (NO_CALL, 5, vec![0, 0, 3, 6, 0, 0xEE]));
    for (cells, edition) in [(3, 1), (3, 2), (4, 0), (4, 3)] {
        let (block, answers) = (vec![0xAA; cells * CELL], vec![0xEE]);
        let mut list = List { block, edition, bytes: encoded.clone(), answers };
        assert_eq!(run_list(&mut list, &mut Coverage::new()).0, Ended { number: NOT_FRESH, count: 0 });
        assert_eq!((list.block, list.answers), (vec![0xAA; cells * CELL], vec![0xEE]));
    }
    let keys = [0, 1, 48, 49, 255].map(|size| Call::Insert { key: vec![0x41; size], value: 0x8765_4321 });
    let removed = [0, 1, 48, 49, 255].map(|size| Call::Remove { key: vec![0x05; size] });
    let slots = [Call::Snapshot { slot: 1 }, Call::Restore { slot: 0x0102_0304 }, Call::Release { slot: u32::MAX }];
    for call in keys.iter().chain(&removed).chain(&slots) {
        let mut encoded = Vec::new();
        encode(call, &mut encoded);
        let (decoded, past) = decode(&encoded).expect("an encoded call");
        assert_eq!((format!("{decoded:?}"), past.len()), (format!("{call:?}"), 0));
    }
}
