//! Pages whose every byte is written out.

use crate::calls::{Call, Outcome};
use crate::model::CELL;
use crate::pages::{drawn_bytes, pairs_in, Page};
use crate::random::Random;
use crate::self_test::{bytes, fresh, fresh_of, insert, make};

/// Runs every case; the first that fails ends the program.
pub fn run() {
    sample_g();
    sizes_and_more();
    greater_keys();
    nothing_to_print();
    answers_in_order();
    records_read_back();
}

/// What stands in a buffer before a page.
const FILLER: u8 = 0xEE;

/// A page after a key into a buffer of so many bytes; gives answer, records, bytes used and more, and the buffer.
fn page(block: &[u8], key: &[u8], size: usize) -> ((u8, u32, u32, u32), Vec<u8>) {
    let call = Call::Page(Page { key: key.to_vec(), buffer: vec![FILLER; size] });
    let mut copy = block.to_vec();
    let Outcome { answer, number, page, buffer, .. } = make(&mut copy, call);
    assert!(copy == block, "a page leaves the block");
    ((answer, number, page.used, page.more), buffer)
}

/// A fresh block of an edition with some pairs.
fn with_pairs(edition: u32, cells: usize, pairs: &[(&[u8], u32)]) -> Vec<u8> {
    let mut block = fresh_of(edition, cells);
    for (key, value) in pairs {
        assert_eq!(insert(&mut block, key, *value).0, 0);
    }
    block
}

/// Bytes at the front of a buffer that is as it was behind them.
fn filled(front: &[u8], size: usize) -> Vec<u8> {
    let mut buffer = front.to_vec();
    buffer.resize(size, FILLER);
    buffer
}

/// Sample G: three records of 20 bytes; after its keys two, one and none; 52 bytes are too few.
fn sample_g() {
    let block = with_pairs(1, 8, &[(b"CHA", 0), (b"A", 1), (b"5", 2)]);
    let records = bytes("01 35 00000002  01 41 00000001  03 434841 00000000");
    for size in [53, 54, 400] {
        assert_eq!(page(&block, b"", size), ((0, 3, 20, 0), filled(&records, size)));
    }
    assert_eq!(page(&block, b"5", 53), ((0, 2, 14, 0), filled(&records[6..], 53)));
    assert_eq!(page(&block, b"A", 53), ((0, 1, 8, 0), filled(&records[12..], 53)));
    assert_eq!(page(&block, b"CHA", 53), ((0, 0, 0, 0), filled(&[], 53)));
    for size in [0, 1, 20, 52] {
        assert_eq!(page(&block, b"", size), ((15, 0, 0, 0), filled(&[], size)));
    }
}

/// Labels of 48, 48 and 1 bytes in pages of several sizes, each begun after the last label of the one before.
fn sizes_and_more() {
    let (first, second) = ([0x41; 48], [[0x41; 47].as_slice(), &[0x42]].concat());
    let records = [&[48], &first[..], &[0, 0, 0, 7], &[48], &second, &[0, 0, 0, 8], &[1, 0x5A], &[0, 0, 0, 9]].concat();
    for edition in [1, 2] {
        let block = with_pairs(edition, 8, &[(&first, 7), (&second, 8), (b"Z", 9)]);
        assert_eq!(page(&block, b"", 53), ((0, 1, 53, 1), records[..53].to_vec()));
        assert_eq!(page(&block, &first, 53), ((0, 1, 53, 1), records[53..106].to_vec()));
        assert_eq!(page(&block, &second, 53), ((0, 1, 6, 0), filled(&records[106..], 53)));
        assert_eq!(page(&block, b"", 105), ((0, 1, 53, 1), filled(&records[..53], 105)));
        assert_eq!(page(&block, &first, 105), ((0, 2, 59, 0), filled(&records[53..], 105)));
        assert_eq!(page(&block, b"", 106), ((0, 2, 106, 1), records[..106].to_vec()));
        assert_eq!(page(&block, &second, 106), ((0, 1, 6, 0), filled(&records[106..], 106)));
        assert_eq!(page(&block, b"", 111), ((0, 2, 106, 1), filled(&records[..106], 111)));
        assert_eq!(page(&block, b"", 112), ((0, 3, 112, 0), records.clone()));
        assert_eq!(page(&block, b"", 113), ((0, 3, 112, 0), filled(&records, 113)));
    }
}

/// Order is by unsigned bytes, a label before its extensions; the key given need not be shown.
fn greater_keys() {
    let block = with_pairs(2, 24, &[(&[0x00], 1), (&[0x00, 0x00], 2), (&[0x7F], 3), (&[0x80], 4), (&[0xFF, 0xFF], 5)]);
    let (all, _) = page(&block, b"", 400);
    assert_eq!(all, (0, 5, 32, 0));
    let starts: [(&[u8], u32); 9] = [
        (&[0x00], 4),
        (&[0x00, 0x00], 3),
        (&[0x00, 0x00, 0x00], 3),
        (&[0x7F], 2),
        (&[0x7F, 0xFF], 2),
        (&[0x80], 1),
        (&[0xFF], 1),
        (&[0xFF, 0xFF], 0),
        (&[0xFF; 48], 0),
    ];
    for (start, left) in starts {
        assert_eq!(page(&block, start, 53).0 .1, left, "after {start:02X?}");
    }
}

/// An empty table, and a table of which nothing is left: done, with no records and the buffer as it was.
fn nothing_to_print() {
    for edition in [1, 2] {
        let mut block = fresh_of(edition, 4);
        assert_eq!(page(&block, b"", 53), ((0, 0, 0, 0), filled(&[], 53)));
        insert(&mut block, b"A", 1);
        make(&mut block, Call::Remove { key: b"A".to_vec() });
        assert_eq!(page(&block, b"", 53), ((0, 0, 0, 0), filled(&[], 53)));
    }
}

/// 1, 2, 3 and then 15, each before what comes after it, and always with the buffer as it was.
fn answers_in_order() {
    for size in [0, 52, 53, 200] {
        for key in [&[][..], &[0x41; 49], &[0x41; 300]] {
            let answer = |block: &[u8]| page(block, key, size);
            assert_eq!(answer(&[0; 3 * CELL]), ((1, 0, 0, 0), filled(&[], size)));
            assert_eq!(answer(&[0; 4 * CELL]), ((2, 0, 0, 0), filled(&[], size)));
            let expected = match (key.len(), size) {
                (49.., _) => 3,
                (_, 0..=52) => 15,
                _ => 0,
            };
            assert_eq!(answer(&fresh(4)), ((expected, 0, 0, 0), filled(&[], size)));
        }
    }
    assert_eq!(page(&fresh(4), &[0x41; 48], 53).0, (0, 0, 0, 0));
}

/// Records are read back from their bytes; bytes that are cut or go on are no whole records.
fn records_read_back() {
    let records = bytes("01 35 00000002  00 7FFFFFFF  03 434841 00000000");
    let pairs = vec![(b"5".to_vec(), 2), (Vec::new(), 0x7FFF_FFFF), (b"CHA".to_vec(), 0)];
    assert_eq!(pairs_in(&records), Some(pairs));
    assert_eq!(pairs_in(&[]), Some(Vec::new()));
    let ends = [0, 6, 11, 19];
    for end in 0..records.len() {
        assert_eq!(pairs_in(&records[..end]).is_some(), ends.contains(&end));
    }
    let mut random = Random::seeded(53);
    assert!([0, 1, 7, 8, 9, 53].into_iter().all(|size| drawn_bytes(size, &mut random).len() == size));
}
