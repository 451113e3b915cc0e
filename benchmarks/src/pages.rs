//! Pages: those of many sizes after many labels, checked; that of a whole register and all of one size, measured.

use crate::plain::{Page, LONGEST_KEY};
use crate::printing::LONGEST_RECORD;
use crate::timing::measure;
use crate::{plain, proved};
use std::collections::BTreeMap;
use std::hint::black_box;

/// The bytes of the buffer for the pages that are measured.
const SIZE: usize = 4096;

/// The bytes of the buffers that both programs are compared on: three that are too short, then from the shortest on.
const SIZES: [usize; 10] = [0, 1, 52, LONGEST_RECORD, 54, 69, 106, 127, 1000, SIZE];

/// How many bytes all blocks of one measurement have.
const BYTES: usize = 1 << 24;

/// A call for the page after a label.
type Call = fn(&[u8], &[u8], &mut [u8]) -> Page;

/// Checks that both programs give the same pages after these labels, and that the pages of every size, one after the other, are
/// the records of the map.
pub fn compare(block: &[u8], map: &BTreeMap<Vec<u8>, u32>, labels: &[Vec<u8>]) {
    compare_refusals(block);
    let all = records_of(map);
    for size in SIZES.into_iter().chain([whole(&all)]) {
        let bounds = [&[][..], &[0xFF; LONGEST_KEY], &[0; LONGEST_KEY + 1]];
        for label in labels.iter().map(Vec::as_slice).chain(bounds) {
            page(block, label, size);
        }
        if size >= LONGEST_RECORD {
            let pages: Vec<u8> = pages(block, size).into_iter().flat_map(|(_, records)| records).collect();
            assert!(pages == all, "the pages of {size} bytes, one after the other");
        }
    }
}

/// Checks the refusals, each with the reasons for those after it too: the block's size, the block, the label, the buffer.
fn compare_refusals(block: &[u8]) {
    let (mut unsound, long) = (block.to_vec(), [0; LONGEST_KEY + 1]);
    unsound[block.len() - 1] = 0;
    for (block, label, answer) in
        [(&unsound[1..], &long[..], 1), (&unsound, &long, 2), (block, &long, 3), (block, &[], 15)]
    {
        assert_eq!(page(block, label, LONGEST_RECORD - 1).0, Page { answer, ..Page::default() }, "refusal {answer}");
    }
}

/// The records of a map in rising order.
fn records_of(map: &BTreeMap<Vec<u8>, u32>) -> Vec<u8> {
    let record = |(label, value): (&Vec<u8>, &u32)| [&[label.len() as u8], &label[..], &value.to_be_bytes()].concat();
    map.iter().flat_map(record).collect()
}

/// The bytes of a buffer for all records.
fn whole(records: &[u8]) -> usize {
    records.len().max(LONGEST_RECORD)
}

/// The page after a label and its buffer, on which both programs must agree to the last byte.
fn page(block: &[u8], label: &[u8], size: usize) -> (Page, Vec<u8>) {
    let (mut ours, mut theirs) = (vec![0xA5; size], vec![0xA5; size]);
    let page = proved::page(block, label, &mut ours);
    assert_eq!(page, plain::page(block, label, &mut theirs), "the page of {size} bytes after {label:?}");
    assert!(ours == theirs, "the bytes of the page of {size} bytes after {label:?}");
    (page, ours)
}

/// The label that each page of a size is after, and the page's records.
fn pages(block: &[u8], size: usize) -> Vec<(Vec<u8>, Vec<u8>)> {
    let (mut pages, mut label) = (Vec::new(), Vec::new());
    loop {
        let (page, mut records) = page(block, &label, size);
        records.truncate(page.used as usize);
        let last = last_label(&records);
        pages.push((label, records));
        if !page.more {
            return pages;
        }
        label = last;
    }
}

/// The label of the last record, or none.
fn last_label(records: &[u8]) -> Vec<u8> {
    let (mut last, mut next) = (&[][..], records);
    while let Some((size, rest)) = next.split_first() {
        last = &rest[..usize::from(*size)];
        next = &rest[last.len() + 4..];
    }
    last.to_vec()
}

/// Measures the page of a whole register, and all pages of one size.
pub fn report(start: &str, block: &[u8], map: &BTreeMap<Vec<u8>, u32>) {
    report_pages(&format!("{start} | page, whole"), block, &[Vec::new()], whole(&records_of(map)));
    let labels: Vec<Vec<u8>> = pages(block, SIZE).into_iter().map(|(label, _)| label).collect();
    report_pages(&format!("{start} | page, {SIZE}"), block, &labels, SIZE);
}

/// Measures the pages of a size after these labels, again and again, and prints one line of the table.
fn report_pages(start: &str, block: &[u8], labels: &[Vec<u8>], size: usize) {
    let calls = BYTES / block.len();
    let work = |page: Call| {
        let mut buffer = vec![0; size];
        let mut used = |label: &[u8]| u64::from(page(black_box(block), black_box(label), black_box(&mut buffer)).used);
        labels.iter().cycle().take(calls).map(|label| used(label)).sum()
    };
    let taken = measure(&|| work(proved::page), &|| work(plain::page));
    let (ours, theirs) = (taken.ours / calls as f64, taken.theirs / calls as f64);
    println!("{start} | plain | {ours:.0} | {theirs:.0} | {:.2} |", taken.ratio);
}
