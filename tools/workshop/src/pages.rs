//! All that a block shows, page by page: each page is read from its bytes, and the next one begins after its last label.

use crate::proved::{self, Told, CELL_SIZE, MOST_CELLS_LENT};
use crate::trouble::No;

/// The most bytes of one record: a length byte, 48 of a label, 4 of its value.
const MOST_OF_A_RECORD: usize = 53;

/// As many bytes as no block fills, since each record has its value in a word of its own: every larger page would be the same, so
/// none larger is ever lent.
const MOST_LENT: usize = MOST_CELLS_LENT * CELL_SIZE / 4 * MOST_OF_A_RECORD;

/// A label with its value.
pub struct Record {
    pub label: Vec<u8>,
    pub value: u32,
}

/// What a page tells of itself, and its records.
pub struct Page {
    pub told: Told,
    pub records: Vec<Record>,
}

/// The pages of a block in buffers of this size, from the empty label on until none remain.
pub fn all(block: &[u8], size: u32) -> Result<Vec<Page>, No> {
    let mut buffer = vec![0; usize::try_from(size).unwrap_or(MOST_LENT).min(MOST_LENT)];
    let mut pages = Vec::new();
    let mut label = Vec::new();
    loop {
        let told = proved::page(block, &label, &mut buffer)?;
        let records = read_records(&buffer[..told.used as usize]);
        let last = records.last().map(|record| record.label.clone());
        pages.push(Page { told, records });
        match last {
            Some(last) if told.more => label = last,
            _ => return Ok(pages),
        }
    }
}

/// How many labels a block shows: the records of one page with room for all.
pub fn count(block: &[u8]) -> Result<u32, No> {
    Ok(all(block, MOST_LENT as u32)?.iter().map(|page| page.told.records).sum())
}

/// The records that some bytes are, one behind the other.
fn read_records(bytes: &[u8]) -> Vec<Record> {
    let mut records = Vec::new();
    let mut rest = bytes;
    while let Some((record, past)) = read_record(rest) {
        records.push(record);
        rest = past;
    }
    records
}

/// The record at the front of some bytes, and the bytes past it: the label's length, the label, its value highest byte first.
fn read_record(bytes: &[u8]) -> Option<(Record, &[u8])> {
    let (length, rest) = bytes.split_first()?;
    let (label, rest) = rest.split_at_checked(usize::from(*length))?;
    let (value, rest) = rest.split_first_chunk()?;
    Some((Record { label: label.to_vec(), value: u32::from_be_bytes(*value) }, rest))
}
