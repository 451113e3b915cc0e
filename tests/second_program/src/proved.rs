//! The proved library behind its C functions; all use of them stands in this file.

use crate::calls::{Call, Outcome};
use crate::compare::Other;
use crate::lists::{Ended, List};
use crate::pages::Page;
use crate::verdict::Question;
use crate::write_list::Asked;

extern "C" {
    fn register_format(block: *mut u8, block_len: usize, edition: u32) -> u8;
    fn register_validate(block: *const u8, block_len: usize) -> u8;
    fn register_insert(
        block: *mut u8,
        block_len: usize,
        key: *const u8,
        key_len: usize,
        value: u32,
        count: *mut u32,
    ) -> u8;
    fn register_remove(block: *mut u8, block_len: usize, key: *const u8, key_len: usize, count: *mut u32) -> u8;
    fn register_get(block: *const u8, block_len: usize, key: *const u8, key_len: usize, value: *mut u32) -> u8;
    fn register_next_key(
        block: *const u8,
        block_len: usize,
        key: *const u8,
        key_len: usize,
        size: *mut u32,
        key_out: *mut u8,
    ) -> u8;
    fn register_page(
        block: *const u8,
        block_len: usize,
        key: *const u8,
        key_len: usize,
        buffer: *mut u8,
        buffer_len: usize,
        records: *mut u32,
        used: *mut u32,
        more: *mut u32,
    ) -> u8;
    fn register_write_list(
        block: *const u8,
        block_len: usize,
        key: *const u8,
        key_len: usize,
        value: u32,
        list: *mut u8,
        list_len: usize,
        records: *mut u32,
    ) -> u8;
    fn register_snapshot(block: *mut u8, block_len: usize, slot: u32) -> u8;
    fn register_restore(block: *mut u8, block_len: usize, slot: u32) -> u8;
    fn register_release(block: *mut u8, block_len: usize, slot: u32) -> u8;
    fn register_verdict(
        block: *const u8,
        block_len: usize,
        label: *const u8,
        label_len: usize,
        year: u32,
        month: u32,
        day: u32,
        unit: u32,
        degrees: f32,
        kind: u32,
        low: f32,
        high: f32,
        section: f32,
        length: f32,
        dose: *mut f32,
    ) -> u8;
    fn exports_run_calls(
        block: *mut u8,
        block_len: usize,
        edition: u32,
        calls: *const u8,
        calls_len: usize,
        answers: *mut u8,
        answers_len: usize,
        count: *mut usize,
    ) -> u8;
    fn exports_is_valid_order(word: u16) -> u8;
}

/// Bytes set before and after the block; an odd number, so that the block stands at an odd address.
const MARGIN: usize = 37;

/// What stands in the margins and in values that are still to be given.
const FILLER: u8 = 0xA5;

/// Bytes with a margin on either side, to be lent.
fn with_margins(bytes: &[u8]) -> Vec<u8> {
    let mut lent = vec![FILLER; bytes.len() + 2 * MARGIN];
    lent[MARGIN..][..bytes.len()].copy_from_slice(bytes);
    lent
}

/// Takes lent bytes back; their margins must be as they were.
fn take_back(bytes: &mut [u8], lent: &[u8]) {
    let outside = lent[..MARGIN].iter().chain(&lent[MARGIN + bytes.len()..]);
    assert!(outside.into_iter().all(|byte| *byte == FILLER), "the library wrote outside of what it was lent");
    bytes.copy_from_slice(&lent[MARGIN..][..bytes.len()]);
}

/// The library as the other program.
pub const OTHER: Other = Other { call: perform, list: run_list, order_word };

/// Asks the library whether an order word is valid.
fn order_word(word: u16) -> bool {
    // It takes and gives numbers only.
    let answer = unsafe { exports_is_valid_order(word) };
    assert!(answer <= 1, "the answer is 0 or 1");
    answer == 1
}

/// Makes a call on the library, on a copy of the block whose margins must stay as they are.
fn perform(block: &mut [u8], call: &Call) -> Outcome {
    let mut lent = with_margins(block);
    let outcome = perform_lent(&mut lent[MARGIN..][..block.len()], call);
    take_back(block, &lent);
    outcome
}

/// Runs a list of calls on the library, on copies of the block, the calls and the answers.
fn run_list(list: &mut List) -> Ended {
    let (mut block, calls, mut answers) = (with_margins(&list.block), list.bytes.clone(), with_margins(&list.answers));
    let mut count = usize::MAX;
    // Each pointer comes with the length of its own slice, and no slice overlaps another.
    let number = unsafe {
        exports_run_calls(
            block[MARGIN..].as_mut_ptr(),
            list.block.len(),
            list.edition,
            calls.as_ptr(),
            calls.len(),
            answers[MARGIN..].as_mut_ptr(),
            list.answers.len(),
            &mut count,
        )
    };
    take_back(&mut list.block, &block);
    take_back(&mut list.answers, &answers);
    list.bytes = calls;
    Ended { number, count }
}

/// Makes a call on the library; each value starts with a filler, so that a refusal must set it to zero.
fn perform_lent(block: &mut [u8], call: &Call) -> Outcome {
    let (start, size) = (block.as_mut_ptr(), block.len());
    let mut outcome = unanswered();
    let number = &mut outcome.number;
    // Each pointer comes with the length of its own slice, and no slice overlaps another.
    outcome.answer = unsafe {
        match call {
            Call::Insert { key, value } => register_insert(start, size, key.as_ptr(), key.len(), *value, number),
            Call::Remove { key } => register_remove(start, size, key.as_ptr(), key.len(), number),
            Call::Get { key } => register_get(start, size, key.as_ptr(), key.len(), number),
            Call::NextKey { key } => {
                outcome.key = [FILLER; 48];
                register_next_key(start, size, key.as_ptr(), key.len(), number, outcome.key.as_mut_ptr())
            }
            Call::Page(asked) => return page(start, size, asked),
            Call::WriteList(asked) => return write_list(start, size, asked),
            Call::Format { edition } => without_value(number, register_format(start, size, *edition)),
            Call::Validate => without_value(number, register_validate(start, size)),
            Call::Snapshot { slot } => without_value(number, register_snapshot(start, size, *slot)),
            Call::Restore { slot } => without_value(number, register_restore(start, size, *slot)),
            Call::Release { slot } => without_value(number, register_release(start, size, *slot)),
            Call::Verdict(question) => {
                let (answer, dose) = verdict(start, size, question);
                outcome.dose = dose.to_bits();
                without_value(number, answer)
            }
        }
    };
    outcome
}

/// An outcome whose number is still to be given.
fn unanswered() -> Outcome {
    Outcome { number: u32::from_be_bytes([FILLER; 4]), ..Outcome::bare(0) }
}

/// The library's page, on a copy of the buffer.
unsafe fn page(start: *const u8, size: usize, asked: &Page) -> Outcome {
    let Page { key, buffer } = asked;
    let mut outcome = unanswered();
    let (records, page) = (&mut outcome.number, &mut outcome.page);
    (page.used, page.more) = (*records, *records);
    (outcome.answer, outcome.buffer) = lend(buffer, |bytes, room| {
        register_page(start, size, key.as_ptr(), key.len(), bytes, room, records, &mut page.used, &mut page.more)
    });
    outcome
}

/// The library's write list, on a copy of the buffer.
unsafe fn write_list(start: *const u8, size: usize, asked: &Asked) -> Outcome {
    let Asked { key, value, buffer } = asked;
    let mut outcome = unanswered();
    let records = &mut outcome.number;
    (outcome.answer, outcome.buffer) = lend(buffer, |bytes, room| {
        register_write_list(start, size, key.as_ptr(), key.len(), *value, bytes, room, records)
    });
    outcome
}

/// Lends a copy of a buffer to a call; gives the answer and what then stands in the copy.
fn lend(buffer: &[u8], call: impl FnOnce(*mut u8, usize) -> u8) -> (u8, Vec<u8>) {
    let mut lent = with_margins(buffer);
    let answer = call(lent[MARGIN..].as_mut_ptr(), buffer.len());
    let mut taken = buffer.to_vec();
    take_back(&mut taken, &lent);
    (answer, taken)
}

/// The answer of a call that gives no number beside it.
fn without_value(number: &mut u32, answer: u8) -> u8 {
    *number = 0;
    answer
}

/// The library's verdict and dose.
unsafe fn verdict(start: *const u8, size: usize, question: &Question) -> (u8, f32) {
    let mut dose = f32::from_be_bytes([FILLER; 4]);
    let answer = register_verdict(
        start,
        size,
        question.label.as_ptr(),
        question.label.len(),
        question.year,
        question.month,
        question.day,
        question.unit,
        question.degrees,
        question.kind,
        question.low,
        question.high,
        question.section,
        question.length,
        &mut dose,
    );
    (answer, dose)
}
