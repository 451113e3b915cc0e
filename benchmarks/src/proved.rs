//! The proved library behind its C functions; all use of them stands in this file.

use crate::plain::{Next, Page};

extern "C" {
    fn register_format(block: *mut u8, block_len: usize, edition: u32) -> u8;
    fn register_validate(block: *const u8, block_len: usize) -> u8;
    fn register_insert(
        block: *mut u8,
        block_len: usize,
        key: *const u8,
        key_len: usize,
        value: u32,
        count: *mut u32,
    ) -> u8;
    fn register_write_list(
        block: *const u8,
        block_len: usize,
        key: *const u8,
        key_len: usize,
        value: u32,
        list: *mut u8,
        list_len: usize,
        records: *mut u32,
    ) -> u8;
    fn register_remove(block: *mut u8, block_len: usize, key: *const u8, key_len: usize, count: *mut u32) -> u8;
    fn register_get(block: *const u8, block_len: usize, key: *const u8, key_len: usize, value: *mut u32) -> u8;
    fn register_next_key(
        block: *const u8,
        block_len: usize,
        key: *const u8,
        key_len: usize,
        size: *mut u32,
        key_out: *mut u8,
    ) -> u8;
    fn register_page(
        block: *const u8,
        block_len: usize,
        key: *const u8,
        key_len: usize,
        buffer: *mut u8,
        buffer_len: usize,
        records: *mut u32,
        used: *mut u32,
        more: *mut u32,
    ) -> u8;
    fn register_snapshot(block: *mut u8, block_len: usize, slot: u32) -> u8;
    fn exports_is_valid_order(word: u16) -> u8;
}

/// Whether an order word is valid.
pub fn is_valid_order(word: u16) -> bool {
    // It takes and gives numbers only.
    unsafe { exports_is_valid_order(word) == 1 }
}

/// Makes the block a fresh one of an edition: the answer number.
pub fn format(block: &mut [u8], edition: u32) -> u8 {
    // The pointer comes with the length of its own slice.
    unsafe { register_format(block.as_mut_ptr(), block.len(), edition) }
}

/// Whether the block is sound, as an answer number.
pub fn validate(block: &[u8]) -> u8 {
    // The pointer comes with the length of its own slice.
    unsafe { register_validate(block.as_ptr(), block.len()) }
}

/// Looks a key up: the answer number and the value.
pub fn get(block: &[u8], key: &[u8]) -> (u8, u32) {
    let mut value = 0;
    // Each pointer comes with the length of its own slice, and no slice overlaps another.
    let answer = unsafe { register_get(block.as_ptr(), block.len(), key.as_ptr(), key.len(), &mut value) };
    (answer, value)
}

/// The least key that is greater than the given one.
pub fn next_key(block: &[u8], key: &[u8]) -> Next {
    let mut next = Next { answer: 0, size: 0, key: [0; 48] };
    let out = next.key.as_mut_ptr();
    // Each pointer comes with the length of its own slice, and no slice overlaps another.
    next.answer =
        unsafe { register_next_key(block.as_ptr(), block.len(), key.as_ptr(), key.len(), &mut next.size, out) };
    next
}

/// Writes the records of the keys that are greater than the given one, in order, until one does not fit.
pub fn page(block: &[u8], after: &[u8], buffer: &mut [u8]) -> Page {
    let (mut page, mut more) = (Page::default(), 0);
    // Each pointer comes with the length of its own slice, and no slice overlaps another.
    page.answer = unsafe {
        register_page(
            block.as_ptr(),
            block.len(),
            after.as_ptr(),
            after.len(),
            buffer.as_mut_ptr(),
            buffer.len(),
            &mut page.records,
            &mut page.used,
            &mut more,
        )
    };
    page.more = more != 0;
    page
}

/// Enters a key with its value: the answer number and the count of cells taken.
pub fn insert(block: &mut [u8], key: &[u8], value: u32) -> (u8, u32) {
    let mut count = 0;
    // Each pointer comes with the length of its own slice, and no slice overlaps another.
    let answer = unsafe { register_insert(block.as_mut_ptr(), block.len(), key.as_ptr(), key.len(), value, &mut count) };
    (answer, count)
}

/// Writes the insertion of a key with its value into a list of stores: the answer number and the count of records.
pub fn write_list(block: &[u8], key: &[u8], value: u32, list: &mut [u8]) -> (u8, u32) {
    let mut records = 0;
    // Each pointer comes with the length of its own slice, and no slice overlaps another.
    let answer = unsafe {
        register_write_list(
            block.as_ptr(),
            block.len(),
            key.as_ptr(),
            key.len(),
            value,
            list.as_mut_ptr(),
            list.len(),
            &mut records,
        )
    };
    (answer, records)
}

/// Removes a key: the answer number and the count of cells taken.
pub fn remove(block: &mut [u8], key: &[u8]) -> (u8, u32) {
    let mut count = 0;
    // Each pointer comes with the length of its own slice, and no slice overlaps another.
    let answer = unsafe { register_remove(block.as_mut_ptr(), block.len(), key.as_ptr(), key.len(), &mut count) };
    (answer, count)
}

/// Sets a snapshot's slot to the present root: the answer number.
pub fn snapshot(block: &mut [u8], slot: u32) -> u8 {
    // The pointer comes with the length of its own slice.
    unsafe { register_snapshot(block.as_mut_ptr(), block.len(), slot) }
}
