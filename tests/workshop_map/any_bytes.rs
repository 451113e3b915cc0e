//! The walk of the map on bytes that no library has judged: it ends, and counts no cell twice and none that cannot be used.

mod proved {
    /// The size of a cell in bytes.
    pub const CELL_SIZE: usize = 32;
}

#[allow(dead_code)]
#[path = "../../tools/workshop/src/map"]
mod map {
    pub mod block;
    pub mod reached;
    pub mod reading;
}

use map::block::Block;
use map::reached::{Reached, What};

/// How many blocks are made up.
const BLOCKS: u64 = 20_000;

/// Numbers that look random and are the same in every run.
struct Numbers(u64);

impl Numbers {
    /// The next number below a limit.
    fn below(&mut self, limit: u64) -> u64 {
        self.0 = self.0.wrapping_mul(6_364_136_223_846_793_005).wrapping_add(1_442_695_040_888_963_407);
        (self.0 >> 33) % limit
    }

    /// A block of so many cells: bytes of any value, or words that mostly lead into it, so that walks go far and in circles.
    fn block(&mut self, cells: u64) -> Vec<u8> {
        let pointers = self.below(4) > 0;
        let word = |numbers: &mut Numbers| match numbers.below(8) {
            0 if pointers => 0xFFFF_FFFF,
            1 if pointers => 0x0000_0026,
            _ if pointers => (numbers.below(cells + 1) * 32 + 0x1A + numbers.below(6)) as u32,
            _ => numbers.below(0x1_0000_0000) as u32,
        };
        let mut bytes: Vec<u8> = (0..cells * 8).flat_map(|_| word(self).to_be_bytes()).collect();
        if let Some(place) = bytes.len().checked_sub(16) {
            bytes[place] = self.below(256) as u8;
            bytes[place + 15] = self.below(3) as u8;
        }
        if self.below(8) == 0 {
            bytes.truncate(self.below(bytes.len() as u64 + 1) as usize);
        }
        bytes
    }
}

/// Walks over blocks of any bytes.
fn main() {
    let mut numbers = Numbers(1);
    let mut used = 0;
    for _ in 0..BLOCKS {
        let cells = numbers.below(24);
        let bytes = numbers.block(cells);
        let reached = Reached::of(Block(&bytes));
        assert_eq!(reached.all().count(), bytes.len() / 32);
        assert_eq!(reached.used() + reached.free(), reached.block.usable());
        assert!(reached.all().enumerate().all(|(cell, what)| (cell == 0) == (what == What::NeverUsed)));
        used += reached.used();
    }
    assert!(used > 0, "no walk reached a cell");
    println!("{BLOCKS} blocks of any bytes: each walk ends, {used} cells reached");
}
