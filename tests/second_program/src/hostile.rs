//! Hostile and damaged blocks: sound ones with one rule broken, noise, bad lengths.

use crate::foreign::{junk, write_trailer};
use crate::model::{pointer, put_word, split_children, word_at, Node, Place, Seat, Store, CELL, EDITIONS};
use crate::random::Random;

/// What stands at an offset that has a meaning.
#[derive(Clone, Copy, PartialEq)]
enum Role {
    Child,
    Part,
    Link,
    Order,
    Character,
    PrefixFlag,
    PrefixValue,
    EmbeddedOffset,
    SplitCell,
    SparseCell,
}

/// All roles; those that many blocks are without stand more than once.
const ROLES: [Role; 15] = [
    Role::Child,
    Role::Order,
    Role::Character,
    Role::SparseCell,
    Role::PrefixFlag,
    Role::PrefixValue,
    Role::EmbeddedOffset,
    Role::EmbeddedOffset,
    Role::Link,
    Role::Link,
    Role::Part,
    Role::SplitCell,
    Role::SplitCell,
    Role::SplitCell,
    Role::SplitCell,
];

/// An offset in the block and its role.
type Spot = (usize, Role);

/// The cell of a node that was decoded from a block.
fn held(place: Place) -> usize {
    match place {
        Place::Held(cell) => cell * CELL,
        Place::Fresh => unreachable!("a decoded node is held"),
    }
}

/// Every place of a node's tree where a byte has a meaning that can be spoilt.
fn find_spots(node: &Node, spots: &mut Vec<Spot>) {
    match node {
        Node::Leaf(_) => {}
        Node::Chain { place, child, .. } => {
            spots.push((held(*place) + 0x1C, Role::Child));
            find_spots(child, spots);
        }
        Node::Prefix { seat: Seat::Standalone(place), linked, .. } => {
            let cell = held(*place);
            spots.extend([(cell, Role::PrefixValue), (cell + 4, Role::PrefixFlag), (cell + 0x1C, Role::Link)]);
            find_spots(linked, spots);
        }
        Node::Prefix { seat: Seat::Embedded, linked, .. } => {
            if let Node::Chain { place, .. } | Node::Split { place, .. } = &**linked {
                spots.extend([(held(*place), Role::PrefixValue), (held(*place) + 4, Role::EmbeddedOffset)]);
            }
            find_spots(linked, spots);
        }
        Node::Sparse { place, children } => {
            let cell = held(*place);
            spots.extend([(cell, Role::SparseCell), (cell + 0x1E, Role::Order)]);
            for (position, (_, child)) in children.iter().enumerate() {
                spots.extend([(cell + 4 * position, Role::Child), (cell + 0x18 + position, Role::Character)]);
                find_spots(child, spots);
            }
        }
        Node::Split { place, mids } => {
            spots.push((held(*place), Role::SplitCell));
            for (leading, mid) in mids {
                spots.push((held(mid.place), Role::SplitCell));
                spots.push((held(*place) + 0x10 + 4 * *leading as usize, Role::Part));
                for (middle, end) in &mid.ends {
                    spots.push((held(end.place), Role::SplitCell));
                    spots.push((held(mid.place) + 4 * *middle as usize, Role::Part));
                    let words = end.children.keys().map(|last| held(end.place) + 4 * *last as usize);
                    spots.extend(words.map(|offset| (offset, Role::Child)));
                }
            }
            split_children(mids).for_each(|(_, child)| find_spots(child, spots));
        }
    }
}

/// The cells of a tree's embedded prefixes.
pub fn embedded_cells(top: &Node) -> Vec<usize> {
    let mut spots = Vec::new();
    find_spots(top, &mut spots);
    spots.retain(|(_, role)| *role == Role::EmbeddedOffset);
    spots.into_iter().map(|(offset, _)| offset / CELL).collect()
}

/// Breaks a sound block in one place.
pub fn damage(block: &mut [u8], random: &mut Random) {
    let Ok(store) = Store::decode(block) else {
        return flip(block, 0..block.len(), random);
    };
    let trailer = block.len() - CELL;
    let mut spots = vec![(trailer, Role::Child)];
    for (slot, snapshot) in store.snapshots.iter().enumerate() {
        if snapshot.is_some() {
            spots.push((trailer + 4 + 4 * slot, Role::Child));
        }
    }
    for tree in store.trees() {
        tree.top.iter().for_each(|top| find_spots(top, &mut spots));
    }
    match random.weighted(&[8, 10, 6, 12, 50, 4, 4]) {
        0 => flip(block, 0..block.len(), random),
        1 => {
            let (offset, _) = random.pick(&spots);
            flip(block, offset..(offset + 4).min(trailer + CELL), random);
        }
        2 => flip(block, trailer..trailer + CELL, random),
        3 => spoil_trailer(&mut block[trailer..], random),
        4 => {
            let (offset, role) = pick_by_role(&spots, random);
            spoil_spot(block, offset, role, &spots, random);
        }
        5 => {
            let prefix = spots.iter().find(|spot| spot.1 == Role::PrefixValue);
            let slot = random.pick(&[0, 0, 1, 2, 3]);
            put_word(block, trailer + 4 * slot, prefix.map_or(u32::MAX, |(offset, _)| pointer(offset / CELL, 0x1F)));
            block[trailer + 0x10] |= (1 << slot) >> 1;
        }
        _ => {
            let cell = random.pick(&spots).0 / CELL * CELL;
            let noise = junk(1, random);
            block[cell..cell + CELL].copy_from_slice(&noise);
        }
    }
}

/// A spot of a role that is drawn first, so that a block's few prefixes and splits are met as often as its chains.
fn pick_by_role(spots: &[Spot], random: &mut Random) -> Spot {
    let start = random.below(ROLES.len());
    let mut roles = ROLES.iter().cycle().skip(start);
    loop {
        let role = roles.next().expect("the roles come round again");
        let alike: Vec<Spot> = spots.iter().copied().filter(|spot| spot.1 == *role).collect();
        if !alike.is_empty() {
            return random.pick(&alike);
        }
    }
}

/// Turns one bit of a range over.
fn flip(block: &mut [u8], range: std::ops::Range<usize>, random: &mut Random) {
    if !range.is_empty() {
        let offset = random.between(range.start, range.end - 1);
        block[offset] ^= 1 << random.below(8);
    }
}

/// Breaks one rule of the trailer.
fn spoil_trailer(trailer: &mut [u8], random: &mut Random) {
    let cells = word_at(trailer, 0x14);
    match random.below(6) {
        0 => trailer[0x10] ^= 1 << random.below(8),
        1 => trailer[random.pick(&[0x11, 0x12, 0x13, 0x18, 0x19, 0x1A, 0x1B])] = random.byte() | 1,
        2 => {
            let others = [0, 3, cells - 1, cells + 1, cells * CELL as u32, cells << 8, cells | 1 << 16];
            put_word(trailer, 0x14, random.pick(&others));
        }
        3 => put_word(trailer, 0x1C, random.pick(&[0, 1, 1, 2, 3, 3, 4, 0x100_0000, 0x101, u32::MAX])),
        4 => {
            let slot = random.below(3);
            trailer[0x10] &= !(1 << slot);
            put_word(trailer, 4 + 4 * slot, random.pick(&[1, 0x20, 0x3B, 0x8000_0000, u32::MAX]));
        }
        _ => {
            let slot = random.below(4);
            trailer[0x10] |= (1 << slot) >> 1;
            put_word(trailer, 4 * slot, random.pick(&[0x3F, 0x5F, 0x8000_0000, u32::MAX, 0x3D, 0x1B]));
        }
    }
}

/// Breaks the rule of one place inside a tree.
fn spoil_spot(block: &mut [u8], offset: usize, role: Role, spots: &[Spot], random: &mut Random) {
    match role {
        Role::Child | Role::Link | Role::Part => {
            let mut word = hostile_word(block, offset, spots, random);
            if role == Role::Link && random.chance(30) {
                word = random.pick(&[0, u32::MAX, 0x8000_0000, pointer(offset / CELL, 0x1F)]);
            }
            put_word(block, offset, word);
        }
        Role::Order => {
            let old = u16::from_be_bytes([block[offset], block[offset + 1]]);
            let chosen = [0, 1, 6, 7, 0x26, 0x8129, old.wrapping_add(1), old / 6, old % 6 * 6 + old / 6, 0xFFFF, 46656];
            let order = if random.chance(30) { random.word() as u16 } else { random.pick(&chosen) };
            block[offset..offset + 2].copy_from_slice(&order.to_be_bytes());
        }
        Role::Character => {
            let first = offset / CELL * CELL + 0x18;
            let other = first + random.below(6);
            match random.below(3) {
                0 => block[offset] = block[other],
                1 => block.swap(offset, other),
                _ => block.swap(first, first + 1),
            }
        }
        Role::PrefixFlag | Role::EmbeddedOffset => {
            let about = [0, 1, 3, 4, 5, 6, 0x10, 0x1A, 0x1B, 0x1C, 0x1D, 0x1E, 0x1F, 0x20, 0x7F, 0x80, 0xFE, 0xFF];
            block[offset] = random.pick(&about);
        }
        Role::PrefixValue => block[offset] |= 0x80,
        Role::SplitCell => {
            let from = random.pick(&[0, 0x10]);
            block[offset + from..offset + CELL].fill(0);
        }
        Role::SparseCell => {
            let word = random.pick(&[0, 0x8000_0000, u32::MAX]);
            put_word(block, offset + 4 * random.below(6), word);
            if random.chance(30) {
                block[offset + 4..offset + 0x18].fill(0);
            }
        }
    }
}

/// A word that may not stand where a pointer stands, or that leads into a cell for the second time.
fn hostile_word(block: &[u8], offset: usize, spots: &[Spot], random: &mut Random) -> u32 {
    let cells = block.len() / CELL;
    let own = offset / CELL;
    let usable = random.between(1, cells - 2);
    let reached = random.pick(spots).0 / CELL;
    match random.below(15) {
        0 => 0,
        1 => random.between(1, 31) as u32,
        2 => pointer(cells - 1, random.below(32)),
        3 => pointer(cells + random.below(3), random.below(32)),
        4 => 0x7FFF_FFFF - random.below(64) as u32,
        5 => pointer(usable, 0x1D),
        6 => random.word() | 1 << 31,
        7 => pointer(reached, 0x1F),
        8 => pointer(own, random.below(32)),
        9 => pointer(reached, random.below(32)),
        10 => pointer(usable, random.below(32)),
        11 => pointer(word_at(block, offset) as usize / CELL % cells, random.pick(&[0x1C, 0x1E, 0x1F, 0x1B, 0])),
        12 => pointer(reached, usize::from(block[reached * CELL + 4]) % 32),
        _ => word_at(block, random.pick(spots).0 / 4 * 4),
    }
}

/// Noise: every cell random, mostly under a valid trailer whose root leads somewhere.
pub fn noise_block(cells: usize, random: &mut Random) -> Vec<u8> {
    let mut block = junk(cells, random);
    if random.chance(85) {
        let root = pointer(random.below(cells + 1), random.below(32));
        write_trailer(&mut block, random.pick(&EDITIONS), root, &[None; 3]);
    }
    block
}

/// A block of a bad length: not a multiple of 32, under 4 cells, or over 2,048.
pub fn bad_length_block(random: &mut Random) -> Vec<u8> {
    let cells = random.pick(&[0, 1, 2, 3, 3, 3]);
    let cells = if random.chance(6) { random.pick(&[2049, 2049, 2050, 4096]) } else { cells };
    let mut block = junk(cells, random);
    if cells > 0 {
        write_trailer(&mut block, random.pick(&EDITIONS), random.pick(&[0, 0x3B, 0x3E]), &[None; 3]);
    }
    if random.chance(50) {
        let whole = random.between(0, 20) * CELL;
        block = junk(24, random);
        block.truncate(whole + random.between(1, CELL - 1));
    }
    block
}
