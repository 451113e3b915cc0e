//! Sound blocks that no history makes: junk in every meaningless byte, odd shapes, shared and cross-read cells.

use crate::calls::valid_length;
use crate::generate::Scene;
use crate::model::{pointer, put_word, Store, CELL, EDITIONS, FIRST_EMBEDDED, LONGEST_KEY, PREFIX, SPLIT};
use crate::random::Random;
use std::collections::{BTreeMap, BTreeSet};

/// A node that has been planted: its pointer, its height in characters, and the cells of its tree.
#[derive(Clone)]
struct Planted {
    word: u32,
    height: usize,
    cells: Vec<usize>,
}

/// A leaf has no cell and no height.
fn leaf(value: u32) -> Planted {
    Planted { word: !(value & 0x7FFF_FFFF), height: 0, cells: Vec::new() }
}

/// Plants trees into a block, writing none but the bytes that have a meaning.
struct Planter<'a> {
    random: &'a mut Random,
    scene: &'a Scene,
    block: Vec<u8>,
    unused: Vec<usize>,
    entered: BTreeSet<usize>,
    /// The cells in which a prefix is embedded.
    embedded: BTreeSet<usize>,
    planted: Vec<Planted>,
    weights: [usize; 4],
    limit: usize,
}

/// How often a child is a leaf, in hundredths, and how a node's kind is drawn: chain, sparse, split.
const WEIGHTS: [[usize; 4]; 7] =
    [[40, 30, 20, 10], [30, 60, 10, 0], [2, 96, 1, 1], [45, 5, 45, 5], [45, 10, 5, 40], [60, 5, 5, 90], [90, 3, 2, 95]];

/// A foreign block of so many cells and of the scene's edition; it is sound when the depth limit is the specification's or
/// less.
pub fn foreign_block(cells: usize, limit: usize, scene: &Scene, random: &mut Random) -> Vec<u8> {
    let mut unused: Vec<usize> = (1..cells - 1).collect();
    random.shuffle(&mut unused);
    unused.truncate(random.between(1, cells - 2));
    let weights = random.pick(&WEIGHTS);
    let block = junk(cells, random);
    let (entered, embedded, planted) = (BTreeSet::new(), BTreeSet::new(), Vec::new());
    let mut planter = Planter { random, scene, block, unused, entered, embedded, planted, weights, limit };
    let root = if planter.random.chance(92) { planter.tree() } else { 0 };
    let mut snapshots = [None; 3];
    for snapshot in &mut snapshots {
        *snapshot = planter.snapshot(root);
    }
    let mut block = planter.block;
    write_trailer(&mut block, scene.edition, root, &snapshots);
    if limit == LONGEST_KEY && random.chance(25) {
        cross_read(&mut block, random);
    }
    block
}

/// Bytes that mean nothing: zeros, ones, anything, or words that look like pointers.
pub fn junk(cells: usize, random: &mut Random) -> Vec<u8> {
    let manner = random.below(5);
    let mut block = Vec::with_capacity(cells * CELL);
    while block.len() < cells * CELL {
        let word = match manner {
            0 => 0,
            1 => u32::MAX,
            2 => pointer(random.below(cells), random.below(32)),
            _ => random.word(),
        };
        block.extend(word.to_be_bytes());
    }
    block
}

/// Writes a trailer with an edition, a root and snapshots; it is valid where they are.
pub fn write_trailer(block: &mut [u8], edition: u32, root: u32, snapshots: &[Option<u32>; 3]) {
    let cells = block.len() / CELL;
    let trailer = &mut block[(cells - 1) * CELL..];
    trailer.fill(0);
    put_word(trailer, 0, root);
    for (slot, snapshot) in snapshots.iter().enumerate() {
        put_word(trailer, 4 + 4 * slot, snapshot.unwrap_or(0));
        trailer[0x10] |= u8::from(snapshot.is_some()) << slot;
    }
    put_word(trailer, 0x14, cells as u32);
    put_word(trailer, 0x1C, edition);
}

/// Aims snapshots at cells that other trees use, at any kind, and keeps those that leave the block sound.
fn cross_read(block: &mut Vec<u8>, random: &mut Random) {
    let cells = block.len() / CELL;
    let trailer = block.len() - CELL;
    for _ in 0..6 {
        let mut aimed = block.clone();
        let slot = random.below(3);
        put_word(&mut aimed, trailer + 4 + 4 * slot, pointer(random.between(1, cells - 2), random.below(32)));
        aimed[trailer + 0x10] |= 1 << slot;
        if Store::decode(&aimed).is_ok() {
            *block = aimed;
        }
    }
}

/// The block of a single sparse node whose order word is given, its characters rising in the order that it lists.
pub fn order_word_block(order: u16, random: &mut Random) -> Vec<u8> {
    let mut block = junk(4, random);
    let digits: Vec<usize> = std::iter::successors(Some(order), |rest| Some(rest / 6))
        .take_while(|rest| *rest > 0)
        .map(|rest| (rest % 6) as usize)
        .collect();
    for position in 0..6 {
        let word = if position < digits.len() { leaf(random.word()).word } else { 0 };
        put_word(&mut block, CELL + 4 * position, word);
    }
    let mut character = random.between(0, 100) as u8;
    for position in digits {
        block[CELL + 0x18 + position] = character;
        character += random.between(1, 15) as u8;
    }
    block[CELL + 0x1E..CELL + 0x20].copy_from_slice(&order.to_be_bytes());
    let edition = random.pick(&EDITIONS);
    write_trailer(&mut block, edition, pointer(1, 0x1E), &[None; 3]);
    assert!(valid_length(block.len()));
    block
}

impl Planter<'_> {
    /// Plants one root's tree and gives its word; NONE where no cell is left.
    fn tree(&mut self) -> u32 {
        self.entered.clear();
        self.node(0).map_or(0, |planted| planted.word)
    }

    /// A snapshot: open, empty, the root, any planted node (a run's middle too), or a tree of its own that may share.
    fn snapshot(&mut self, root: u32) -> Option<u32> {
        match self.random.below(6) {
            0 => None,
            1 => Some(0),
            2 => Some(root),
            3 | 4 if !self.planted.is_empty() => {
                let planted = self.planted[self.random.below(self.planted.len())].clone();
                match planted.word % 32 {
                    0x1F if !self.embedded.contains(&(planted.word as usize / CELL)) => Some(root),
                    0x1F => Some(self.under_prefix(&planted)),
                    kind @ 0..=0x1A => Some(planted.word + self.random.below(0x1C - kind as usize) as u32),
                    _ => Some(planted.word),
                }
            }
            _ => Some(self.tree()),
        }
    }

    /// A word into the cell of an embedded prefix that may be a root: its head, a place in its run, or one before it
    /// where the longer run still fits, value and offset then being characters.
    fn under_prefix(&mut self, planted: &Planted) -> u32 {
        let cell = planted.word as usize / CELL;
        let place = usize::from(self.block[cell * CELL + 4]);
        let earliest = place.saturating_sub(self.limit - planted.height);
        match place {
            0x1C => pointer(cell, place),
            _ if self.random.chance(25) => pointer(cell, self.random.between(earliest, place)),
            _ => pointer(cell, self.random.between(place, 0x1B)),
        }
    }

    /// Takes an unused cell into the tree that is growing.
    fn take(&mut self) -> Option<usize> {
        let cell = self.unused.pop()?;
        self.entered.insert(cell);
        Some(cell)
    }

    /// A node planted before that fits here without entering a cell twice.
    fn shared(&mut self, depth: usize) -> Option<Planted> {
        for _ in 0..3 {
            let place = self.random.below(self.planted.len().max(1));
            let shared = self.planted.get(place)?.clone();
            let apart = shared.cells.iter().all(|cell| !self.entered.contains(cell));
            if apart && depth + shared.height <= self.limit {
                self.entered.extend(&shared.cells);
                return Some(shared);
            }
        }
        None
    }

    /// A child at a depth: a leaf, a node planted before, a prefix, or a new node.
    fn child(&mut self, depth: usize) -> Planted {
        let value = self.scene.value(self.random);
        if depth == self.limit || self.random.chance(self.weights[0]) {
            return leaf(value);
        }
        let shared = if self.random.chance(15) { self.shared(depth) } else { None };
        let embedded = self.scene.edition == 2 && self.random.chance(30);
        let prefix = if !embedded && self.random.chance(20) { self.take() } else { None };
        let node = shared.or_else(|| self.node(depth));
        match (prefix, node) {
            (_, None) => leaf(value),
            (_, Some(node)) if node.word % 32 == 0x1F => node,
            (Some(cell), Some(node)) => self.prefix(cell, value, node),
            (None, Some(node)) if embedded && node.word % 32 <= 0x1C => self.embed(value, node),
            (None, Some(node)) => node,
        }
    }

    /// A prefix in the cell of a chain or head, which an older tree may use as it is; a chain's run is often cut, and
    /// bytes between the offset and the node are left as they are.
    fn embed(&mut self, value: u32, node: Planted) -> Planted {
        let (cell, kind) = (node.word as usize / CELL, (node.word % 32) as u8);
        let first = kind.max(FIRST_EMBEDDED);
        let embedded_before = !self.embedded.insert(cell);
        let place = match kind {
            SPLIT => SPLIT,
            _ if embedded_before => self.block[cell * CELL + 4],
            _ if self.random.chance(70) => first,
            _ => self.random.between(first.into(), 0x1B) as u8,
        };
        put_word(&mut self.block, cell * CELL, value & 0x7FFF_FFFF);
        self.block[cell * CELL + 4] = place;
        self.keep(pointer(cell, PREFIX.into()), node.height - usize::from(place - kind), Vec::new(), &[node])
    }

    /// A prefix over a node, its bytes 05 to 1B left as they are.
    fn prefix(&mut self, cell: usize, value: u32, node: Planted) -> Planted {
        put_word(&mut self.block, cell * CELL, value & 0x7FFF_FFFF);
        self.block[cell * CELL + 4] = 0xFF;
        put_word(&mut self.block, cell * CELL + 0x1C, node.word);
        self.keep(pointer(cell, 0x1F), node.height, vec![cell], &[node])
    }

    /// A chain, sparse or split node, or nothing where no cell is left.
    fn node(&mut self, depth: usize) -> Option<Planted> {
        let weights = self.weights;
        match self.random.weighted(&weights[1..]) {
            1 => self.sparse(depth),
            2 => self.split(depth),
            _ => self.chain(depth),
        }
    }

    /// Remembers a finished node with the cells of its children, for later trees to share.
    fn keep(&mut self, word: u32, height: usize, own: Vec<usize>, children: &[Planted]) -> Planted {
        let mut cells = own;
        cells.extend(children.iter().flat_map(|child| &child.cells));
        let planted = Planted { word, height, cells };
        if self.planted.len() < 100 {
            self.planted.push(planted.clone());
        }
        planted
    }

    /// A chain of any run that the depth allows, what stands before the run left as it is.
    fn chain(&mut self, depth: usize) -> Option<Planted> {
        let cell = self.take()?;
        let most = (self.limit - depth).min(0x1C);
        let run = match self.random.below(20) {
            0..=5 => most,
            6 | 7 => self.random.between(1, most),
            8 | 9 => self.random.pick(&[22, 23, 24, 25]).min(most),
            _ => self.random.between(1, most.min(6)),
        };
        for place in 0x1C - run..0x1C {
            self.block[cell * CELL + place] = self.random.byte();
        }
        let child = self.child(depth + run);
        put_word(&mut self.block, cell * CELL + 0x1C, child.word);
        Some(self.keep(pointer(cell, 0x1C - run), run + child.height, vec![cell], &[child]))
    }

    /// A sparse node in any valid order, the characters past its last child left as they are.
    fn sparse(&mut self, depth: usize) -> Option<Planted> {
        let cell = self.take()?;
        let count = self.random.between(2, 6);
        let characters = self.characters(count, 0, 256);
        let positions = valid_positions(count, self.random);
        let children: Vec<Planted> = (0..count).map(|_| self.child(depth + 1)).collect();
        let image = &mut self.block[cell * CELL..][..CELL];
        for position in 0..6 {
            put_word(image, 4 * position, children.get(position).map_or(0, |child| child.word));
        }
        for (position, character) in positions.iter().zip(characters) {
            image[0x18 + position] = character;
        }
        let order = positions.iter().rev().fold(0, |word: u16, position| word * 6 + *position as u16);
        image[0x1E..].copy_from_slice(&order.to_be_bytes());
        let height = 1 + children.iter().map(|child| child.height).max().expect("two at least");
        Some(self.keep(pointer(cell, 0x1E), height, vec![cell], &children))
    }

    /// So many distinct characters of a range, or the whole range where it is smaller.
    fn characters(&mut self, count: usize, first: usize, width: usize) -> BTreeSet<u8> {
        let mut characters = BTreeSet::new();
        while characters.len() < count.min(width) {
            characters.insert((first + self.random.below(width)) as u8);
        }
        characters
    }

    /// A split of one, few or many children, bytes 00 to 0F of its head left as they are.
    fn split(&mut self, depth: usize) -> Option<Planted> {
        let width = self.random.pick(&[8, 64, 256, 256]);
        let first = self.random.below(256 / width) * width;
        let count = self.random.pick(&[1, 1, 1, 2, 2, 2, 3, 6, 7, 8, 12, 30, 256]);
        let mut ends: BTreeMap<u8, Vec<u8>> = BTreeMap::new();
        for character in self.characters(count, first, width) {
            ends.entry(character >> 3).or_default().push(character & 7);
        }
        let mids: BTreeSet<u8> = ends.keys().map(|bits| bits >> 3).collect();
        if self.unused.len() < 1 + mids.len() + ends.len() {
            return self.chain(depth);
        }
        let head = self.take()?;
        self.block[head * CELL + 0x10..][..0x10].fill(0);
        let (mut own, mut children) = (vec![head], Vec::new());
        for leading in mids {
            let mid = self.part(&mut own, head * CELL + 0x10 + 4 * leading as usize)?;
            for (bits, lasts) in ends.range(leading << 3..=leading << 3 | 7) {
                let end = self.part(&mut own, mid * CELL + 4 * (bits & 7) as usize)?;
                for last in lasts {
                    children.push((end * CELL + 4 * *last as usize, leaf(0)));
                }
            }
        }
        for (offset, child) in &mut children {
            *child = self.child(depth + 1);
            put_word(&mut self.block, *offset, child.word);
        }
        let children: Vec<Planted> = children.into_iter().map(|(_, child)| child).collect();
        let height = 1 + children.iter().map(|child| child.height).max().expect("one at least");
        Some(self.keep(pointer(head, 0x1C), height, own, &children))
    }

    /// Takes a cleared cell for a mid or end and sets the word that leads to it.
    fn part(&mut self, own: &mut Vec<usize>, offset: usize) -> Option<usize> {
        let cell = self.take()?;
        self.block[cell * CELL..][..CELL].fill(0);
        put_word(&mut self.block, offset, pointer(cell, 0x1C));
        own.push(cell);
        Some(cell)
    }
}

/// The digits of a valid order word, lowest first: each once, 1 above 0.
fn valid_positions(count: usize, random: &mut Random) -> Vec<usize> {
    let mut positions: Vec<usize> = (0..count).collect();
    random.shuffle(&mut positions);
    let place_of = |digit: usize| positions.iter().position(|position| *position == digit).expect("each once");
    let (zero, one) = (place_of(0), place_of(1));
    if one < zero {
        positions.swap(zero, one);
    }
    positions
}
