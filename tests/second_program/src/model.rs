//! The owned tree: a block's bytes decoded into boxed nodes, under every soundness rule of the specification.

use crate::counted::{Flaw, Shape};
use crate::coverage::Met;
use crate::reader::decode_tree;
use std::collections::BTreeMap;

/// Bytes in one cell.
pub const CELL: usize = 32;

/// The longest key, and so the deepest path, in characters.
pub const LONGEST_KEY: usize = 48;

/// The editions of a block; in the second a prefix may stand in its linked node's cell.
pub const EDITIONS: [u32; 2] = [1, 2];

/// The first place at which a chain may stand below an embedded prefix: its value and offset come before.
pub const FIRST_EMBEDDED: u8 = 0x05;

/// The kind of a split, and so the last offset of an embedded prefix.
pub const SPLIT: u8 = 0x1C;

/// The kind of a prefix.
pub const PREFIX: u8 = 0x1F;

/// The keys that a root shows, each with its value, in the order of unsigned bytes.
pub type Table = BTreeMap<Vec<u8>, u32>;

/// Where a node stands: in a cell of the block, or in a cell that the call has yet to take.
#[derive(Clone, Copy)]
pub enum Place {
    Held(usize),
    Fresh,
}

/// Where a prefix stands: in a cell of its own, or in the cell of its linked node.
#[derive(Clone, Copy)]
pub enum Seat {
    Standalone(Place),
    Embedded,
}

/// A node with all that hangs below it.
pub enum Node {
    Leaf(u32),
    Chain { place: Place, run: Vec<u8>, child: Box<Node> },
    Sparse { place: Place, children: Vec<(u8, Node)> },
    Split { place: Place, mids: BTreeMap<u8, Mid> },
    Prefix { seat: Seat, value: u32, linked: Box<Node> },
}

/// A split's cell for two leading bits; its ends by the middle three bits.
pub struct Mid {
    pub place: Place,
    pub ends: BTreeMap<u8, End>,
}

/// A split's cell for two leading and three middle bits; its children by the last three bits.
pub struct End {
    pub place: Place,
    pub children: BTreeMap<u8, Node>,
}

/// The tree of one root word, and by cell the kind at which that tree enters it.
pub struct Tree {
    pub word: u32,
    pub top: Option<Node>,
    pub entered: Vec<Option<u8>>,
}

/// A sound block, decoded.
pub struct Store {
    pub edition: u32,
    pub root: Tree,
    pub snapshots: [Option<Tree>; 3],
    pub met: Met,
}

/// The four bytes at an offset as a number, highest byte first.
pub fn word_at(block: &[u8], offset: usize) -> u32 {
    u32::from_be_bytes(block[offset..offset + 4].try_into().expect("four bytes"))
}

/// Writes a number at an offset, highest byte first.
pub fn put_word(block: &mut [u8], offset: usize, word: u32) {
    block[offset..offset + 4].copy_from_slice(&word.to_be_bytes());
}

/// The pointer to a cell at a kind.
pub fn pointer(cell: usize, kind: usize) -> u32 {
    (cell * CELL + kind) as u32
}

/// The order word of characters by position, or nothing where no valid word lists them strictly rising.
pub fn order_word(characters: &[u8]) -> Option<u16> {
    let by_character: BTreeMap<u8, usize> = characters.iter().copied().zip(0..).collect();
    if by_character.len() < characters.len() || characters[0] > characters[1] {
        return None;
    }
    Some(by_character.values().rev().fold(0, |word, position| word * 6 + *position as u16))
}

/// Whether an offset is one of an embedded prefix.
pub fn embeds(offset: u8) -> bool {
    (FIRST_EMBEDDED..=SPLIT).contains(&offset)
}

impl Store {
    /// Decodes a block of valid length, or names a rule that it breaks; the edition word is judged last, so that it is
    /// known whether a block of another edition breaks this rule alone.
    pub fn decode(block: &[u8]) -> Result<Store, Flaw> {
        let cells = block.len() / CELL;
        let trailer = (cells - 1) * CELL;
        judge_trailer(&block[trailer..], cells)?;
        let edition = word_at(block, trailer + 0x1C);
        let mut met = Met::default();
        let mut decode =
            |offset: usize, no_root: [Flaw; 2]| decode_tree(block, word_at(block, trailer + offset), no_root, &mut met);
        let root = decode(0, [Flaw::RootLeaf, Flaw::RootPrefix])?;
        let mut snapshots = [None, None, None];
        for (slot, snapshot) in snapshots.iter_mut().enumerate() {
            if block[trailer + 0x10] >> slot & 1 == 1 {
                *snapshot = Some(decode(4 + 4 * slot, [Flaw::SnapshotLeaf, Flaw::SnapshotPrefix])?);
            }
        }
        if !EDITIONS.contains(&edition) {
            return Err(if met.embedded() > 0 { Flaw::EditionOfEmbedded } else { Flaw::Edition });
        }
        let mut store = Store { edition, root, snapshots, met };
        store.meet_sharing(block);
        Ok(store)
    }

    /// The usable cells that neither the root nor a held snapshot reaches, in the order in which a change takes them:
    /// past the root's own cell first, then before it, either part rising. The root of an empty table names cell 0, and
    /// all lie past that.
    pub fn free_cells(&self) -> Vec<usize> {
        let own = self.root.word as usize / CELL;
        let usable = 1..self.root.entered.len() - 1;
        let reached = |cell: usize| self.trees().any(|tree| tree.entered[cell].is_some());
        let free = usable.filter(|cell| !reached(*cell));
        let (past, before): (Vec<usize>, Vec<usize>) = free.partition(|cell| *cell > own);
        [past, before].concat()
    }

    /// The root's tree and each held snapshot's.
    pub fn trees(&self) -> impl Iterator<Item = &Tree> {
        std::iter::once(&self.root).chain(self.snapshots.iter().flatten())
    }

    /// Notes whether roots share cells, and whether one enters a cell at another kind than the next.
    fn meet_sharing(&mut self, block: &[u8]) {
        let (mut shared, mut differing) = (false, false);
        let mut embedded = Vec::new();
        for cell in 1..self.root.entered.len() - 1 {
            let kinds: Vec<u8> = self.trees().filter_map(|tree| tree.entered[cell]).collect();
            shared |= kinds.len() > 1;
            differing |= kinds.windows(2).any(|pair| pair[0] != pair[1]);
            let offset = block[cell * CELL + 4];
            if kinds.len() > 1 && self.edition == 2 && kinds.contains(&PREFIX) && embeds(offset) {
                embedded.push((cell, offset, kinds));
            }
        }
        self.met.add(Shape::SharedCell, u64::from(shared));
        self.met.add(Shape::SharedAtAnotherKind, u64::from(differing));
        self.meet_shared_embedded(&embedded);
    }

    /// Notes how roots share the cells of embedded prefixes, each given with its offset and the kinds of its entries.
    fn meet_shared_embedded(&mut self, embedded: &[(usize, u8, Vec<u8>)]) {
        let entered = |at: &dyn Fn(u8, u8) -> bool| {
            embedded.iter().any(|(_, offset, kinds)| kinds.iter().any(|kind| at(*kind, *offset)))
        };
        let in_run = |kind: u8, offset: u8| offset < kind && kind < SPLIT;
        let twice = embedded.iter().any(|(_, _, kinds)| kinds.iter().filter(|kind| **kind == PREFIX).count() > 1);
        let words: Vec<u32> = self.snapshots.iter().flatten().map(|tree| tree.word).collect();
        let named = |(cell, offset, _): &(usize, u8, Vec<u8>)| {
            words.iter().any(|word| *word as usize / CELL == *cell && in_run((word % 32) as u8, *offset))
        };
        let met = [
            (Shape::EmbeddedShared, twice),
            (Shape::EmbeddedSharedAtNode, entered(&|kind, offset| kind == offset)),
            (Shape::EmbeddedSharedInRun, entered(&in_run)),
            (Shape::EmbeddedSharedBeforeRun, entered(&|kind, offset| kind < offset && kind < SPLIT)),
            (Shape::SnapshotInEmbeddedRun, embedded.iter().any(named)),
        ];
        for (shape, holds) in met {
            self.met.add(shape, u64::from(holds));
        }
    }
}

/// Judges all of the trailer but the edition and the root and snapshot pointers themselves.
fn judge_trailer(trailer: &[u8], cells: usize) -> Result<(), Flaw> {
    if trailer[0x10] > 7 {
        return Err(Flaw::HeldBits);
    }
    if trailer[0x11..0x14] != [0; 3] || trailer[0x18..0x1C] != [0; 4] {
        return Err(Flaw::StrayBytes);
    }
    if word_at(trailer, 0x14) as usize != cells {
        return Err(Flaw::CellCount);
    }
    let open = |slot: &usize| trailer[0x10] >> *slot & 1 == 0;
    if (0..3).filter(open).any(|slot| word_at(trailer, 4 + 4 * slot) != 0) {
        return Err(Flaw::OpenSlotWord);
    }
    Ok(())
}

impl Tree {
    /// All that this root shows.
    pub fn table(&self) -> Table {
        let mut table = Table::new();
        if let Some(top) = &self.top {
            collect(top, &mut Vec::new(), &mut table);
        }
        table
    }
}

/// Adds what a node shows below a path, which comes back as it was.
fn collect(node: &Node, path: &mut Vec<u8>, table: &mut Table) {
    let depth = path.len();
    match node {
        Node::Leaf(value) => {
            table.insert(path.clone(), *value);
        }
        Node::Prefix { value, linked, .. } => {
            table.insert(path.clone(), *value);
            collect(linked, path, table);
        }
        Node::Chain { run, child, .. } => {
            path.extend_from_slice(run);
            collect(child, path, table);
        }
        Node::Sparse { children, .. } => {
            for (character, child) in children {
                path.push(*character);
                collect(child, path, table);
                path.truncate(depth);
            }
        }
        Node::Split { mids, .. } => {
            for (character, child) in split_children(mids) {
                path.push(character);
                collect(child, path, table);
                path.truncate(depth);
            }
        }
    }
    path.truncate(depth);
}

/// A split's children by their whole character, rising.
pub fn split_children(mids: &BTreeMap<u8, Mid>) -> impl Iterator<Item = (u8, &Node)> {
    mids.iter().flat_map(|(leading, mid)| {
        mid.ends.iter().flat_map(move |(middle, end)| {
            end.children.iter().map(move |(last, child)| (leading << 6 | middle << 3 | last, child))
        })
    })
}
