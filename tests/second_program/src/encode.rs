//! An insertion: the owned tree rebuilt along the key's path; and how the new cells of a tree are numbered and written.

use crate::counted::BuildCase as Case;
use crate::model::{order_word, pointer, put_word, End, Mid, Node, Place, Seat, CELL, FIRST_EMBEDDED, PREFIX};
use std::collections::BTreeMap;

/// One insertion or removal: the edition of its block, and the build cases that it went through, in the order met.
pub struct Build {
    pub edition: u32,
    pub cases: Vec<Case>,
}

impl Build {
    /// Notes a build case.
    pub fn push(&mut self, case: Case) {
        self.cases.push(case);
    }
}

/// The most characters that one chain cell holds.
const LONGEST_RUN: usize = 0x1C;

/// The node that a key and value make of an old one: down by the key, built on the way back up.
pub fn entered(node: Option<Node>, key: &[u8], value: u32, build: &mut Build) -> Node {
    let Some((character, rest)) = key.split_first() else {
        return with_value(node, value, build);
    };
    let (set_aside, bare) = match node {
        Some(Node::Leaf(old)) => (Some(old), None),
        Some(Node::Prefix { seat, value: old, linked }) => {
            build.cases.extend(matches!(seat, Seat::Embedded).then_some(Case::ThroughEmbedded));
            (Some(old), Some(*linked))
        }
        other => (None, other),
    };
    let build_child = |old: Option<Node>, build: &mut Build| entered(old, rest, value, build);
    let built = match bare {
        None => before(*character, build_child(None, build), build),
        Some(Node::Chain { place, run, child }) => {
            let old_child = after_first(place, &run, child);
            if run[0] == *character {
                before(*character, build_child(Some(old_child), build), build)
            } else {
                pair((run[0], old_child), (*character, build_child(None, build)), build)
            }
        }
        Some(Node::Sparse { children, .. }) => sparse_with(children, *character, build_child, build),
        Some(Node::Split { mids, .. }) => split_with(mids, *character, build_child, build),
        Some(Node::Leaf(_) | Node::Prefix { .. }) => unreachable!("a value was set aside before"),
    };
    match set_aside {
        None => built,
        Some(old) => put_back(old, built, build),
    }
}

/// A value put back over a node: in edition 2 in the node's own cell, where that is new to this call and has room, else in
/// a cell of its own.
pub fn put_back(value: u32, node: Node, build: &mut Build) -> Node {
    let roomy = matches!(first_place(&node), Some((Place::Fresh, FIRST_EMBEDDED..)));
    let embedded = roomy && build.edition == 2;
    build.push(Case::ValuePutBack);
    build.push(match (build.edition, first_place(&node)) {
        (1, _) if roomy => Case::RoomInEditionOne,
        (1, _) => Case::NoRoomInEditionOne,
        (_, None) => Case::StandaloneOverSparse,
        (_, Some((_, 0x04))) => Case::StandaloneAt04,
        (_, Some(_)) if !embedded => Case::StandaloneUnder04,
        (_, Some(_)) if matches!(node, Node::Split { .. }) => Case::EmbeddedInHead,
        (_, Some((_, FIRST_EMBEDDED))) => Case::EmbeddedAt05,
        (_, Some(_)) => Case::EmbeddedPast05,
    });
    let seat = if embedded { Seat::Embedded } else { Seat::Standalone(Place::Fresh) };
    Node::Prefix { seat, value, linked: Box::new(node) }
}

/// The place of a chain or split, and the first byte of the cell that the node needs; nothing for the others.
fn first_place(node: &Node) -> Option<(Place, u8)> {
    match node {
        Node::Chain { place, run, .. } => Some((*place, (LONGEST_RUN - run.len()) as u8)),
        Node::Split { place, .. } => Some((*place, 0x10)),
        _ => None,
    }
}

/// The node at the key's end with its new value.
fn with_value(node: Option<Node>, value: u32, build: &mut Build) -> Node {
    let linked = match node {
        None | Some(Node::Leaf(_)) => {
            build.push(Case::Leaf);
            return Node::Leaf(value);
        }
        Some(Node::Prefix { seat, linked, .. }) => {
            build.push(if matches!(seat, Seat::Embedded) { Case::EmbeddedReplaced } else { Case::PrefixReplaced });
            linked
        }
        Some(other) => {
            let roomy = first_place(&other).is_some_and(|(_, place)| place >= FIRST_EMBEDDED) && build.edition == 2;
            build.push(if roomy { Case::OldNodeWithRoom } else { Case::PrefixAdded });
            Box::new(other)
        }
    };
    Node::Prefix { seat: Seat::Standalone(Place::Fresh), value, linked }
}

/// What a chain leads to by its first character: the rest of its run in the same cell, or its child.
pub fn after_first(place: Place, run: &[u8], child: Box<Node>) -> Node {
    match run {
        [_] => *child,
        _ => Node::Chain { place, run: run[1..].to_vec(), child },
    }
}

/// A character set before a new child: in the child's own chain cell while there is room, else in a new one.
pub fn before(character: u8, child: Node, build: &mut Build) -> Node {
    match child {
        Node::Chain { place: Place::Fresh, mut run, child } if run.len() < LONGEST_RUN => {
            build.push(Case::CharacterBefore);
            run.insert(0, character);
            Node::Chain { place: Place::Fresh, run, child }
        }
        other => {
            build.push(Case::NewChain);
            match &other {
                Node::Chain { place: Place::Fresh, .. } => build.push(Case::FullChain),
                Node::Prefix { seat: Seat::Embedded, linked, .. } if is_fresh(linked) => {
                    build.push(Case::ChainOverEmbedded)
                }
                _ => {}
            }
            Node::Chain { place: Place::Fresh, run: vec![character], child: Box::new(other) }
        }
    }
}

/// A sparse node of an old and a new child in rising order.
fn pair(old: (u8, Node), new: (u8, Node), build: &mut Build) -> Node {
    build.push(Case::ChainPair);
    let children = if old.0 < new.0 { vec![old, new] } else { vec![new, old] };
    Node::Sparse { place: Place::Fresh, children }
}

/// A sparse node with a child replaced or appended, or the split that a seventh child makes.
fn sparse_with(
    mut children: Vec<(u8, Node)>,
    character: u8,
    build_child: impl Fn(Option<Node>, &mut Build) -> Node,
    build: &mut Build,
) -> Node {
    if let Some(position) = children.iter().position(|(held, _)| *held == character) {
        let (_, old) = children.remove(position);
        children.insert(position, (character, build_child(Some(old), build)));
        build.push(Case::SparseReplaced);
        return Node::Sparse { place: Place::Fresh, children };
    }
    children.push((character, build_child(None, build)));
    if children.len() <= 6 {
        build.push(Case::SparseAppended);
        return Node::Sparse { place: Place::Fresh, children };
    }
    build.push(Case::SeventhChild);
    let mut mids = BTreeMap::new();
    for (character, child) in children {
        let mid: &mut Mid = mids.entry(character >> 6).or_insert_with(new_mid);
        let end = mid.ends.entry(character >> 3 & 7).or_insert_with(new_end);
        end.children.insert(character & 7, child);
    }
    Node::Split { place: Place::Fresh, mids }
}

/// A split with a child replaced or added: its head and one mid and end are new, the other parts stay.
fn split_with(
    mut mids: BTreeMap<u8, Mid>,
    character: u8,
    build_child: impl Fn(Option<Node>, &mut Build) -> Node,
    build: &mut Build,
) -> Node {
    let (leading, middle, last) = (character >> 6, character >> 3 & 7, character & 7);
    let case = match mids.get(&leading) {
        None => Case::SplitMidAbsent,
        Some(mid) if mid.ends.contains_key(&middle) => Case::SplitEndPresent,
        Some(_) => Case::SplitEndAbsent,
    };
    let mid = mids.entry(leading).or_insert_with(new_mid);
    mid.place = Place::Fresh;
    let end = mid.ends.entry(middle).or_insert_with(new_end);
    end.place = Place::Fresh;
    let old = end.children.remove(&last);
    end.children.insert(last, build_child(old, build));
    build.push(case);
    Node::Split { place: Place::Fresh, mids }
}

/// A mid that is still to be filled.
fn new_mid() -> Mid {
    Mid { place: Place::Fresh, ends: BTreeMap::new() }
}

/// An end that is still to be filled.
fn new_end() -> End {
    End { place: Place::Fresh, children: BTreeMap::new() }
}

/// One for a cell that is still to be taken.
fn taken(place: Place) -> usize {
    usize::from(matches!(place, Place::Fresh))
}

/// Whether a node's cell is still to be taken.
fn is_fresh(node: &Node) -> bool {
    matches!(first_place(node), Some((Place::Fresh, _)))
}

/// How many cells a tree has yet to take; nothing below a held node is new.
pub fn fresh_cells(node: &Node) -> usize {
    match node {
        Node::Chain { place: Place::Fresh, child, .. } => 1 + fresh_cells(child),
        Node::Prefix { seat: Seat::Standalone(Place::Fresh), linked, .. } => 1 + fresh_cells(linked),
        Node::Prefix { seat: Seat::Embedded, linked, .. } => fresh_cells(linked),
        Node::Sparse { place: Place::Fresh, children } => {
            1 + children.iter().map(|(_, child)| fresh_cells(child)).sum::<usize>()
        }
        Node::Split { place: Place::Fresh, mids } => {
            let ends = || mids.values().flat_map(|mid| mid.ends.values());
            let below: usize = ends().flat_map(|end| end.children.values()).map(fresh_cells).sum();
            let of_mids: usize = mids.values().map(|mid| taken(mid.place)).sum();
            1 + of_mids + ends().map(|end| taken(end.place)).sum::<usize>() + below
        }
        _ => 0,
    }
}

/// The images of the four layouts, meaningless bytes zero.
pub mod image {
    use super::*;

    /// A chain cell: the run ends before 1C, where the child stands.
    pub fn chain(run: &[u8], child: u32) -> [u8; CELL] {
        let mut cell = [0; CELL];
        cell[0x1C - run.len()..0x1C].copy_from_slice(run);
        put_word(&mut cell, 0x1C, child);
        cell
    }

    /// A prefix cell: value, standalone flag, link.
    pub fn prefix(value: u32, link: u32) -> [u8; CELL] {
        let mut cell = [0; CELL];
        put_word(&mut cell, 0, value);
        cell[4] = 0xFF;
        put_word(&mut cell, 0x1C, link);
        cell
    }

    /// A sparse cell: children and characters by position, then the order word.
    pub fn sparse(children: &[(u8, u32)]) -> [u8; CELL] {
        let mut cell = [0; CELL];
        for (position, (character, word)) in children.iter().enumerate() {
            put_word(&mut cell, 4 * position, *word);
            cell[0x18 + position] = *character;
        }
        let characters: Vec<u8> = children.iter().map(|(character, _)| *character).collect();
        let order = order_word(&characters).expect("distinct characters, the first two rising");
        cell[0x1E..].copy_from_slice(&order.to_be_bytes());
        cell
    }

    /// A cell of a split: words by three bits in a mid or end, by two bits from 10 on in a head.
    pub fn part(from: usize, words: impl Iterator<Item = (u8, u32)>) -> [u8; CELL] {
        let mut cell = [0; CELL];
        for (bits, word) in words {
            put_word(&mut cell, from + 4 * bits as usize, word);
        }
        cell
    }
}

/// Writes a tree's new nodes into free cells, in the order in which these are given, and notes the cells that it takes.
pub struct Layer<'a> {
    block: &'a mut [u8],
    free: std::vec::IntoIter<usize>,
    pub taken: Vec<usize>,
}

impl<'a> Layer<'a> {
    /// Nothing taken yet.
    pub fn new(block: &'a mut [u8], free: Vec<usize>) -> Layer<'a> {
        Layer { block, free: free.into_iter(), taken: Vec::new() }
    }

    /// Takes the next free cell for an image.
    fn take(&mut self, image: [u8; CELL]) -> usize {
        let cell = self.free.next().expect("the cells were counted before");
        self.block[cell * CELL..][..CELL].copy_from_slice(&image);
        self.taken.push(cell);
        cell
    }

    /// The pointer to a node, after its new cells are taken, the deepest first.
    pub fn lay(&mut self, node: &Node) -> u32 {
        match node {
            Node::Leaf(value) => !value,
            Node::Chain { place, run, child } => {
                let cell = self.settle(*place, |layer| image::chain(run, layer.lay(child)));
                pointer(cell, 0x1C - run.len())
            }
            Node::Prefix { seat: Seat::Standalone(place), value, linked } => {
                let cell = self.settle(*place, |layer| image::prefix(*value, layer.lay(linked)));
                pointer(cell, PREFIX.into())
            }
            Node::Prefix { seat: Seat::Embedded, value, linked } => {
                let word = self.lay(linked) as usize;
                if is_fresh(linked) {
                    self.embed(word / CELL, *value, (word % CELL) as u8);
                }
                pointer(word / CELL, PREFIX.into())
            }
            Node::Sparse { place, children } => {
                let lay_all = |layer: &mut Self| {
                    let words: Vec<_> = children.iter().map(|(key, child)| (*key, layer.lay(child))).collect();
                    image::sparse(&words)
                };
                pointer(self.settle(*place, lay_all), 0x1E)
            }
            Node::Split { place, mids } => pointer(self.settle(*place, |layer| layer.lay_split(mids)), 0x1C),
        }
    }

    /// Writes value and offset of an embedded prefix into its node's new cell.
    fn embed(&mut self, cell: usize, value: u32, offset: u8) {
        put_word(self.block, cell * CELL, value);
        self.block[cell * CELL + 4] = offset;
    }

    /// The cell of a node: its own, or a new one for the image made from the cells below it.
    fn settle(&mut self, place: Place, make: impl FnOnce(&mut Self) -> [u8; CELL]) -> usize {
        match place {
            Place::Held(cell) => cell,
            Place::Fresh => {
                let image = make(self);
                self.take(image)
            }
        }
    }

    /// The image of a new split head: first every new child, then each mid's ends and that mid.
    fn lay_split(&mut self, mids: &BTreeMap<u8, Mid>) -> [u8; CELL] {
        let mut child_words = BTreeMap::new();
        for (leading, mid) in mids {
            for (middle, end) in mid.ends.iter().filter(|(_, end)| taken(end.place) == 1) {
                let words: Vec<(u8, u32)> = end.children.iter().map(|(last, child)| (*last, self.lay(child))).collect();
                child_words.insert((*leading, *middle), words);
            }
        }
        let mut mid_words = Vec::new();
        for (leading, mid) in mids {
            let cell = self.settle(mid.place, |layer| {
                let mut end_words = Vec::new();
                for (middle, end) in &mid.ends {
                    let words = child_words.remove(&(*leading, *middle)).unwrap_or_default();
                    let cell = layer.settle(end.place, |_| image::part(0, words.into_iter()));
                    end_words.push((*middle, pointer(cell, 0x1C)));
                }
                image::part(0, end_words.into_iter())
            });
            mid_words.push((*leading, pointer(cell, 0x1C)));
        }
        image::part(0x10, mid_words.into_iter())
    }
}
