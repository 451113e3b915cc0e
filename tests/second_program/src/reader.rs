//! Reading: the walk that decodes one root's tree from a block's bytes, under every rule of its nodes.

use crate::counted::{Flaw, Shape};
use crate::coverage::Met;
use crate::model::{
    embeds, order_word, split_children, word_at, End, Mid, Node, Place, Seat, Tree, CELL, LONGEST_KEY, PREFIX, SPLIT,
};
use std::collections::BTreeMap;

/// Decodes the tree of one root word, with its own set of entered cells; a leaf or prefix is no root.
pub fn decode_tree(block: &[u8], word: u32, no_root: [Flaw; 2], met: &mut Met) -> Result<Tree, Flaw> {
    let entered = vec![None; block.len() / CELL];
    let first_edition = word_at(block, block.len() - 4) == 1;
    let mut reader = Reader { block, first_edition, entered, met };
    let top = reader.node(word, LONGEST_KEY)?;
    match top {
        Some(Node::Leaf(_)) => Err(no_root[0]),
        Some(Node::Prefix { .. }) => Err(no_root[1]),
        _ => {
            reader.met.add(Shape::EmptyRoot, u64::from(top.is_none()));
            Ok(Tree { word, top, entered: reader.entered })
        }
    }
}

/// The walk that decodes one root's tree.
struct Reader<'a> {
    block: &'a [u8],
    /// Whether the block is of edition 1, in which no prefix is embedded.
    first_edition: bool,
    entered: Vec<Option<u8>>,
    met: &'a mut Met,
}

impl Reader<'_> {
    /// The word at an offset of a cell.
    fn word(&self, cell: usize, offset: usize) -> u32 {
        word_at(self.block, cell * CELL + offset)
    }

    /// Notes whether bytes of a cell that have no meaning are not zero.
    fn meet_junk(&mut self, shape: Shape, cell: usize, bytes: std::ops::Range<usize>) {
        let junk = self.block[cell * CELL..][bytes].iter().any(|byte| *byte != 0);
        self.met.add(shape, u64::from(junk));
    }

    /// Follows a pointer into its cell, which must be usable and new to this tree.
    fn enter(&mut self, word: u32) -> Result<usize, Flaw> {
        let cell = word as usize / CELL;
        let trailer = self.entered.len() - 1;
        if cell == 0 {
            return Err(Flaw::CellZero);
        }
        if cell >= trailer {
            return Err(if cell == trailer { Flaw::TrailerCell } else { Flaw::BeyondTrailer });
        }
        let kind = (word % 32) as u8;
        match self.entered[cell].replace(kind) {
            Some(PREFIX) if self.is_embedded(cell) => Err(Flaw::EmbeddedEnteredTwice),
            Some(_) if kind == PREFIX && self.is_embedded(cell) => Err(Flaw::EmbeddedEnteredTwice),
            Some(_) => Err(Flaw::EnteredTwice),
            None => Ok(cell),
        }
    }

    /// Whether a cell's bytes as those of a prefix are an embedded one's.
    fn is_embedded(&self, cell: usize) -> bool {
        !self.first_edition && embeds(self.block[cell * CELL + 4])
    }

    /// The node of a pointer, with so many characters left to the depth limit; nothing for NONE.
    fn node(&mut self, word: u32, left: usize) -> Result<Option<Node>, Flaw> {
        if word == 0 {
            return Ok(None);
        }
        if word >> 31 == 1 {
            self.met.add(Shape::Leaf, 1);
            self.met.add(Shape::DepthLimit, u64::from(left == 0));
            return Ok(Some(Node::Leaf(!word)));
        }
        if word % 32 == 0x1D {
            return Err(Flaw::NoKind);
        }
        let cell = self.enter(word)?;
        match word % 32 {
            0x1C => self.split(cell, (Shape::JunkInHead, 0), left),
            0x1E => self.sparse(cell, left),
            0x1F => self.prefix(cell, left),
            kind => self.chain(cell, kind as usize, (Shape::JunkBeforeRun, 0), left),
        }
        .map(Some)
    }

    /// A chain: its whole run in one node, and the child at 1C; from the given byte to the run none has a meaning.
    fn chain(&mut self, cell: usize, kind: usize, (junk, from): (Shape, usize), left: usize) -> Result<Node, Flaw> {
        let run = self.block[cell * CELL + kind..cell * CELL + 0x1C].to_vec();
        if run.len() > left {
            return Err(Flaw::DeepChain);
        }
        self.met.add(Shape::Chain, 1);
        self.meet_junk(junk, cell, from..kind);
        let child = self.node(self.word(cell, 0x1C), left - run.len())?.ok_or(Flaw::ChainWithoutChild)?;
        Ok(Node::Chain { place: Place::Held(cell), run, child: Box::new(child) })
    }

    /// A sparse node: the children by position, and an order word that must be the one of their characters.
    fn sparse(&mut self, cell: usize, left: usize) -> Result<Node, Flaw> {
        if left == 0 {
            return Err(Flaw::DeepSparse);
        }
        let words: Vec<u32> = (0..6).map(|position| self.word(cell, 4 * position)).collect();
        let count = words.iter().take_while(|word| **word != 0).count();
        if words[count..].iter().any(|word| *word != 0) {
            return Err(Flaw::SparseGap);
        }
        if count < 2 {
            return Err(Flaw::SparseOfFew);
        }
        let characters = &self.block[cell * CELL + 0x18..][..count];
        let order = order_word(characters).ok_or(Flaw::Characters)?;
        if self.word(cell, 0x1C) as u16 != order {
            return Err(Flaw::OrderWord);
        }
        self.met.sparse(count, order);
        self.meet_junk(Shape::JunkPastChildren, cell, 0x18 + count..0x1E);
        let mut children = Vec::new();
        for (character, word) in characters.iter().zip(&words) {
            let child = self.node(*word, left - 1)?.expect("the word is not NONE");
            children.push((*character, child));
        }
        Ok(Node::Sparse { place: Place::Held(cell), children })
    }

    /// A split head and its mids; from the given byte to its words none has a meaning.
    fn split(&mut self, cell: usize, (junk, from): (Shape, usize), left: usize) -> Result<Node, Flaw> {
        if left == 0 {
            return Err(Flaw::DeepSplit);
        }
        self.meet_junk(junk, cell, from..0x10);
        let mut mids = BTreeMap::new();
        for leading in 0..4 {
            let word = self.word(cell, 0x10 + 4 * leading);
            if word != 0 {
                mids.insert(leading as u8, self.mid(word, left)?);
            }
        }
        self.met.add(if split_children(&mids).count() < 7 { Shape::SplitOfFew } else { Shape::SplitOfMany }, 1);
        if mids.is_empty() {
            return Err(Flaw::EmptyHead);
        }
        Ok(Node::Split { place: Place::Held(cell), mids })
    }

    /// A mid, which must hold at least one end.
    fn mid(&mut self, word: u32, left: usize) -> Result<Mid, Flaw> {
        let cell = self.part(word)?;
        let mut ends = BTreeMap::new();
        for middle in 0..8 {
            let word = self.word(cell, 4 * middle);
            if word != 0 {
                ends.insert(middle as u8, self.end(word, left)?);
            }
        }
        if ends.is_empty() {
            return Err(Flaw::EmptyMid);
        }
        Ok(Mid { place: Place::Held(cell), ends })
    }

    /// An end, which must hold at least one child.
    fn end(&mut self, word: u32, left: usize) -> Result<End, Flaw> {
        let cell = self.part(word)?;
        let mut children = BTreeMap::new();
        for last in 0..8 {
            if let Some(child) = self.node(self.word(cell, 4 * last), left - 1)? {
                children.insert(last as u8, child);
            }
        }
        if children.is_empty() {
            return Err(Flaw::EmptyEnd);
        }
        Ok(End { place: Place::Held(cell), children })
    }

    /// The cell of a mid or end, whose pointers carry the split's kind and no other.
    fn part(&mut self, word: u32) -> Result<usize, Flaw> {
        if word >> 31 == 1 || word % 32 != 0x1C {
            return Err(Flaw::PartWord);
        }
        self.enter(word)
    }

    /// A prefix: a value over a chain, sparse or split node, which an embedded one has in its own cell.
    fn prefix(&mut self, cell: usize, left: usize) -> Result<Node, Flaw> {
        let (value, offset) = (self.word(cell, 0), self.block[cell * CELL + 4]);
        let embedded = self.is_embedded(cell);
        if !embedded && offset != 0xFF {
            return Err(match (self.first_edition, embeds(offset)) {
                (true, true) => Flaw::EmbeddedInEditionOne,
                (true, false) => Flaw::PrefixFlag,
                (false, _) => Flaw::PrefixOffset,
            });
        }
        if value >> 31 == 1 {
            return Err(if embedded { Flaw::EmbeddedValue } else { Flaw::PrefixValue });
        }
        let (seat, node) = match embedded {
            true => (Seat::Embedded, self.node_of_embedded(cell, offset, left)?),
            false => (Seat::Standalone(Place::Held(cell)), self.linked_node(cell, left)?),
        };
        Ok(Node::Prefix { seat, value, linked: Box::new(node) })
    }

    /// The node to which a standalone prefix links.
    fn linked_node(&mut self, cell: usize, left: usize) -> Result<Node, Flaw> {
        self.met.add(Shape::Prefix, 1);
        self.meet_junk(Shape::JunkInPrefix, cell, 5..0x1C);
        match self.node(self.word(cell, 0x1C), left)? {
            None => Err(Flaw::PrefixOverNone),
            Some(Node::Leaf(_)) => Err(Flaw::PrefixOverLeaf),
            Some(Node::Prefix { .. }) => Err(Flaw::PrefixOverPrefix),
            Some(node) => Ok(node),
        }
    }

    /// The node in the cell of an embedded prefix, which was entered with it.
    fn node_of_embedded(&mut self, cell: usize, offset: u8, left: usize) -> Result<Node, Flaw> {
        self.met.add_embedded(offset);
        let height = usize::from(SPLIT - offset).max(1);
        if height > left {
            return Err(Flaw::DeepEmbedded);
        }
        self.met.add(Shape::EmbeddedToDepthLimit, u64::from(height == left));
        if offset < SPLIT {
            return self.chain(cell, offset.into(), (Shape::JunkBeforeEmbeddedRun, 5), left);
        }
        let node = self.split(cell, (Shape::JunkInEmbeddedHead, 5), left)?;
        if let Node::Split { mids, .. } = &node {
            let few = split_children(mids).count() < 7;
            self.met.add(if few { Shape::EmbeddedOverFew } else { Shape::EmbeddedOverMany }, 1);
        }
        Ok(node)
    }
}
