//! A removal: the owned tree without one key, each node on the key's path rebuilt by what it keeps.

use crate::counted::BuildCase as Case;
use crate::encode::{after_first, before, put_back, Build};
use crate::model::{split_children, Mid, Node, Place, Seat};
use std::collections::BTreeMap;

/// The most children that a node keeps without a split.
const FEW: usize = 6;

/// Every step is on the path of a key that was looked up before.
const SHOWN: &str = "the key is shown";

/// What is left of a node without a key that it shows; nothing where that key was all.
pub fn without(node: Node, key: &[u8], build: &mut Build) -> Option<Node> {
    let Some((character, rest)) = key.split_first() else {
        return without_value(node, build);
    };
    let (set_aside, bare) = match node {
        Node::Prefix { seat, value, linked } => (Some((value, seat)), *linked),
        other => (None, other),
    };
    let through_embedded = matches!(set_aside, Some((_, Seat::Embedded)));
    build.cases.extend(through_embedded.then_some(Case::ThroughEmbedded));
    let left = match bare {
        Node::Chain { place, run, child } => {
            let child = without(after_first(place, &run, child), rest, build);
            chain_with(*character, child, build)
        }
        Node::Sparse { children, .. } => sparse_without(children, *character, rest, build),
        Node::Split { mids, .. } => split_without(mids, *character, rest, build),
        Node::Leaf(_) | Node::Prefix { .. } => unreachable!("{SHOWN}"),
    };
    let Some((value, _)) = set_aside else {
        return left;
    };
    let Some(node) = left else {
        build.push(if through_embedded { Case::EmbeddedToLeaf } else { Case::ValueToLeaf });
        return Some(Node::Leaf(value));
    };
    Some(put_back(value, node, build))
}

/// The node at the key's end without its value.
fn without_value(node: Node, build: &mut Build) -> Option<Node> {
    match node {
        Node::Leaf(_) => {
            build.push(Case::LeafGone);
            None
        }
        Node::Prefix { seat, linked, .. } => {
            build.push(if matches!(seat, Seat::Embedded) { Case::EmbeddedToLinked } else { Case::PrefixToLinked });
            Some(*linked)
        }
        _ => unreachable!("{SHOWN}"),
    }
}

/// A chain's character over what is left below it; over nothing the chain goes too.
fn chain_with(character: u8, child: Option<Node>, build: &mut Build) -> Option<Node> {
    let Some(child) = child else {
        return of_kept(Vec::new(), build);
    };
    match &child {
        Node::Chain { place: Place::Held(_), .. } => build.push(Case::OldChainNotJoined),
        Node::Chain { run, .. } if run.len() == 1 && matches!(build.cases.last(), Some(Case::OneKept)) => {
            build.push(Case::KeptGrown);
        }
        _ => {}
    }
    Some(before(character, child, build))
}

/// A sparse node whose child is replaced in its position, or the rest of its children in rising order.
fn sparse_without(mut children: Vec<(u8, Node)>, character: u8, rest: &[u8], build: &mut Build) -> Option<Node> {
    let position = children.iter().position(|(held, _)| *held == character).expect(SHOWN);
    let (_, old) = children.remove(position);
    if let Some(child) = without(old, rest, build) {
        build.push(Case::SparseReplaced);
        children.insert(position, (character, child));
        return Some(Node::Sparse { place: Place::Fresh, children });
    }
    if !children.is_sorted_by_key(|(held, _)| *held) {
        build.push(Case::OrderRewritten);
        children.sort_by_key(|(held, _)| *held);
    }
    of_kept(children, build)
}

/// A split whose child is replaced, or what the number of its other children makes of it.
fn split_without(mut mids: BTreeMap<u8, Mid>, character: u8, rest: &[u8], build: &mut Build) -> Option<Node> {
    let (leading, middle, last) = (character >> 6, character >> 3 & 7, character & 7);
    let mid = mids.get_mut(&leading).expect(SHOWN);
    let end = mid.ends.get_mut(&middle).expect(SHOWN);
    (mid.place, end.place) = (Place::Fresh, Place::Fresh);
    let left = without(end.children.remove(&last).expect(SHOWN), rest, build);
    let replaced = left.is_some();
    end.children.extend(left.map(|child| (last, child)));
    let count = split_children(&mids).count();
    if !replaced && count <= FEW {
        build.push([Case::SplitToNone, Case::SplitToChain, Case::SplitToSparse][count.min(2)]);
        return of_kept(owned_children(mids), build);
    }
    build.push(match (replaced, count) {
        (true, ..=FEW) => Case::FewReplaced,
        (true, _) => Case::SplitReplaced,
        (false, 7) => Case::SevenKept,
        (false, _) => Case::MoreKept,
    });
    drop_emptied(&mut mids, build);
    Some(Node::Split { place: Place::Fresh, mids })
}

/// Leaves out the end without children, and the mid without ends.
fn drop_emptied(mids: &mut BTreeMap<u8, Mid>, build: &mut Build) {
    for mid in mids.values_mut() {
        let ends = mid.ends.len();
        mid.ends.retain(|_, end| !end.children.is_empty());
        build.cases.extend((mid.ends.len() < ends).then_some(Case::EndEmptied));
    }
    let count = mids.len();
    mids.retain(|_, mid| !mid.ends.is_empty());
    build.cases.extend((mids.len() < count).then_some(Case::MidEmptied));
}

/// A split's children by their whole character, rising, out of their cells.
fn owned_children(mids: BTreeMap<u8, Mid>) -> Vec<(u8, Node)> {
    let mut children = Vec::new();
    for (leading, mid) in mids {
        for (middle, end) in mid.ends {
            let whole = |(last, child): (u8, Node)| (leading << 6 | middle << 3 | last, child);
            children.extend(end.children.into_iter().map(whole));
        }
    }
    children
}

/// The node of up to six children in rising order that a node has kept: nothing, a chain of its own cell, or a sparse node.
fn of_kept(mut children: Vec<(u8, Node)>, build: &mut Build) -> Option<Node> {
    build.push(match children.len() {
        0 => Case::NoneKept,
        1 => Case::OneKept,
        2 => Case::TwoKept,
        FEW => Case::SixKept,
        _ => Case::ThreeToFiveKept,
    });
    if children.len() > 1 {
        return Some(Node::Sparse { place: Place::Fresh, children });
    }
    let (character, child) = children.pop()?;
    Some(Node::Chain { place: Place::Fresh, run: vec![character], child: Box::new(child) })
}
