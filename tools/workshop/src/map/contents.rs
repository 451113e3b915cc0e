//! A line for each cell: what it is, who holds it and what it holds, in words.

use super::block::{Block, Pointer, SLOTS};
use super::reached::{Reached, What, ROOTS};
use super::reading::{links, Kind, Link, Reading, Target};
use crate::columns::{under_each_other, Side};
use crate::{dates, labels};

/// Of a cell its number, what it is, who holds it and what it holds.
pub type Line = [String; 4];

/// All cells in lines under each other, their numbers to the right. Free cells in a row share a line.
pub fn table(reached: &Reached) -> String {
    let mut rows: Vec<Line> = vec![["cell", "kind", "held by", "holds"].map(String::from)];
    let mut cell = 0;
    while cell < reached.block.cells() {
        let free = (cell..reached.block.cells()).take_while(|next| reached.what(*next) == What::Free).count();
        rows.extend(lines(reached, cell).into_iter().map(|[number, kind, holders, contents]| {
            let numbers = if free > 1 { format!("{number}-{}", cell + free - 1) } else { number };
            [numbers, kind, holders, contents]
        }));
        cell += free.max(1);
    }
    under_each_other(Side::Right, &rows)
}

/// What there is to say of a cell: one line, or where roots read it in different ways one for each way.
pub fn lines(reached: &Reached, cell: usize) -> Vec<Line> {
    match reached.what(cell) {
        What::NeverUsed => vec![line(cell, "never used", "", String::new())],
        What::Trailer => vec![line(cell, "trailer", "", trailer(reached.block))],
        What::Free => vec![line(cell, "free", "", String::new())],
        What::Used(..) => used_lines(reached, cell),
    }
}

/// The line of a cell that is used by nobody, or in one way.
fn line(cell: usize, kind: &str, holders: &str, contents: String) -> Line {
    [cell.to_string(), kind.to_string(), holders.to_string(), contents]
}

/// The lines of a cell that is used: one for each way in which roots read it, with all roots that do.
fn used_lines(reached: &Reached, cell: usize) -> Vec<Line> {
    let found = reached.by_root.each_ref().map(|readings| readings[cell]);
    let mut lines = Vec::new();
    for (place, reading) in found.iter().enumerate() {
        if let Some(reading) = reading.filter(|_| !found[..place].contains(reading)) {
            let holders: Vec<&str> =
                (place..ROOTS).filter(|other| found[*other] == Some(reading)).map(holder_name).collect();
            lines.push(line(cell, reading.kind.name(), &holders.join(", "), contents(reached.block, cell, reading)));
        }
    }
    lines
}

/// What the table of a root is called, by its place.
pub fn holder_name(place: usize) -> &'static str {
    ["present", "slot 1", "slot 2", "slot 3"][place]
}

/// What a cell holds for a root that reads it so.
fn contents(block: Block, cell: usize, reading: Reading) -> String {
    let shown: Vec<String> =
        links(block, cell, reading).into_iter().map(|link| show_link(block, reading, link)).collect();
    let shown = shown.join(", ");
    match reading.kind {
        Kind::Chain => run(block, cell, reading, &shown),
        Kind::Prefix => over(block, cell, &shown),
        Kind::PrefixWithChain => over(block, cell, &run(block, cell, reading, &shown)),
        Kind::PrefixWithHead => over(block, cell, &shown),
        Kind::Sparse | Kind::Head | Kind::Mid | Kind::End => shown,
    }
}

/// The characters of a chain from its first place on, and what is behind them.
fn run(block: Block, cell: usize, reading: Reading, behind: &str) -> String {
    let characters: Vec<u8> = (reading.from..=0x1B).map(|place| block.byte(cell, usize::from(place))).collect();
    format!("{} from {:02X}, then {behind}", labels::show(&characters), reading.from)
}

/// The value of a prefix, and what it is over.
fn over(block: Block, cell: usize, below: &str) -> String {
    format!("{} over {below}", show_value(block.word(cell, 0)))
}

/// A link with its character or characters; a chain or a prefix has only one, which needs none.
fn show_link(block: Block, reading: Reading, link: Link) -> String {
    let target = show_target(block, link);
    let range = |count: u8| format!("hex:{:02X}-{:02X} -> {target}", link.character, link.character + (count - 1));
    match reading.kind {
        Kind::Chain | Kind::Prefix | Kind::PrefixWithChain => target,
        Kind::Sparse | Kind::End => format!("{} -> {target}", labels::show(&[link.character])),
        Kind::Head | Kind::PrefixWithHead => range(64),
        Kind::Mid => range(8),
    }
}

/// Where a link leads: a value, or a cell and what is there.
fn show_target(block: Block, link: Link) -> String {
    let (cell, name) = match (block.pointer(link.word), link.target) {
        (Pointer::Nothing, _) => return "nothing".to_string(),
        (Pointer::Leaf(value), _) => return show_value(value),
        (Pointer::Chain { cell, place }, _) => return format!("cell {cell} (chain from {place:02X})"),
        (Pointer::Sparse(cell), _) => (cell, "sparse"),
        (Pointer::Prefix(cell), _) => (cell, "prefix"),
        (Pointer::Split(cell), Target::Node) => (cell, "split"),
        (Pointer::Split(cell), Target::Mid) => (cell, "mid"),
        (Pointer::Split(cell), Target::End) => (cell, "end"),
        (Pointer::Invalid, _) => return "no cell".to_string(),
    };
    format!("cell {cell} ({name})")
}

/// A value, as a date where it is one.
fn show_value(value: u32) -> String {
    format!("value {}", dates::show_value(value))
}

/// The roots in the trailer.
fn trailer(block: Block) -> String {
    let show = |name: &str, root: u32| match root {
        0 => format!("{name} -> empty table"),
        _ => format!("{name} -> {}", show_target(block, Link { character: 0, word: root, target: Target::Node })),
    };
    let slots = (1..=SLOTS).filter_map(|slot| Some(show(holder_name(slot), block.slot(slot)?)));
    std::iter::once(show(holder_name(0), block.root())).chain(slots).collect::<Vec<String>>().join(", ")
}
