//! The map of a block as text: a legend, one sign for each cell, and how many there are of each kind and in each table.

use super::contents::holder_name;
use super::reached::{Holding, Reached, What, ROOTS};
use super::reading::Kind;

/// The signs in a row.
const ROW: usize = 64;

/// The signs in a group, so that cells can be counted off by eye.
const GROUP: usize = 8;

/// What the signs mean.
const LEGEND: &str = "\
C chain   S sparse   H split head   M split mid   E split end
P prefix   Q prefix and chain in one cell   R prefix and split head in one cell
. free   0 never used   T trailer
capital letter: in the present table; small letter: in slots only
";

/// What a block is, how full it is and which slots are in use: a line for each.
pub fn summary(reached: &Reached) -> [String; 3] {
    let block = reached.block;
    let slots: Vec<String> = reached.slots().iter().map(usize::to_string).collect();
    let slots = if slots.is_empty() { "none".to_string() } else { slots.join(", ") };
    [
        format!("sound, {} cells, edition {}", block.cells(), block.edition()),
        fullness(reached),
        format!("slots in use: {slots}"),
    ]
}

/// How many cells can hold a node, and how many of them do.
pub fn fullness(reached: &Reached) -> String {
    format!("cells: {} usable, {} used, {} free", reached.block.usable(), reached.used(), reached.free())
}

/// How many cells are free, and what dropping each slot in use would free.
pub fn room(reached: &Reached) -> String {
    let free = reached.free();
    let are = if free == 1 { "is" } else { "are" };
    let slots: Vec<String> = reached
        .slots()
        .into_iter()
        .map(|slot| table(reached, holder_name(slot), &[slot]))
        .map(|Table { name, alone, .. }| format!("{name} frees {alone}"))
        .collect();
    if slots.is_empty() {
        format!("{free} {are} free")
    } else {
        format!("{free} {are} free; dropping {}", slots.join(", "))
    }
}

/// The whole map.
pub fn map(reached: &Reached) -> String {
    [summary(reached).join("\n") + "\n", LEGEND.to_string(), grid(reached), kinds(reached), holders(reached)].join("\n")
}

/// The sign of a cell.
pub fn sign(what: What) -> char {
    match what {
        What::NeverUsed => '0',
        What::Trailer => 'T',
        What::Free => '.',
        What::Used(reading, Holding::Slots) => reading.kind.letter().to_ascii_lowercase(),
        What::Used(reading, _) => reading.kind.letter(),
    }
}

/// The signs of all cells in rows, each behind the number of its first cell.
fn grid(reached: &Reached) -> String {
    let signs: Vec<char> = reached.all().map(sign).collect();
    let row = |(place, signs): (usize, &[char])| {
        let groups: Vec<String> = signs.chunks(GROUP).map(String::from_iter).collect();
        format!("{:>5}  {}\n", place * ROW, groups.join(" "))
    };
    signs.chunks(ROW).enumerate().map(row).collect()
}

/// How many cells are of a kind and held so.
pub fn count(reached: &Reached, kind: Kind, holding: Holding) -> usize {
    reached
        .all()
        .filter(|what| matches!(what, What::Used(reading, held) if reading.kind == kind && *held == holding))
        .count()
}

/// How many cells there are of each kind that occurs, by who holds them.
fn kinds(reached: &Reached) -> String {
    let mut lines = columns("kind", ["only present", "both", "only slots", "all"]);
    let mut sums = [0; 3];
    for kind in Kind::ALL {
        let counts = Holding::ALL.map(|holding| count(reached, kind, holding));
        if counts != [0; 3] {
            lines += &numbers(kind.name(), counts);
        }
        sums = [0, 1, 2].map(|place| sums[place] + counts[place]);
    }
    lines + &numbers("used", sums) + &columns("free", ["", "", "", &reached.free().to_string()])
}

/// Counts of cells by who holds them, and their sum.
fn numbers(name: &str, counts: [usize; 3]) -> String {
    let [present, both, slots] = counts.map(|count| count.to_string());
    columns(name, [&present, &both, &slots, &counts.iter().sum::<usize>().to_string()])
}

/// One line of the table of kinds.
fn columns(name: &str, [present, both, slots, all]: [&str; 4]) -> String {
    format!("{name:12}{present:>14}{both:>8}{slots:>12}{all:>8}\n")
}

/// A table, or all slots together: its name, how many cells it holds, and how many of them nobody else does.
pub struct Table {
    pub name: &'static str,
    pub cells: usize,
    pub alone: usize,
}

/// The present table, that of each slot in use, and where there are several all slots together: what two of them share comes free
/// only with both.
pub fn tables(reached: &Reached) -> Vec<Table> {
    let slots = reached.slots();
    let mut tables = vec![table(reached, holder_name(0), &[0])];
    tables.extend(slots.iter().map(|slot| table(reached, holder_name(*slot), &[*slot])));
    if slots.len() > 1 {
        tables.push(table(reached, "all slots", &slots));
    }
    tables
}

/// The cells of some roots together.
fn table(reached: &Reached, name: &'static str, roots: &[usize]) -> Table {
    let holds = |root: usize, cell: usize| reached.by_root[root][cell].is_some();
    let cells = (0..reached.block.cells()).filter(|cell| roots.iter().any(|root| holds(*root, *cell)));
    let alone = |cell: &usize| !(0..ROOTS).any(|root| !roots.contains(&root) && holds(root, *cell));
    Table { name, cells: cells.clone().count(), alone: cells.filter(alone).count() }
}

/// How many cells each table holds, in lines. The cells of a slot alone would be free without it; the present table cannot be
/// dropped.
fn holders(reached: &Reached) -> String {
    let columns =
        |name: &str, alone: &str, freed: &str, cells: &str| format!("{name:12}{alone:>14}{freed:>19}{cells:>8}\n");
    let head = columns("table", "only this", "freed if dropped", "cells");
    let lines = tables(reached).into_iter().enumerate().map(|(place, Table { name, cells, alone })| {
        let (alone, cells) = (alone.to_string(), cells.to_string());
        if place == 0 {
            columns(name, &alone, "", &cells)
        } else {
            columns(name, "", &alone, &cells)
        }
    });
    head + &lines.collect::<String>()
}
