//! The map of a block as a picture: a square for each cell, with its letter and a tick for each slot that holds it, and its
//! contents where the mouse points at it.

use super::block::SLOTS;
use super::contents;
use super::reached::{Holding, Reached, What};
use super::reading::{Kind, Reading};
use super::text::{self, Table};
use std::path::Path;

/// The space around everything, in which the numbers of the rows stand too.
const MARGIN: usize = 44;

/// Where the squares begin, below the headlines.
const TOP: usize = 112;

/// The height of a line of the legend.
const LINE: usize = 28;

/// The side of a square in the legend.
const LEGEND_SIDE: usize = 20;

/// The entries of the legend in a line.
const LEGEND_COLUMNS: usize = 4;

/// The least height of a tick, so that it is seen in the smallest squares too.
const LEAST_TICK: usize = 4;

/// How letters, colours and borders look. Kinds differ in lightness too, and the letters tell them apart without any colour.
const STYLE: &str = "\
text{font-family:sans-serif;font-size:14px;fill:#222}
.name{font-size:20px;font-weight:bold}
.number{font-size:11px;fill:#555}
.cell text,.key text{font-family:monospace;font-weight:bold;text-anchor:middle}
rect{stroke:#777;stroke-width:1}
.free rect{fill:#fff;stroke:#bbb}
.free text{fill:#bbb}
.fixed rect{fill:#444}
.C rect{fill:#c6e2f5}
.S rect{fill:#2b7bba}
.H rect{fill:#a04a00}
.M rect{fill:#f1a340}
.E rect{fill:#fee6c4}
.P rect{fill:#dcc8ea}
.Q rect{fill:#a58cc9}
.R rect{fill:#542788}
.fixed text,.S text,.H text,.R text{fill:#fff}
.both rect{stroke:#000;stroke-width:2.5}
.slots rect{stroke:#000}
.tick{fill:#fff;stroke:#000;stroke-width:1}
";

/// What a square shows: what the cell is, and for each slot whether it holds it.
type Shown = (What, [bool; SLOTS]);

/// A square of the legend, if there is one, and the words beside it.
type Key = (Option<Shown>, String);

/// The squares in a row and the side of a square, by the number of cells, so that a letter fits and the whole fits a screen.
fn measures(cells: usize) -> (usize, usize) {
    match cells {
        0..=64 => (16, 48),
        65..=512 => (32, 28),
        _ => (64, 18),
    }
}

/// The whole picture, under the name of the file.
pub fn svg(reached: &Reached, file: &Path) -> String {
    let cells = reached.block.cells();
    let (columns, side) = measures(cells);
    let bottom = TOP + cells.div_ceil(columns) * side + LINE;
    let rows = legend_rows(reached);
    let height = bottom + rows.len() * LINE + LINE / 2;
    let name = escaped(&file.file_name().unwrap_or(file.as_os_str()).to_string_lossy());
    let width = columns * side + 2 * MARGIN;
    format!(
        "<svg xmlns=\"http://www.w3.org/2000/svg\" width=\"{width}\" height=\"{height}\" viewBox=\"0 0 {width} {height}\">\n\
         <title>{name}</title>\n<style>\n{STYLE}</style>\n\
         <rect width=\"{width}\" height=\"{height}\" style=\"fill:#fff;stroke:none\"/>\n{}{}{}{}</svg>\n",
        headline(reached, &name),
        numbers(cells, columns, side),
        squares(reached, columns, side),
        legend(&rows, bottom, columns * side)
    )
}

/// The name of the file, and below it how full the block is and which slots are in use.
fn headline(reached: &Reached, name: &str) -> String {
    let mut lines = text_at("name", MARGIN, 34, name);
    for (place, line) in text::summary(reached).iter().enumerate() {
        lines += &text_at("line", MARGIN, 54 + 18 * place, line);
    }
    lines
}

/// The number of the first cell of each row, and above the rows the number of each eighth column.
fn numbers(cells: usize, columns: usize, side: usize) -> String {
    let row = |row: usize| text_at("number", 8, TOP + row * side + side / 2 + 4, &(row * columns).to_string());
    let column = |column: usize| text_at("number", MARGIN + column * side + 2, TOP - 6, &format!("+{column}"));
    let columns_numbered: String = (0..columns.min(cells)).step_by(8).map(column).collect();
    columns_numbered + &(0..cells.div_ceil(columns)).map(row).collect::<String>()
}

/// A square for each cell.
fn squares(reached: &Reached, columns: usize, side: usize) -> String {
    let each = |(cell, what): (usize, What)| {
        let (x, y) = (MARGIN + cell % columns * side, TOP + cell / columns * side);
        square("cell", (what, reached.in_slots(cell)), &tooltip(reached, cell), (x, y, side))
    };
    reached.all().enumerate().map(each).collect()
}

/// What is shown of a cell where the mouse points at it.
fn tooltip(reached: &Reached, cell: usize) -> String {
    let show = |[number, kind, holders, contents]: contents::Line| {
        let parts = [("cell ", number), (": ", kind), ("; held by ", holders), ("; ", contents)];
        parts
            .into_iter()
            .filter(|(_, part)| !part.is_empty())
            .map(|(before, part)| before.to_string() + &part)
            .collect()
    };
    let lines: Vec<String> = contents::lines(reached, cell).into_iter().map(show).collect();
    escaped(&lines.join("\n"))
}

/// A square with its letter and ticks, at a place and of a side; it is round where slots alone hold the cell, which small letters
/// tell too.
fn square(class: &str, (what, slots): Shown, title: &str, (x, y, side): (usize, usize, usize)) -> String {
    let (left, above, inner) = (x + 2, y + 2, side - 4);
    let round = if matches!(what, What::Used(_, Holding::Slots)) { inner / 2 } else { 0 };
    format!(
        "<g class=\"{class} {}\"><title>{title}</title>\
         <rect x=\"{left}\" y=\"{above}\" width=\"{inner}\" height=\"{inner}\" rx=\"{round}\"/>\
         <text x=\"{}\" y=\"{}\" style=\"font-size:{}px\">{}</text>{}</g>\n",
        classes(what),
        x + side / 2,
        y + side / 2 + side / 5,
        side * 3 / 5,
        text::sign(what),
        ticks(slots, left, above, inner)
    )
}

/// A tick across the lower edge of a square for each slot that holds its cell: at the left for slot 1, in the middle for 2, at the
/// right for 3.
fn ticks(slots: [bool; SLOTS], left: usize, above: usize, inner: usize) -> String {
    let (width, height) = (inner / 4, LEAST_TICK.max(inner / 8));
    let tick = |place: usize| {
        let (x, y) = (left + place * (inner - width) / (SLOTS - 1), above + inner - height / 2);
        format!("<path class=\"tick slot{}\" d=\"M{x} {y}h{width}v{height}h-{width}z\"/>", place + 1)
    };
    (0..SLOTS).filter(|place| slots[*place]).map(tick).collect()
}

/// The names by which a square gets its colour and border.
fn classes(what: What) -> String {
    match what {
        What::NeverUsed | What::Trailer => "fixed".to_string(),
        What::Free => "free".to_string(),
        What::Used(reading, Holding::Present) => format!("{} present", reading.kind.letter()),
        What::Used(reading, Holding::Both) => format!("{} both", reading.kind.letter()),
        What::Used(reading, Holding::Slots) => format!("{} slots", reading.kind.letter()),
    }
}

/// What the squares mean and how many there are of each, from a height on.
fn legend(rows: &[Vec<Key>], top: usize, width: usize) -> String {
    let mut lines = String::new();
    for (row, keys) in rows.iter().enumerate() {
        for (column, (shown, words)) in keys.iter().enumerate() {
            let (x, y) = (MARGIN + column * width / LEGEND_COLUMNS, top + row * LINE);
            lines += &shown.map_or(String::new(), |shown| square("key", shown, words, (x, y, LEGEND_SIDE)));
            lines += &text_at("line", if shown.is_some() { x + LEGEND_SIDE + 6 } else { x }, y + 15, words);
        }
    }
    lines
}

/// The rows of the legend: the kinds, what is no node, who holds a cell, and how many cells each table has.
fn legend_rows(reached: &Reached) -> Vec<Vec<Key>> {
    let others = [
        (What::Free, format!("free: {}", reached.free())),
        (What::NeverUsed, "never used".to_string()),
        (What::Trailer, "trailer".to_string()),
    ];
    let others = others.map(|(what, words)| (Some((what, [false; SLOTS])), words));
    let tables = text::tables(reached);
    let tables: Vec<Key> =
        tables.iter().map(|Table { name, cells, alone }| (None, format!("{name}: {cells} ({alone})"))).collect();
    let mut rows: Vec<Vec<Key>> = kind_keys(reached).chunks(LEGEND_COLUMNS).map(<[_]>::to_vec).collect();
    rows.extend([others.to_vec(), holder_keys()]);
    rows.push(vec![(None, "Cells of each table, and in brackets those that nobody else holds:".to_string())]);
    rows.extend(tables.chunks(LEGEND_COLUMNS).map(<[_]>::to_vec));
    rows
}

/// The kinds with how many cells there are of each.
fn kind_keys(reached: &Reached) -> Vec<Key> {
    let key = |kind: Kind| {
        let count: usize = Holding::ALL.iter().map(|holding| text::count(reached, kind, *holding)).sum();
        (Some((used(kind, Holding::Present), [false; SLOTS])), format!("{}: {count}", kind.name()))
    };
    Kind::ALL.map(key).to_vec()
}

/// Who holds a cell, and the ticks that tell which slots do.
fn holder_keys() -> Vec<Key> {
    let words = ["present only", "present and slots", "slots only"];
    let mut keys: Vec<Key> = Holding::ALL
        .into_iter()
        .zip(words)
        .map(|(holding, words)| (Some((used(Kind::Chain, holding), [false; SLOTS])), words.to_string()))
        .collect();
    keys.push((Some((used(Kind::Chain, Holding::Both), [true; SLOTS])), "ticks: in slot 1, 2, 3".to_string()));
    keys
}

/// A cell of a kind that is held so.
fn used(kind: Kind, holding: Holding) -> What {
    What::Used(Reading { kind, from: 0 }, holding)
}

/// A line of text at a place.
fn text_at(class: &str, x: usize, y: usize, words: &str) -> String {
    format!("<text class=\"{class}\" x=\"{x}\" y=\"{y}\">{words}</text>\n")
}

/// Text as it may stand in the picture's file; a character that may not is replaced.
fn escaped(words: &str) -> String {
    let escape = |character: char| match character {
        '&' => "&amp;".to_string(),
        '<' => "&lt;".to_string(),
        '>' => "&gt;".to_string(),
        '"' => "&quot;".to_string(),
        '\n' => "\n".to_string(),
        _ if character.is_control() || matches!(character, '\u{FFFE}' | '\u{FFFF}') => "\u{FFFD}".to_string(),
        _ => character.to_string(),
    };
    words.chars().map(escape).collect()
}
