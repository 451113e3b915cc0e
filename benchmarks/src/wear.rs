//! Wear: how often each cell is written where labels are written again and again, under the rule that took the lowest free cell
//! and under the present one, which goes on after the root's own cell.

use crate::insertion::{self, STORE};
use crate::labels::{self, Random, SEED};
use crate::plain::{word_at, CELL};
use crate::{plain, proved, validation, write_list};

/// The cells of the block.
const CELLS: usize = 64;

/// The cells that can hold a node: all but the first and the trailer's.
const USABLE: usize = CELLS - 2;

/// How often a label is written.
const WRITES: usize = 100_000;

/// The label that is written, one of the lot's.
const LABEL: &[u8] = b"PU1K-073-4";

/// The number of the lot whose fifty labels fill half of the block.
const LOT: usize = 7;

/// The bytes of the longest list that this block has cells for.
const LONGEST_LIST: usize = (USABLE * (CELL / 4) + 1) * STORE;

/// How many registers have the writes to each cell printed.
const SHOWN: usize = 2;

/// A rule for the cells that an insertion takes: its name, and the list of an insertion's stores under it.
struct Rule {
    name: &'static str,
    list: fn(&[u8], &[u8], u32) -> Vec<u8>,
}

/// The rule before and the present one.
const RULES: [Rule; 2] =
    [Rule { name: "lowest first", list: lowest_first }, Rule { name: "after the root", list: after_root }];

/// A register: the labels that it holds before the first write, whether a snapshot is taken then, and the labels that are
/// written, from the first again after the last.
struct Register {
    name: &'static str,
    held: Vec<Vec<u8>>,
    snapshot: bool,
    written: Vec<Vec<u8>>,
}

/// What the writes of a register did under a rule: how often each cell was written, whether it was free as one of them at least
/// began, how often the root word was stored, and the block that is left.
struct Wear {
    cells: [u32; CELLS],
    free: [bool; CELLS],
    roots: usize,
    block: Vec<u8>,
}

/// Prints the wear of every register under both rules, and of the first registers cell by cell.
pub fn report() {
    let worn: Vec<(Register, [Wear; 2])> = registers().into_iter().map(worn).collect();
    println!();
    println!("{WRITES} writes in a block of {CELLS} cells:");
    println!();
    println!(
        "| register | rule | writes to cells | cells written | never written | of these never free | most to one cell \
         | mean of {USABLE} usable | most / mean | mean of those ever free | most / mean |"
    );
    println!("|---|---|---|---|---|---|---|---|---|---|---|");
    for (register, both) in &worn {
        for (rule, wear) in RULES.iter().zip(both) {
            println!("| {} | {} | {} |", register.name, rule.name, wear.figures());
        }
    }
    println!();
    println!(
        "The root word in the trailer is stored once a write, {WRITES} times in every line; neither rule spreads it."
    );
    println!();
    println!("Writes to each cell, sixteen in a row (- is no usable cell, . one that is never free):");
    for (register, both) in &worn[..SHOWN] {
        for (rule, wear) in RULES.iter().zip(both) {
            println!();
            println!("{}, {}:", register.name, rule.name);
            wear.show();
        }
    }
}

/// The label alone; among the others of its lot; the same with a snapshot that holds what was there before the first write; and
/// all labels of the lot, each write to one that is drawn.
fn registers() -> [Register; 4] {
    let mut random = Random(SEED ^ CELLS as u64);
    let lot = random.mixed(labels::lots(LOT, 1));
    let drawn = (0..WRITES).map(|_| lot[random.below(lot.len())].clone()).collect();
    let one = vec![LABEL.to_vec()];
    assert!(lot.contains(&one[0]), "the label is one of the lot's");
    [
        Register { name: "one label", held: one.clone(), snapshot: false, written: one.clone() },
        Register { name: "one of 50 labels", held: lot.clone(), snapshot: false, written: one.clone() },
        Register { name: "one of 50 labels, snapshot held", held: lot.clone(), snapshot: true, written: one },
        Register { name: "all of 50 labels", held: lot, snapshot: false, written: drawn },
    ]
}

/// The wear of a register under both rules. They must show the same table and differ in what the present one is for: it writes no
/// cell as often as the rule before its worst one, and leaves out no cell that is ever free.
fn worn(register: Register) -> (Register, [Wear; 2]) {
    let both = RULES.map(|rule| Wear::of(&register, &rule));
    let [before, present] = &both;
    assert!(table(&before.block) == table(&present.block), "the same table under both rules: {}", register.name);
    assert_eq!(before.writes(), present.writes(), "as many cells under both rules: {}", register.name);
    assert!(both.iter().all(|wear| wear.roots == WRITES), "one store of the root word a write: {}", register.name);
    assert!(present.most() < before.most(), "less wear of the worst cell: {}", register.name);
    assert_eq!(present.written(), present.ever_free(), "every free cell in its turn: {}", register.name);
    (register, both)
}

/// The records of all labels that a block shows.
fn table(block: &[u8]) -> Vec<u8> {
    let mut records = vec![0; CELLS * CELL];
    let page = plain::page(block, &[], &mut records);
    assert!(page.answer == 0 && !page.more, "one page for all labels");
    records.truncate(page.used as usize);
    records
}

/// The list under the rule before: the plain program, which tries the cells from 1 upward whatever the root is.
fn lowest_first(block: &[u8], label: &[u8], value: u32) -> Vec<u8> {
    let (reached, mut list) = (reached(block), vec![0; LONGEST_LIST]);
    let (answer, records) = insertion::list(block, &reached, 1, label, value, &mut list);
    assert_eq!(answer, 0, "room for {label:?}");
    list.truncate(records as usize * STORE);
    list
}

/// The list under the present rule: the proved library's own, which the plain program's must equal, and whose stores must leave
/// what the library's insertion leaves.
fn after_root(block: &[u8], label: &[u8], value: u32) -> Vec<u8> {
    let ((answer, records), mut list) = write_list::listed(block, label, value, LONGEST_LIST);
    assert_eq!(answer, 0, "room for {label:?}");
    list.truncate(records as usize * STORE);
    let (mut inserted, mut stored) = (block.to_vec(), block.to_vec());
    assert_eq!(proved::insert(&mut inserted, label, value), (0, records / 8), "insertion of {label:?}");
    write_list::store(&mut stored, &list);
    assert!(stored == inserted, "the bytes after the stores of {label:?}");
    list
}

/// The cells that the roots of a sound block reach.
fn reached(block: &[u8]) -> validation::Reached {
    let mut reached = [0; 2048];
    assert!(validation::is_sound(block, &mut reached), "a sound block");
    reached
}

impl Wear {
    /// The wear of a register under a rule. Filling the register does not count, but is by the same rule.
    fn of(register: &Register, rule: &Rule) -> Wear {
        let mut wear = Wear { cells: [0; CELLS], free: [false; CELLS], roots: 0, block: plain::fresh(CELLS, 1) };
        for label in &register.held {
            let list = (rule.list)(&wear.block, label, 0);
            write_list::store(&mut wear.block, &list);
        }
        if register.snapshot {
            assert_eq!(proved::snapshot(&mut wear.block, 1), 0, "a snapshot");
        }
        for (value, label) in register.written.iter().cycle().take(WRITES).enumerate() {
            let list = (rule.list)(&wear.block, label, value as u32);
            wear.count(&list);
            write_list::store(&mut wear.block, &list);
        }
        wear
    }

    /// Counts one list before its stores: the cells that are free, those that it writes, eight words each, and the root word.
    fn count(&mut self, list: &[u8]) {
        let reached = reached(&self.block);
        for (free, roots) in self.free[1..=USABLE].iter_mut().zip(&reached[1..]) {
            *free |= *roots == 0;
        }
        let (of_cells, of_root) = list.split_at(list.len() - STORE);
        for records in of_cells.chunks(CELL / 4 * STORE) {
            let cell = word_at(records, 0) as usize / CELL;
            let words = records.chunks(STORE).map(|record| word_at(record, 0) as usize);
            assert!(words.eq((cell * CELL..(cell + 1) * CELL).step_by(4)), "all words of cell {cell}");
            self.cells[cell] += 1;
        }
        self.roots += usize::from(word_at(of_root, 0) as usize == (CELLS - 1) * CELL);
    }

    /// The writes to all cells.
    fn writes(&self) -> u32 {
        self.cells.iter().sum()
    }

    /// The writes to the cell that was written most often.
    fn most(&self) -> u32 {
        self.cells.into_iter().max().unwrap_or(0)
    }

    /// How many cells were written.
    fn written(&self) -> usize {
        self.cells.iter().filter(|writes| **writes != 0).count()
    }

    /// How many cells were free as one of the writes at least began.
    fn ever_free(&self) -> usize {
        self.free.iter().filter(|free| **free).count()
    }

    /// The line of the table. The memory is bought with all usable cells and is worn out with its first cell, so the most writes
    /// against the mean of all usable ones say how much sooner that is than if every cell had its share. A cell that other labels
    /// or a snapshot hold all the time has no share, under any rule that moves nothing else; against the mean of those that are
    /// ever free, the rule alone is judged.
    fn figures(&self) -> String {
        let (writes, most, written, ever_free) = (self.writes(), self.most(), self.written(), self.ever_free());
        let counts = format!("{writes} | {written} | {} | {} | {most}", USABLE - written, USABLE - ever_free);
        let against = |cells: usize| {
            let mean = f64::from(writes) / cells as f64;
            format!("{mean:.0} | {:.2}", f64::from(most) / mean)
        };
        format!("{counts} | {} | {}", against(USABLE), against(ever_free))
    }

    /// Prints the writes to each cell.
    fn show(&self) {
        let number = |cell: usize| match self.cells[cell] {
            _ if !(1..=USABLE).contains(&cell) => "-".to_string(),
            0 if !self.free[cell] => ".".to_string(),
            writes => writes.to_string(),
        };
        for first in (0..CELLS).step_by(16) {
            println!("{}", (first..first + 16).map(|cell| format!("{:>6}", number(cell))).collect::<String>());
        }
    }
}
