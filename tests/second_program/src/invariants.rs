//! What must hold of every call of the model, told from the block's bytes before and after it.

use crate::calls::{perform, Call, Outcome};
use crate::coverage::Coverage;
use crate::encode::Layer;
use crate::ledger::Ledger;
use crate::model::{put_word, word_at, Node, Place, Seat, Store, CELL};
use crate::pages::{pairs_in, Page, Printed};
use crate::wear_invariants::{check_nearest, check_turned, free_cells, taken_cells};
use crate::write_list::{stores_in, Asked, RECORD};

/// The first promise that a call broke, in words.
pub type Verdict = Result<(), String>;

/// Demands one promise.
pub fn demand(kept: bool, promise: &str) -> Verdict {
    match kept {
        true => Ok(()),
        false => Err(format!("broken: {promise}")),
    }
}

/// Judges a call by the block before and after it and its outcome.
pub fn check(before: &[u8], after: &[u8], call: &Call, outcome: &Outcome) -> Verdict {
    if let (Call::Get { key }, 0 | 11) = (call, outcome.answer) {
        let value = look_up(before, key);
        demand(value.is_none() == (outcome.answer == 11), "a look-up finds what the bytes show")?;
        demand(value.unwrap_or(0) == outcome.number, "a look-up gives the value that the bytes show")?;
    }
    if let (Call::NextKey { key }, 0 | 11) = (call, outcome.answer) {
        check_next(before, key, outcome)?;
    }
    if outcome.answer != 0 {
        demand(before == after, "a refusal leaves the block")?;
        demand(*outcome == refused(call, outcome.answer), "a refusal gives zeros and leaves a buffer")?;
        return check_no_room(before, call, outcome);
    }
    let store = Store::decode(after).map_err(|flaw| format!("broken: the block is sound after the call ({flaw:?})"))?;
    match call {
        Call::Format { edition } => {
            demand(is_fresh(after, *edition), "a fresh block is zero but for its size and edition")
        }
        Call::Validate | Call::Get { .. } | Call::NextKey { .. } | Call::Verdict(_) => same(before, after),
        Call::Page(page) => same(before, after).and(check_page(before, page, outcome)),
        Call::WriteList(asked) => same(before, after).and(check_list(before, asked, outcome)),
        _ => {
            let old = Store::decode(before).expect("an accepted call had a sound block");
            let mut ledger = Ledger::of(&old);
            demand(ledger.feed(call, false) == Some(0), "the ledger accepts too")?;
            demand(ledger.shown_by(&store), "the tables are those of the ledger")?;
            check_bytes(before, after, call, outcome)
        }
    }
}

/// A call that only reads leaves the block.
fn same(before: &[u8], after: &[u8]) -> Verdict {
    demand(before == after, "a reading call leaves the block")
}

/// Whether a block is a fresh one of an edition that there is.
fn is_fresh(block: &[u8], edition: u32) -> bool {
    let trailer = block.len() - CELL;
    let numbers = [trailer + 0x16, trailer + 0x17, trailer + 0x1F];
    let zero = (0..block.len()).all(|offset| numbers.contains(&offset) || block[offset] == 0);
    let numbers = (word_at(block, trailer + 0x14) as usize, word_at(block, trailer + 0x1C));
    zero && numbers == (block.len() / CELL, edition) && (1..=2).contains(&edition)
}

/// The next key is shown, is greater, and no shown key lies between.
fn check_next(block: &[u8], key: &[u8], outcome: &Outcome) -> Verdict {
    let shown: Vec<Vec<u8>> = Store::decode(block).expect("sound").root.table().into_keys().collect();
    let greater = shown.iter().filter(|candidate| candidate.as_slice() > key).min();
    let size = outcome.number as usize;
    let expected = greater.map(|next| next.as_slice());
    demand(expected == (outcome.answer == 0).then_some(&outcome.key[..size]), "the next key is the least greater one")?;
    demand(outcome.key[size..].iter().all(|byte| *byte == 0), "the key is zero past its size")
}

/// A refusal of a call: zeros, and beside that of a page or write list its buffer as it was.
fn refused(call: &Call, answer: u8) -> Outcome {
    let mut outcome = Outcome::bare(answer);
    if let Call::Page(Page { buffer, .. }) | Call::WriteList(Asked { buffer, .. }) = call {
        outcome.buffer.clone_from(buffer);
    }
    outcome
}

/// A page's used bytes are whole records, each of the least key past the one before with the value that the bytes show; the
/// next would not fit, or there is none; the rest of the buffer is as it was.
fn check_page(block: &[u8], asked: &Page, outcome: &Outcome) -> Verdict {
    let Outcome { page: Printed { used, more }, buffer, .. } = outcome;
    let used = *used as usize;
    demand(buffer.len() == asked.buffer.len() && buffer[used..] == asked.buffer[used..], "a page leaves the rest")?;
    let pairs = pairs_in(&buffer[..used]).ok_or("broken: a page is of whole records")?;
    demand(pairs.len() == outcome.number as usize, "a page counts its records")?;
    let shown = Store::decode(block).expect("sound").root.table();
    let mut left = shown.keys().filter(|key| **key > asked.key);
    for (key, value) in &pairs {
        demand(left.next() == Some(key), "a record is of the least greater key")?;
        demand(look_up(block, key) == Some(*value), "a record has the value that the bytes show")?;
    }
    let next = left.next();
    demand(next.is_some() == (*more == 1) && *more < 2, "more is told exactly when a key is left")?;
    demand(next.is_none_or(|key| used + key.len() + 5 > buffer.len()), "a record that fits is written")
}

/// A list's stores are the eight words of each cell taken and then the root word, and give what the insertion gives.
fn check_list(block: &[u8], asked: &Asked, outcome: &Outcome) -> Verdict {
    let used = outcome.number as usize * RECORD;
    let rest = outcome.buffer.len() == asked.buffer.len() && outcome.buffer[used..] == asked.buffer[used..];
    demand(rest, "a list leaves the rest of its buffer")?;
    let mut entered = block.to_vec();
    let count = perform(&mut entered, &asked.entry(), &mut Coverage::new()).number as usize;
    let mut stores = stores_in(&outcome.buffer[..used]);
    demand(stores.len() == 8 * count + 1, "a list has 8 records for each cell taken, and 1")?;
    let mut stored = block.to_vec();
    stores.iter().for_each(|(position, word)| put_word(&mut stored, *position, *word));
    demand(stored == entered, "the stores of a list give what the insertion gives")?;
    demand(stores.pop().is_some_and(|(position, _)| position == block.len() - CELL), "the root word comes last")?;
    let whole =
        |cell: &[(usize, u32)]| (0..8).all(|word| cell[word].0 == cell[0].0 + 4 * word) && cell[0].0 % CELL == 0;
    demand(stores.chunks(8).all(whole), "each cell comes whole, its words in rising position")?;
    let cells: Vec<usize> = stores.iter().step_by(8).map(|(position, _)| position / CELL).collect();
    demand(cells == taken_cells(block, &entered)?, "the cells come in the order in which they are taken")?;
    check_nearest(block, &cells)
}

/// Which bytes a mutating call may write.
fn check_bytes(before: &[u8], after: &[u8], call: &Call, outcome: &Outcome) -> Verdict {
    let trailer = before.len() - CELL;
    let (key, least) = match call {
        Call::Insert { key, .. } => (key, 1),
        Call::Remove { key } => (key, 0),
        _ => return demand(before[..trailer] == after[..trailer], "a snapshot's call writes the trailer alone"),
    };
    let count = outcome.number as usize;
    demand((least..=4 * key.len() + 10).contains(&count), "the count keeps its bound")?;
    let taken = taken_cells(before, after)?;
    demand(taken.len() == count, "the count is that of the newly reached cells")?;
    check_nearest(before, &taken)?;
    let mut rebuilt = before.to_vec();
    put_word(&mut rebuilt, trailer, word_at(after, trailer));
    for cell in &taken {
        rebuilt[cell * CELL..][..CELL].fill(0);
    }
    let top = Store::decode(after).expect("sound").root.top;
    demand(least == 0 || top.is_some(), "an insertion leaves a root")?;
    let mut layer = Layer::new(&mut rebuilt, taken.clone());
    let root = top.map_or(0, |top| layer.lay(&as_new(top, &taken)));
    demand(root == word_at(after, trailer), "the decoded tree encodes to the same root")?;
    demand(rebuilt == after, "the decoded tree encodes to the same bytes, and no other byte moved")?;
    let place_of = |cell: &usize| taken.iter().position(|taken| taken == cell);
    let places: Vec<usize> = path_cells(after, key).iter().filter_map(place_of).collect();
    demand(places.windows(2).all(|pair| pair[0] > pair[1]), "the deepest node takes its cell first")?;
    demand(least == 1 || places.len() == count, "a removal takes cells for the key's path alone")?;
    demand(least == 1 || kept_shapes(before, after, key), "a node is rebuilt by what it keeps")?;
    demand(seated(after, key, &taken), "a value stands where the edition and its node ask for")?;
    check_enlarged(before, call, count as u32)?;
    check_turned(before, call, outcome, &taken)
}

/// The same change with plenty of room takes the same number of cells, whatever the value.
fn check_enlarged(before: &[u8], call: &Call, count: u32) -> Verdict {
    let Some(mut enlarged) = enlarge(before) else {
        return Ok(());
    };
    let mut call = call.clone();
    if let Call::Insert { value, .. } = &mut call {
        *value ^= 1;
    }
    let outcome = perform(&mut enlarged, &call, &mut Coverage::new());
    demand(outcome == Outcome::done(count), "the count depends on the tree and key alone")
}

/// Answer 7 comes exactly when the same change in a larger block takes more cells than were free, and in a turned block
/// too.
fn check_no_room(before: &[u8], call: &Call, outcome: &Outcome) -> Verdict {
    if outcome.answer != 7 {
        return Ok(());
    }
    let change = if let Call::WriteList(asked) = call { &asked.entry() } else { call };
    check_turned(before, change, &Outcome::bare(7), &[])?;
    let Some(mut enlarged) = enlarge(before) else {
        return Ok(());
    };
    let free = free_cells(before).len();
    let outcome = perform(&mut enlarged, change, &mut Coverage::new());
    demand(outcome.answer == 0, "a larger block has room")?;
    demand(outcome.number as usize > free, "more cells are taken than were free")
}

/// The same block with 210 more cells before its trailer, more than any change takes.
fn enlarge(block: &[u8]) -> Option<Vec<u8>> {
    let trailer = block.len() - CELL;
    let cells = block.len() / CELL + 210;
    if cells > 2048 {
        return None;
    }
    let mut enlarged = block[..trailer].to_vec();
    enlarged.resize((cells - 1) * CELL, 0xEE);
    enlarged.extend_from_slice(&block[trailer..]);
    put_word(&mut enlarged, (cells - 1) * CELL + 0x14, cells as u32);
    Some(enlarged)
}

/// A decoded tree with the nodes of some cells set as still to be written.
fn as_new(node: Node, taken: &[usize]) -> Node {
    let place_of = |place: Place| match place {
        Place::Held(cell) if taken.contains(&cell) => Place::Fresh,
        other => other,
    };
    match node {
        Node::Leaf(value) => Node::Leaf(value),
        Node::Chain { place, run, child } => {
            Node::Chain { place: place_of(place), run, child: Box::new(as_new(*child, taken)) }
        }
        Node::Prefix { seat, value, linked } => {
            let seat = match seat {
                Seat::Standalone(place) => Seat::Standalone(place_of(place)),
                Seat::Embedded => Seat::Embedded,
            };
            Node::Prefix { seat, value, linked: Box::new(as_new(*linked, taken)) }
        }
        Node::Sparse { place, children } => {
            let children = children.into_iter().map(|(character, child)| (character, as_new(child, taken))).collect();
            Node::Sparse { place: place_of(place), children }
        }
        Node::Split { place, mut mids } => {
            for mid in mids.values_mut() {
                mid.place = place_of(mid.place);
                for end in mid.ends.values_mut() {
                    end.place = place_of(end.place);
                    let children = std::mem::take(&mut end.children);
                    end.children = children.into_iter().map(|(last, child)| (last, as_new(child, taken))).collect();
                }
            }
            Node::Split { place: place_of(place), mids }
        }
    }
}

/// The linked word of a prefix, read from the bytes.
fn link(block: &[u8], prefix: u32) -> u32 {
    let cell = (prefix / 32) as usize * CELL;
    match block[cell + 4] {
        0xFF => word_at(block, cell + 0x1C),
        offset => prefix - 0x1F + u32::from(offset),
    }
}

/// Whether each value that a change wrote on its key's path is embedded where the edition is 2 and the node's cell was taken
/// and has room, and stands alone where not, told from the bytes.
fn seated(block: &[u8], key: &[u8], taken: &[usize]) -> bool {
    let second_edition = word_at(block, block.len() - 4) == 2;
    (0..=key.len()).all(|depth| {
        let (word, _) = follow(block, &key[..depth]);
        if word == 0 || word >> 31 == 1 || word % 32 != 0x1F || !taken.contains(&((word / 32) as usize)) {
            return true;
        }
        let (alone, node) = (block[(word / 32) as usize * CELL + 4] == 0xFF, link(block, word));
        let roomy = matches!(node % 32, 0x05..=0x1C) && taken.contains(&((node / 32) as usize));
        alone != (roomy && second_edition)
    })
}

/// The child word of a pointer by one character, read from the bytes; the cells on the way are noted.
fn child_word(block: &[u8], word: u32, character: u8, cells: &mut Vec<usize>) -> u32 {
    let at = |word: u32, offset: usize| word_at(block, (word / 32) as usize * CELL + offset);
    cells.push((word / 32) as usize);
    match word % 32 {
        0x1C => {
            let bits = character as usize;
            let mid = at(word, 0x10 + bits / 64 * 4);
            let end = if mid == 0 { 0 } else { at(mid, bits / 8 % 8 * 4) };
            cells.extend([mid, end].iter().filter(|part| **part != 0).map(|part| (part / 32) as usize));
            if end == 0 { 0 } else { at(end, bits % 8 * 4) }
        }
        0x1E => {
            let characters = &block[(word / 32) as usize * CELL + 0x18..][..6];
            let fits = |place: &usize| characters[*place] == character && at(word, 4 * place) != 0;
            (0..6).find(fits).map_or(0, |place| at(word, 4 * place))
        }
        _ if block[word as usize] != character => 0,
        0x1B => at(word, 0x1C),
        _ => word + 1,
    }
}

/// The node at the end of a key, with the cells on the way; NONE where the key is not to be followed.
fn follow(block: &[u8], key: &[u8]) -> (u32, Vec<usize>) {
    let mut word = word_at(block, block.len() - CELL);
    let mut cells = Vec::new();
    for character in key {
        if word == 0 || word >> 31 == 1 {
            return (0, cells);
        }
        if word % 32 == 0x1F {
            cells.push((word / 32) as usize);
            word = link(block, word);
        }
        word = child_word(block, word, *character, &mut cells);
    }
    (word, cells)
}

/// The value of a key by following the bytes alone.
fn look_up(block: &[u8], key: &[u8]) -> Option<u32> {
    match follow(block, key).0 {
        0 => None,
        word if word >> 31 == 1 => Some(!word),
        word if word % 32 == 0x1F => Some(word_at(block, (word / 32) as usize * CELL)),
        _ => None,
    }
}

/// The cells on the path of a key that is shown, each once for a run, its own prefix cell last.
fn path_cells(block: &[u8], key: &[u8]) -> Vec<usize> {
    let (word, mut cells) = follow(block, key);
    if word % 32 == 0x1F && word >> 31 == 0 {
        cells.push((word / 32) as usize);
    }
    cells.dedup();
    cells
}

/// Whether a removal left of the key's end and of each node on its path what the specification asks for, told from the bytes.
fn kept_shapes(before: &[u8], after: &[u8], key: &[u8]) -> bool {
    let (end, _) = follow(before, key);
    let linked = if end >> 31 == 1 { 0 } else { link(before, end) };
    let kept = |depth: usize| {
        let (old, new) = (bare_node(before, &key[..depth]), bare_node(after, &key[..depth]));
        let (mut had, keeps) = (characters(before, old), characters(after, new));
        if had == keeps {
            return same_shape(before, old, after, new, keeps.len());
        }
        had.retain(|character| *character != key[depth]);
        let written = &after[(new / 32) as usize * CELL + 0x18..][..keeps.len().min(6)];
        had == keeps
            && match keeps.len() {
                0 => new == 0,
                1 => new % 32 == 0x1B,
                2..=6 => new % 32 == 0x1E && written == keeps,
                _ => new % 32 == 0x1C,
            }
    };
    follow(after, key).0 == linked && (0..key.len()).all(kept)
}

/// Whether two nodes with the same characters are of one layout; a sparse node keeps order and positions too.
fn same_shape(before: &[u8], old: u32, after: &[u8], new: u32, count: usize) -> bool {
    let cell = |block: &[u8], word: u32| block[(word / 32) as usize * CELL..][..CELL].to_vec();
    let (old_cell, new_cell) = (cell(before, old), cell(after, new));
    match old % 32 {
        0x1C => new % 32 == 0x1C,
        0x1E => {
            let same = |bytes: std::ops::Range<usize>| old_cell[bytes.clone()] == new_cell[bytes];
            new % 32 == 0x1E && same(0x18..0x18 + count) && same(0x1E..CELL)
        }
        _ => new % 32 < 0x1C,
    }
}

/// The node at the end of a path without its value, NONE where there is none.
fn bare_node(block: &[u8], path: &[u8]) -> u32 {
    match follow(block, path).0 {
        word if word >> 31 == 1 => 0,
        word if word % 32 == 0x1F => link(block, word),
        word => word,
    }
}

/// The characters by which a node leads on, rising.
fn characters(block: &[u8], word: u32) -> Vec<u8> {
    let leads_on = |character: &u8| word != 0 && child_word(block, word, *character, &mut Vec::new()) != 0;
    (0..=255).filter(leads_on).collect()
}
