//! Embedded prefixes spoilt in every way that must be refused, each in a copy of a block that is sound without it.

use crate::calls::Call;
use crate::compare::Comparison;
use crate::counted::Spoilt;
use crate::crafted::put_pair;
use crate::foreign::foreign_block;
use crate::generate::{Scene, HOSTILE};
use crate::hostile::embedded_cells;
use crate::model::{pointer, put_word, Store, CELL, LONGEST_KEY, PREFIX, SPLIT};
use crate::random::Random;
use crate::schedule::calls;

/// All ways to spoil an embedded prefix.
const WAYS: [Spoilt; Spoilt::NAMES.len()] = [
    Spoilt::Offset00,
    Spoilt::Offset04,
    Spoilt::Offset1D,
    Spoilt::Offset1E,
    Spoilt::Offset1F,
    Spoilt::OffsetFE,
    Spoilt::EditionOne,
    Spoilt::EditionThree,
    Spoilt::TopBit,
    Spoilt::SecondAtPrefix,
    Spoilt::SecondAtNode,
    Spoilt::SecondInRun,
    Spoilt::RunIntoItself,
];

/// A sound block of edition 2, the cell of an embedded prefix in its root's tree, and where another word of that tree
/// stands, which may be made to lead into the cell again.
struct Target {
    block: Vec<u8>,
    cell: usize,
    other_word: usize,
}

/// A foreign block of edition 2 with an embedded prefix, and a copy of it for each way to spoil that.
pub fn spoilt(comparison: &mut Comparison, cells: usize, random: &mut Random) {
    let mut scene = Scene::drawn(random);
    scene.edition = 2;
    let Some(target) = (0..8).find_map(|_| drawn_target(cells.max(6), &scene, random)) else {
        return;
    };
    if comparison.step(&mut target.block.clone(), &Call::Validate).answer != 0 {
        comparison.note(&Call::Validate, &target.block, "a block that was built sound is not");
    }
    for way in WAYS {
        let Some(mut copy) = target.spoilt_copy(way, random) else {
            continue;
        };
        match comparison.step(&mut copy, &Call::Validate).answer {
            2 => comparison.coverage.spoilt(way),
            _ => comparison.note(&format_args!("validate, {way:?}"), &copy, "a spoilt block is not refused"),
        }
        calls(comparison, &mut copy, &mut scene, &HOSTILE, 1, random);
    }
}

/// A foreign tree under a new root, a sparse node with a leaf beside the tree; nothing where no cell is free for the root
/// or no prefix is embedded.
fn drawn_target(cells: usize, scene: &Scene, random: &mut Random) -> Option<Target> {
    let mut block = foreign_block(cells, LONGEST_KEY - 1, scene, random);
    let store = Store::decode(&block).ok()?;
    let pair = *store.free_cells().first()?;
    let embedded = embedded_cells(store.root.top.as_ref()?);
    if embedded.is_empty() {
        return None;
    }
    let place = random.below(2);
    let mut words = [u32::MAX; 2];
    words[1 - place] = store.root.word;
    put_pair(&mut block, pair, words[0], words[1]);
    let trailer = block.len() - CELL;
    put_word(&mut block, trailer, pointer(pair, 0x1E));
    Some(Target { block, cell: random.pick(&embedded), other_word: pair * CELL + 4 * place })
}

impl Target {
    /// The block with its embedded prefix spoilt; nothing where a head cannot be spoilt so, or a run of one character.
    fn spoilt_copy(&self, way: Spoilt, random: &mut Random) -> Option<Vec<u8>> {
        let mut block = self.block.clone();
        let (start, edition) = (self.cell * CELL, block.len() - 4);
        let offset = block[start + 4];
        let in_run = |from: u8, random: &mut Random| pointer(self.cell, random.between(from.into(), 0x1B));
        match way {
            Spoilt::Offset00 => block[start + 4] = 0x00,
            Spoilt::Offset04 => block[start + 4] = 0x04,
            Spoilt::Offset1D => block[start + 4] = 0x1D,
            Spoilt::Offset1E => block[start + 4] = 0x1E,
            Spoilt::Offset1F => block[start + 4] = 0x1F,
            Spoilt::OffsetFE => block[start + 4] = 0xFE,
            Spoilt::EditionOne => put_word(&mut block, edition, 1),
            Spoilt::EditionThree => put_word(&mut block, edition, 3),
            Spoilt::TopBit => block[start] |= 0x80,
            Spoilt::SecondAtPrefix => put_word(&mut block, self.other_word, pointer(self.cell, PREFIX.into())),
            Spoilt::SecondAtNode => put_word(&mut block, self.other_word, pointer(self.cell, offset.into())),
            Spoilt::SecondInRun if offset < 0x1B => put_word(&mut block, self.other_word, in_run(offset + 1, random)),
            Spoilt::RunIntoItself if offset < SPLIT => {
                let word = if random.chance(30) { pointer(self.cell, PREFIX.into()) } else { in_run(offset, random) };
                put_word(&mut block, start + 0x1C, word);
            }
            Spoilt::SecondInRun | Spoilt::RunIntoItself => return None,
        }
        Some(block)
    }
}
