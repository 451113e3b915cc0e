//! The map of a block: what every cell is, and which of the present table and the slots holds it.

mod block;
mod contents;
mod picture;
mod reached;
mod reading;
mod text;

use crate::block_file;
use crate::pages;
use crate::proved;
use crate::trouble::Trouble;
use block::Block;
use reached::Reached;
use std::ffi::OsString;
use std::os::unix::ffi::OsStrExt;
use std::path::Path;

/// The most cells of a block whose map tells of each cell without being asked.
const FEW_CELLS: usize = 64;

/// What is asked for beside the map itself.
#[derive(Default)]
pub struct Wishes<'a> {
    each_cell: bool,
    picture: Option<&'a Path>,
}

/// Reads the options of a map, each given at most once; nothing where they are not understood, as where an option stands in the
/// place of a picture's name.
pub fn wishes(options: &[OsString]) -> Option<Wishes<'_>> {
    let mut wishes = Wishes::default();
    let mut rest = options;
    while let [option, past @ ..] = rest {
        rest = match (option.to_str()?, past) {
            ("--cells", _) if !wishes.each_cell => {
                wishes.each_cell = true;
                past
            }
            ("--svg", [picture, past @ ..]) if wishes.picture.is_none() && !picture.as_bytes().starts_with(b"--") => {
                wishes.picture = Some(Path::new(picture));
                past
            }
            _ => return None,
        };
    }
    Some(wishes)
}

/// Maps the block of a file, in words and where asked for as a picture in a new file.
pub fn show(file: &Path, wishes: &Wishes) -> Result<String, Trouble> {
    let bytes = sound(file)?;
    let reached = Reached::of(Block(&bytes));
    let mut lines = text::map(&reached);
    if wishes.each_cell || reached.block.cells() <= FEW_CELLS {
        lines = lines + "\n" + &contents::table(&reached);
    }
    if let Some(picture) = wishes.picture {
        block_file::create(picture, picture::svg(&reached, file).as_bytes())?;
    }
    Ok(lines)
}

/// Checks that the block of a file is sound, and tells how full it is.
pub fn check(file: &Path) -> Result<String, Trouble> {
    let bytes = sound(file)?;
    let summary = text::summary(&Reached::of(Block(&bytes))).join("\n");
    Ok(format!("{summary}\nlabels held: {}\n", pages::count(&bytes)?))
}

/// How full a block is, as check tells it.
pub fn fullness(block: &[u8]) -> String {
    text::fullness(&Reached::of(Block(block)))
}

/// How many cells of a block are free, and how many more would be without each slot in use.
pub fn room(block: &[u8]) -> String {
    text::room(&Reached::of(Block(block)))
}

/// The bytes of a block that the library has found sound: only such a block is mapped.
fn sound(file: &Path) -> Result<Vec<u8>, Trouble> {
    let bytes = block_file::read(file)?;
    proved::validate(&bytes)?;
    Ok(bytes)
}
