//! A block kept in a file: read whole, and replaced whole or not at all; an entry is stored in the file itself.

use crate::beside;
use crate::entries::Entry;
use crate::proved::{Store, CELL_SIZE, MOST_CELLS_LENT};
use crate::trouble::Trouble;
use crate::visible::file_name;
use std::fs::{self, File, Metadata, OpenOptions};
use std::io::{self, Read, Seek, SeekFrom, Write};
use std::path::{Path, PathBuf};

/// Reads the block of a file, while no run of this tool stores an entry in it.
pub fn read(path: &Path) -> Result<Vec<u8>, Trouble> {
    regular(path)
        .and_then(|_| File::open(path))
        .and_then(|file| read_unstored(&file))
        .map_err(|reason| unread(path, &reason))
}

/// What there is to know of a file before it is opened. Anything else than a regular file is refused: to open a pipe could wait
/// for ever, and a device is no place for a block.
fn regular(path: &Path) -> io::Result<Metadata> {
    let found = fs::metadata(path)?;
    if found.is_file() {
        Ok(found)
    } else {
        Err(io::Error::new(io::ErrorKind::InvalidInput, "it is no regular file"))
    }
}

/// Reads the block of a file that is open, while no run of this tool stores an entry in it.
fn read_unstored(file: &File) -> io::Result<Vec<u8>> {
    file.lock_shared()?;
    read_block(file)
}

/// Reads the block of a file that is open; of one that is too large only enough for the library to see that it is.
fn read_block(file: &File) -> io::Result<Vec<u8>> {
    let mut block = Vec::new();
    file.take((MOST_CELLS_LENT * CELL_SIZE) as u64).read_to_end(&mut block)?;
    Ok(block)
}

/// Writes a new file, but never over one that is there, since it may be a register in use.
pub fn create(path: &Path, block: &[u8]) -> Result<(), Trouble> {
    let failed = |reason| unwritten(path, &reason);
    let folder = lock_folder(path).map_err(failed)?;
    if fs::symlink_metadata(path).is_ok() {
        return Err(Trouble::File(format!("{} is there already and was left as it is", file_name(path))));
    }
    beside::write(path, block, None).and_then(|()| folder.sync_all()).map_err(failed)
}

/// Reads, alters and replaces the block of a file, which keeps its owner and who may use it; a link is followed to the file
/// itself. No other run of this tool alters the file in between, so that neither loses what the other did.
pub fn alter<T, E: Into<Trouble>>(path: &Path, change: impl FnOnce(&mut [u8]) -> Result<T, E>) -> Result<T, Trouble> {
    let held = hold(path)?;
    let mut block = read_unstored(&held.file).map_err(|reason| unread(path, &reason))?;
    let done = change(&mut block).map_err(E::into)?;
    beside::write(&held.place, &block, Some(&held.file))
        .and_then(|()| held.folder.sync_all())
        .map_err(|reason| unwritten(path, &reason))?;
    Ok(done)
}

/// Asks for an entry into a file's block, makes its stores in the file itself and gives it to be told. Links and other runs are
/// met as above, and runs that only read are kept off too.
pub fn store(path: &Path, plan: impl FnOnce(&[u8]) -> Result<Entry, Trouble>) -> Result<Entry, Trouble> {
    let held = hold(path)?;
    let failed = |reason| unwritten(path, &reason);
    held.file.lock().map_err(failed)?;
    let block = read_block(&held.file).map_err(|reason| unread(path, &reason))?;
    let entry = plan(&block)?;
    beside::clear(&held.place).and_then(|_| write_inside(&held.file, &entry.stores)).map_err(failed)?;
    Ok(entry)
}

/// A file that is to be altered: its own place, the folder that is held for it, and itself, open.
struct Held {
    place: PathBuf,
    folder: File,
    file: File,
}

/// Finds the file that a path leads to, holds its folder and opens it for writing.
fn hold(path: &Path) -> Result<Held, Trouble> {
    let place = fs::canonicalize(path).map_err(|reason| unread(path, &reason))?;
    let opened = lock_folder(&place).and_then(|folder| Ok((folder, open_writable(&place)?)));
    let (folder, file) = opened.map_err(|reason| unwritten(path, &reason))?;
    Ok(Held { place, folder, file })
}

/// Opens a file for reading and writing. One that nobody has the right to write is write-protected, and that is asked first:
/// an administrator could open it all the same.
fn open_writable(place: &Path) -> io::Result<File> {
    if regular(place)?.permissions().readonly() {
        return Err(io::Error::new(io::ErrorKind::PermissionDenied, "it is write-protected"));
    }
    OpenOptions::new().read(true).write(true).open(place)
}

/// Makes the stores of a write list in a file. All but the last go into free cells, whose bytes mean nothing; only when the
/// disk has them comes the root word, so that a power loss or failure before it leaves the old table.
fn write_inside(file: &File, stores: &[Store]) -> io::Result<()> {
    let (cells, root) = stores.split_at(stores.len().saturating_sub(1));
    write_and_sync(file, cells)?;
    write_and_sync(file, root)
}

/// Makes stores in a file, and waits until the disk has them.
fn write_and_sync(mut file: &File, stores: &[Store]) -> io::Result<()> {
    for store in stores {
        file.seek(SeekFrom::Start(u64::from(store.position)))?;
        file.write_all(&store.word)?;
    }
    file.sync_all()
}

/// Waits until no other run of this tool holds the folder of a file, and holds it until the folder is closed. The file itself
/// is no place for the lock: most changes put another file in its place.
fn lock_folder(path: &Path) -> io::Result<File> {
    let folder = match path.parent() {
        Some(folder) if folder != Path::new("") => File::open(folder)?,
        _ => File::open(".")?,
    };
    folder.lock()?;
    Ok(folder)
}

/// Says which file could not be read, and why.
pub fn unread(path: &Path, reason: &io::Error) -> Trouble {
    Trouble::File(format!("cannot read {}: {reason}", file_name(path)))
}

/// Says which file could not be written, and why.
fn unwritten(path: &Path, reason: &io::Error) -> Trouble {
    Trouble::File(format!("cannot write {}: {reason}", file_name(path)))
}
