//! The one other file that a change writes: the block anew, beside its file and under a fixed name, until it takes its place.
//! Who calls these functions holds the folder, so what already stands at that name was left by a run that was killed.

use crate::access_list;
use std::ffi::OsString;
use std::fs::{self, File, OpenOptions};
use std::io::{self, Write};
use std::os::unix::fs::{fchown, MetadataExt, OpenOptionsExt};
use std::path::{Path, PathBuf};

/// What comes before and behind the name of a file in the name beside it.
const MARKS: (&str, &str) = (".", ".new");

/// The access rights of a file in the place of none: those that the user grants to every new file.
const USUAL_RIGHTS: u32 = 0o666;

/// The access rights of a file in the place of another until it gets those of the other: nobody else reads it before.
const OWN_RIGHTS: u32 = 0o600;

/// Writes a block beside its file and renames it, so that a power loss leaves either the old or the new one. It gets the owner,
/// group, rights and access list of the file that it replaces, or nothing is done.
pub fn write(path: &Path, block: &[u8], old: Option<&File>) -> io::Result<()> {
    let beside = clear(path)?;
    let rights = if old.is_some() { OWN_RIGHTS } else { USUAL_RIGHTS };
    let mut file = OpenOptions::new()
        .write(true)
        .create_new(true)
        .mode(rights)
        .open(&beside)
        .map_err(|reason| explained("no file can be made beside it", &reason))?;
    let written = old
        .map_or(Ok(()), |old| take_over(&file, old))
        .and_then(|()| file.write_all(block))
        .and_then(|()| file.sync_all())
        .and_then(|()| fs::rename(&beside, path));
    if written.is_err() {
        // The first failure is the one to report; what is left beside is only swept away.
        let _ = fs::remove_file(&beside);
    }
    written
}

/// Removes what a run that was killed left beside a file, and gives its name; a link there goes itself, not what it leads to.
pub fn clear(path: &Path) -> io::Result<PathBuf> {
    let beside = name(path)?;
    match fs::remove_file(&beside) {
        Err(reason) if reason.kind() == io::ErrorKind::InvalidFilename => {
            Err(explained("its name is too long, since a change writes .NAME.new beside it", &reason))
        }
        Err(reason) if reason.kind() != io::ErrorKind::NotFound => {
            Err(explained("what stands beside it as .NAME.new cannot be removed", &reason))
        }
        _ => Ok(beside),
    }
}

/// Gives a new file the owner and group of the old one, and then its rights, since a change of owner may cost some. The access
/// list comes before the rights: without it, what it allows at most would for a moment be the rights of the group.
fn take_over(file: &File, old: &File) -> io::Result<()> {
    let (known, new) = (old.metadata()?, file.metadata()?);
    if (new.uid(), new.gid()) != (known.uid(), known.gid()) {
        fchown(file, Some(known.uid()), Some(known.gid()))
            .map_err(|reason| explained("its owner and group cannot be kept", &reason))?;
    }
    access_list::take_over(file, old).map_err(|reason| explained("its access list cannot be kept", &reason))?;
    file.set_permissions(known.permissions())
}

/// The name beside a file. A file that has such a name itself is not taken: a change of the other file would remove it.
fn name(path: &Path) -> io::Result<PathBuf> {
    let refused = |reason| Err(io::Error::new(io::ErrorKind::InvalidInput, reason));
    let Some(name) = path.file_name() else {
        return refused("this names no file");
    };
    let (before, behind) = (MARKS.0.as_bytes(), MARKS.1.as_bytes());
    if name.as_encoded_bytes().starts_with(before) && name.as_encoded_bytes().ends_with(behind) {
        return refused("a name of the form .NAME.new is kept for changes of the file NAME");
    }
    let mut beside = OsString::from(MARKS.0);
    beside.push(name);
    beside.push(MARKS.1);
    Ok(path.with_file_name(beside))
}

/// A failure with what it stood in the way of.
fn explained(what: &str, reason: &io::Error) -> io::Error {
    io::Error::new(reason.kind(), format!("{what}: {reason}"))
}
