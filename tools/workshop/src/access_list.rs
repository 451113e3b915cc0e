//! The access list of a file: rights of single users and groups beside the usual ones. The standard library has no call for it, so
//! all use of the C library's stands in this file.

use std::ffi::{c_char, c_int, c_void, CStr};
use std::fs::File;
use std::io;
use std::os::fd::AsRawFd;

extern "C" {
    fn fgetxattr(file: c_int, name: *const c_char, value: *mut c_void, size: usize) -> isize;
    fn fsetxattr(file: c_int, name: *const c_char, value: *const c_void, size: usize, flags: c_int) -> c_int;
    fn fremovexattr(file: c_int, name: *const c_char) -> c_int;
}

/// The attribute that is a file's access list.
const NAME: &CStr = c"system.posix_acl_access";

/// The most bytes that an attribute has.
const MOST_BYTES: usize = 65_536;

/// The numbers of the reasons that mean that there is no list: none on this file, or none on any of its file system.
const NONE_THERE: [i32; 2] = [61, 95];

/// Gives a file the access list of another, and takes away one that its folder gave it where the other has none.
pub fn take_over(file: &File, old: &File) -> io::Result<()> {
    match read(old)? {
        Some(list) => write(file, &list),
        None => remove(file),
    }
}

/// The access list of a file, if it has one.
fn read(file: &File) -> io::Result<Option<Vec<u8>>> {
    let mut list = vec![0; MOST_BYTES];
    let size = unsafe { fgetxattr(file.as_raw_fd(), NAME.as_ptr(), list.as_mut_ptr().cast(), list.len()) };
    let Ok(size) = usize::try_from(size) else {
        return failed_unless_none().map(|()| None);
    };
    list.truncate(size);
    Ok(Some(list))
}

/// Gives a file an access list, which sets its usual rights too.
fn write(file: &File, list: &[u8]) -> io::Result<()> {
    match unsafe { fsetxattr(file.as_raw_fd(), NAME.as_ptr(), list.as_ptr().cast(), list.len(), 0) } {
        0 => Ok(()),
        _ => Err(io::Error::last_os_error()),
    }
}

/// Takes away the access list of a file, if it has one.
fn remove(file: &File) -> io::Result<()> {
    match unsafe { fremovexattr(file.as_raw_fd(), NAME.as_ptr()) } {
        0 => Ok(()),
        _ => failed_unless_none(),
    }
}

/// Why the last call failed, unless it was only that there is no list.
fn failed_unless_none() -> io::Result<()> {
    let reason = io::Error::last_os_error();
    match reason.raw_os_error() {
        Some(number) if NONE_THERE.contains(&number) => Ok(()),
        _ => Err(reason),
    }
}
