//! Extended attributes of files; access control lists are among them.

use std::ffi::{CStr, CString, c_int, c_void};
use std::fs::File;
use std::io;
use std::os::fd::AsRawFd;

/// The longest list of names, and the longest value.
const LONGEST: usize = 65_536;

/// Gives a file the extended attributes of another, and no others.
pub fn copy(from: &File, to: &File) -> io::Result<()> {
    let (kept, new) = match names(from) {
        // a file system without them
        Err(error) if error.raw_os_error() == Some(libc::ENOTSUP) => return Ok(()),
        kept => (kept?, names(to)?),
    };
    // a folder may give its new files an access control list
    for name in new.iter().filter(|name| !kept.contains(name)) {
        remove(to, name)?;
    }
    for name in &kept {
        let kept = value(from, name)?;
        if !value(to, name).is_ok_and(|new| new == kept) {
            set(to, name, &kept)?;
        }
    }
    Ok(())
}

fn names(file: &File) -> io::Result<Vec<CString>> {
    let names = filled(|buffer, length| {
        // SAFETY: the buffer has this length, and the descriptor is open.
        unsafe { libc::flistxattr(file.as_raw_fd(), buffer.cast(), length) }
    })?;
    let names = names.split_inclusive(|byte| *byte == 0);
    let names = names.map(|name| CString::from_vec_with_nul(name.to_vec()));
    names.collect::<Result<_, _>>().map_err(io::Error::other)
}

fn value(file: &File, name: &CStr) -> io::Result<Vec<u8>> {
    filled(|buffer, length| {
        // SAFETY: the buffer has this length, the name ends in NUL, and the descriptor is open.
        unsafe { libc::fgetxattr(file.as_raw_fd(), name.as_ptr(), buffer, length) }
    })
}

fn set(file: &File, name: &CStr, value: &[u8]) -> io::Result<()> {
    let (bytes, length) = (value.as_ptr().cast(), value.len());
    // SAFETY: pointer and length are those of a slice, the name ends in NUL, and the descriptor is open.
    done(unsafe { libc::fsetxattr(file.as_raw_fd(), name.as_ptr(), bytes, length, 0) })
}

fn remove(file: &File, name: &CStr) -> io::Result<()> {
    // SAFETY: the name ends in NUL, and the descriptor is open.
    done(unsafe { libc::fremovexattr(file.as_raw_fd(), name.as_ptr()) })
}

/// What a call's 0 or -1 says.
fn done(answer: c_int) -> io::Result<()> {
    if answer == 0 {
        Ok(())
    } else {
        Err(io::Error::last_os_error())
    }
}

/// What a call puts into a buffer, whose length or -1 it gives.
fn filled(call: impl FnOnce(*mut c_void, usize) -> isize) -> io::Result<Vec<u8>> {
    let mut buffer = vec![0_u8; LONGEST];
    let length = call(buffer.as_mut_ptr().cast(), LONGEST);
    let length = usize::try_from(length).map_err(|_| io::Error::last_os_error())?;
    buffer.truncate(length);
    Ok(buffer)
}
