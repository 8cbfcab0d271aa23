//! Buffers that the library writes to.

use std::os::raw::c_char;

use crate::error::check;
use crate::sys::{self, cookie_store_status};
use crate::Error;

/// A length that is enough for most Cookie headers.
pub(crate) const HEADER: usize = 1024;

/// Returns the string that `write(out, out_len, needed)` writes: to a buffer that is `len` long, and
/// if that is too short, to one of the length that it needs.
pub(crate) fn string(
    len: usize,
    mut write: impl FnMut(*mut c_char, usize, &mut usize) -> cookie_store_status,
) -> Result<String, Error> {
    let mut buffer: Vec<u8> = Vec::new();
    let mut needed = len;
    let mut status = sys::COOKIE_STORE_NO_ROOM;
    while status == sys::COOKIE_STORE_NO_ROOM {
        grow(&mut buffer, needed)?;
        status = write(buffer.as_mut_ptr().cast(), buffer.len(), &mut needed);
    }
    check(status, 0)?;
    buffer.truncate(needed);
    String::from_utf8(buffer).map_err(|_| Error::Unexpected(sys::COOKIE_STORE_NOT_UTF8))
}

/// Makes a buffer at least `len` long.
pub(crate) fn grow<T: Clone + Default>(buffer: &mut Vec<T>, len: usize) -> Result<(), Error> {
    let more = len.saturating_sub(buffer.len());
    buffer
        .try_reserve_exact(more)
        .map_err(|_| Error::NoMemory)?;
    buffer.resize(buffer.len() + more, T::default());
    Ok(())
}

/// Returns a copy of the string.
pub(crate) fn owned(text: &str) -> Result<String, Error> {
    let mut copy = String::new();
    copy.try_reserve_exact(text.len())
        .map_err(|_| Error::NoMemory)?;
    copy.push_str(text);
    Ok(copy)
}
