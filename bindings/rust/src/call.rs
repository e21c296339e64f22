//! What a call answers, by its status and what it writes.
use crate::ffi;
use crate::{Error, Refusal, Result};

/// Makes a call that has a fault.
pub(crate) fn done(call: impl FnOnce(&mut ffi::Fault) -> u32) -> Result<()> {
    done_at(call, |_| false)
}

/// The same of a call of which some refusals have the number of an operation or of a change.
pub(crate) fn done_at(
    call: impl FnOnce(&mut ffi::Fault) -> u32,
    has_part: impl Fn(Refusal) -> bool,
) -> Result<()> {
    let mut fault = ffi::Fault::default();
    match call(&mut fault) {
        ffi::OK => Ok(()),
        status => Err(Error::of(status, fault, has_part)),
    }
}

/// The same of a call that takes records. A value with more bytes than a value may have makes none, nor does
/// NULL in a key.
pub(crate) fn done_with_records(call: impl FnOnce(&mut ffi::Fault) -> u32) -> Result<()> {
    done(call).map_err(|error| if let Error::Malformed(_) = error { Error::Misuse } else { error })
}

/// How many bytes a call writes to the buffer, which grows where it is too short.
pub(crate) fn taken_into(
    out: &mut Vec<u8>,
    call: impl Fn(&mut [u8], &mut usize, &mut ffi::Fault) -> u32,
) -> Result<usize> {
    let (mut len, mut fault) = (0, ffi::Fault::default());
    loop {
        match call(out, &mut len, &mut fault) {
            ffi::OK => return Ok(len),
            ffi::ROOM => out.resize(len, 0),
            status => return Err(Error::of(status, fault, |_| false)),
        }
    }
}

/// The bytes that a call writes, which gets a buffer of this length first.
pub(crate) fn taken(
    room: usize,
    call: impl Fn(&mut [u8], &mut usize, &mut ffi::Fault) -> u32,
) -> Result<Vec<u8>> {
    let mut out = vec![0; room];
    let len = taken_into(&mut out, call)?;
    out.truncate(len);
    Ok(out)
}

/// The text of bytes that a call writes as UTF-8.
pub(crate) fn text_of(bytes: Vec<u8>) -> Result<String> {
    String::from_utf8(bytes).map_err(|_| Error::Misuse)
}
