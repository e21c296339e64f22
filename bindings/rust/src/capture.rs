//! What a session has captured.
use crate::call::taken;
use crate::handle::Owned;
use crate::{ffi, Changeset, KeyFlags, Patchset, Result};

/// What a session had captured at one point of the history. It stays as it is, whatever is committed, and
/// becomes bytes without waiting. Where there is no memory for the bytes they may be asked for again.
///
/// ```
/// use changecap::{Batch, Cause, KeyFlags, Server, Session};
/// let server = Server::open_in_memory()?;
/// server.client()?.create_table("t", &[true, false])?;
/// let session = Session::new(&server)?;
/// session.attach(None)?;
/// let mut batch = Batch::new()?;
/// batch.insert("t", (1, "x"), Cause::Direct)?;
/// let capture = session.commit(&mut batch)?;
/// assert_eq!(capture.version(), 2);
/// assert_eq!(capture.changeset(KeyFlags::Places)?.iter()?.count(), 1);
/// assert_eq!(capture.patchset(KeyFlags::Places)?.as_bytes()[0], b'P');
/// # Ok::<(), changecap::Error>(())
/// ```
#[derive(Debug)]
pub struct Capture {
    pub(crate) handle: Owned,
}

impl Capture {
    /// The version of the tables at the moment of the capture: what is committed later has a greater one.
    pub fn version(&self) -> u64 {
        let mut version = 0;
        // SAFETY: the handle is open as long as the capture is there. The call has one answer, OK.
        unsafe { ffi::changecap_capture_version(self.handle.at(), &mut version) };
        version
    }

    /// The bytes that a call writes.
    fn bytes(&self, write: ffi::WriteCall, key_flags: KeyFlags) -> Result<Vec<u8>> {
        // SAFETY: the handle is open as long as the capture is there, and the buffer is of this call alone.
        taken(256, |out, len, _| unsafe {
            write(self.handle.at(), key_flags.number(), out.as_mut_ptr(), out.len(), len)
        })
    }

    /// The changeset, as `sqlite3session_changeset`. It is empty where nothing has changed.
    pub fn changeset(&self, key_flags: KeyFlags) -> Result<Changeset> {
        self.bytes(ffi::changecap_capture_changeset, key_flags).map(Changeset)
    }

    /// The patchset, as `sqlite3session_patchset`.
    pub fn patchset(&self, key_flags: KeyFlags) -> Result<Patchset> {
        self.bytes(ffi::changecap_capture_patchset, key_flags).map(Patchset)
    }
}
