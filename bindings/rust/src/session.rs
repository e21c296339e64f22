//! Sessions of a server.
use crate::handle::Owned;
use crate::pool::Pool;
use crate::transaction::retried;
use crate::{ffi, Batch, Capture, Error, KeyFlags, Result, Server, Transaction};
use std::io::Write;
use std::sync::Arc;

/// A session of a server, which records which rows are touched by whomever. It ends when it is dropped, on
/// any thread, and keeps its server until then. At most 64 are live at once. Threads may share it; its calls
/// wait for calls, and never for a client to come back.
///
/// ```
/// use changecap::{Batch, Cause, KeyFlags, Server, Session};
/// let server = Server::open_in_memory()?;
/// let client = server.client()?;
/// client.create_table("t", &[true, false])?;
/// let session = Session::new(&server)?;
/// session.attach(Some("t"))?;
/// let mut batch = Batch::new()?;
/// batch.insert("t", (1, "x"), Cause::Direct)?;
/// client.commit(&mut batch)?;
/// let changeset = session.capture()?.changeset(KeyFlags::Places)?;
/// assert_eq!(changeset.invert(KeyFlags::Places)?.iter()?.count(), 1);
/// # Ok::<(), changecap::Error>(())
/// ```
#[derive(Debug)]
pub struct Session {
    pool: Arc<Pool>,
    number: u64,
}

impl Session {
    /// Makes a session, which is enabled and direct.
    pub fn new(server: &Server) -> Result<Session> {
        let (pool, mut number) = (Arc::clone(&server.pool), 0);
        // SAFETY: the client is open, and no other call has it. A place of this function.
        pool.done(|client, fault| unsafe { ffi::changecap_session_new(client, &mut number, fault) })?;
        Ok(Session { pool, number })
    }

    /// Attaches a table, which need not be there yet, or from now on each table of which a row changes.
    pub fn attach(&self, table: Option<&str>) -> Result<()> {
        self.pool.done(|client, fault| match table {
            // SAFETY: the client is open, and no other call has it. A slice.
            Some(table) => unsafe {
                ffi::changecap_session_attach(client, self.number, table.as_ptr(), table.len(), fault)
            },
            // SAFETY: the client is open, and no other call has it.
            None => unsafe { ffi::changecap_session_attach_all(client, self.number, fault) },
        })
    }

    /// Attaches from now on each table of which a row changes and whose name the filter accepts, as in
    /// `and(starts 'a',not is 'ab')` (docs/manual/formats.md, "Filter text").
    pub fn table_filter(&self, filter: &str) -> Result<()> {
        // SAFETY: the client is open, and no other call has it. A slice.
        self.pool.done(|client, fault| unsafe {
            ffi::changecap_session_filter(client, self.number, filter.as_ptr(), filter.len(), fault)
        })
    }

    /// Records how a table differs from the one of the same name in a database that
    /// [`Client::save`](crate::Client::save) has saved.
    pub fn diff(&self, from: &str, table: &str) -> Result<()> {
        // SAFETY: the client is open, and no other call has it. Two slices.
        self.pool.done(|client, fault| unsafe {
            let (n, m) = (from.len(), table.len());
            ffi::changecap_session_diff(client, self.number, from.as_ptr(), n, table.as_ptr(), m, fault)
        })
    }

    /// Whether the session has no records.
    pub fn is_empty(&self) -> Result<bool> {
        let mut flag = 0;
        // SAFETY: the client is open, and no other call has it. A place of this function.
        self.pool.done(|client, fault| unsafe {
            ffi::changecap_session_isempty(client, self.number, &mut flag, fault)
        })?;
        Ok(flag != 0)
    }

    /// Its number, where it is of the server that lends from this pool.
    pub(crate) fn number_in(&self, pool: &Arc<Pool>) -> Option<u64> {
        Arc::ptr_eq(&self.pool, pool).then_some(self.number)
    }

    /// The value of a flag, which is set first where one is given.
    fn flag(&self, call: ffi::FlagCall, set: Option<bool>) -> Result<bool> {
        let mut flag = 0;
        let set = set.map_or(ffi::ASK, u32::from);
        // SAFETY: the client is open, and no other call has it. A place of this function.
        self.pool.done(|client, fault| unsafe { call(client, self.number, set, &mut flag, fault) })?;
        Ok(flag != 0)
    }

    /// Whether the session records touches.
    pub fn is_enabled(&self) -> Result<bool> {
        self.flag(ffi::changecap_session_enable, None)
    }

    /// Enables or disables the session.
    pub fn set_enabled(&self, enabled: bool) -> Result<()> {
        self.flag(ffi::changecap_session_enable, Some(enabled)).map(drop)
    }

    /// Whether the session's touches are indirect.
    pub fn is_indirect(&self) -> Result<bool> {
        self.flag(ffi::changecap_session_indirect, None)
    }

    /// Makes the session's touches indirect or direct.
    pub fn set_indirect(&self, indirect: bool) -> Result<()> {
        self.flag(ffi::changecap_session_indirect, Some(indirect)).map(drop)
    }

    /// What a call captures.
    fn captured(&self, call: ffi::CaptureCall) -> Result<Capture> {
        let handle = Owned::open(ffi::changecap_capture_close, |capture| {
            // SAFETY: the client is open, and no other call has it. The capture is closed.
            self.pool.done(|client, fault| unsafe { call(client, self.number, capture, fault) })
        })?;
        Ok(Capture { handle })
    }

    /// What the session has captured. It goes on with its records.
    pub fn capture(&self) -> Result<Capture> {
        self.captured(ffi::changecap_session_capture)
    }

    /// What the session has captured. It goes on without its records; its flags and tables stay. Of captures
    /// by restart, no change is lost between two of them, and none is in both.
    pub fn restart(&self) -> Result<Capture> {
        self.captured(ffi::changecap_session_restart)
    }

    /// Captures by restart, one after the other.
    pub fn captures(&self) -> Captures<'_> {
        Captures { session: self }
    }

    /// Writes the changeset, with key flags as SQLite's code writes them.
    pub fn changeset_strm(&self, output: &mut dyn Write) -> Result<()> {
        Ok(output.write_all(self.capture()?.changeset(KeyFlags::Places)?.as_bytes())?)
    }

    /// Writes the patchset, with key flags as SQLite's code writes them.
    pub fn patchset_strm(&self, output: &mut dyn Write) -> Result<()> {
        Ok(output.write_all(self.capture()?.patchset(KeyFlags::Places)?.as_bytes())?)
    }

    /// Commits a batch, and captures by restart; no other commit comes between them. Where each commit under
    /// a session is made so, or by [`transaction`](Session::transaction), each capture has the changes of its
    /// commit alone. The version of the capture is that of the commit.
    ///
    /// [`Error::NotCaptured`] where the batch was committed and the capture failed. With any other error
    /// nothing was committed, and the batch is as it was.
    pub fn commit(&self, batch: &mut Batch) -> Result<Capture> {
        let (mut version, capture) = (0, Owned::closed(ffi::changecap_capture_close));
        let made = self.pool.with(|client| {
            // SAFETY: the client and the batch are open, and no other call has them. The capture is closed.
            batch.committed(|batch, fault| unsafe {
                let (at, to) = (self.number, capture.at());
                ffi::changecap_commit_captured(client, batch, at, &mut version, to, fault)
            })
        });
        match made {
            Ok(()) => Ok(Capture { handle: capture }),
            Err(cause) if version != 0 => Err(Error::NotCaptured { version, cause: cause.into() }),
            Err(why) => Err(why),
        }
    }

    /// Makes work in a transaction, as [`Server::transaction`], commits it as [`commit`](Session::commit)
    /// does, and answers what the work did and what its commit changed.
    ///
    /// ```
    /// use changecap::{Cause, KeyFlags, Server, Session};
    /// let server = Server::open_in_memory()?;
    /// server.client()?.create_table("t", &[true, false])?;
    /// let session = Session::new(&server)?;
    /// session.attach(None)?;
    /// let ((), capture) = session.transaction(|t| t.insert("t", (1, "x"), Cause::Direct))?;
    /// assert_eq!(capture.version(), 2);
    /// assert_eq!(capture.changeset(KeyFlags::Places)?.iter()?.count(), 1);
    /// # Ok::<(), changecap::Error>(())
    /// ```
    pub fn transaction<T>(&self, work: impl FnMut(&mut Transaction) -> Result<T>) -> Result<(T, Capture)> {
        retried(&self.pool, work, |batch| self.commit(batch))
    }
}

impl Drop for Session {
    fn drop(&mut self) {
        let end = |client: &mut ffi::Client, fault: &mut ffi::Fault| {
            // SAFETY: the client is open, and no other call has it.
            unsafe { ffi::changecap_session_drop(client, self.number, fault) }
        };
        // Who has ended it by its number has done so for this.
        let _ended = self.pool.done(end);
    }
}

/// The captures of a session, each by [`Session::restart`]. It ends where the session has no records, and
/// goes on from there where it is asked again. After an error the records are there still.
///
/// ```
/// use changecap::{Cause, KeyFlags, Server, Session};
/// let server = Server::open_in_memory()?;
/// server.client()?.create_table("t", &[true, false])?;
/// let session = Session::new(&server)?;
/// session.attach(None)?;
/// let mut captures = session.captures();
/// for number in 1..=2 {
///     server.transaction(|t| t.insert("t", (number, "x"), Cause::Direct))?;
///     let capture = captures.next().unwrap()?;
///     assert_eq!(capture.changeset(KeyFlags::Places)?.iter()?.count(), 1);
/// }
/// assert!(captures.next().is_none());
/// # Ok::<(), changecap::Error>(())
/// ```
#[derive(Debug)]
pub struct Captures<'a> {
    session: &'a Session,
}

impl Iterator for Captures<'_> {
    type Item = Result<Capture>;

    fn next(&mut self) -> Option<Result<Capture>> {
        match self.session.is_empty() {
            Ok(true) => None,
            Ok(false) => Some(self.session.restart()),
            Err(why) => Some(Err(why)),
        }
    }
}
