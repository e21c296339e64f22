//! Clients of a server.
use crate::application::Application;
use crate::call::{done, done_at, taken, text_of};
use crate::pool::{snapshot, Pool};
use crate::refused::{Refused, RefusedChange};
use crate::{
    ffi, ApplyOptions, Batch, ChangesetItem, ChangesetIter, ConflictAnswer, ConflictType, Error, Passed,
    Result, Snapshot,
};
use crate::{Changeset, RebaseBuffer, Refusal, TRIES};
use std::cell::RefCell;
use std::sync::Arc;

/// What an application does at a conflict.
///
/// ```
/// use changecap::{ConflictAction::{Abort, Omit}, Server};
/// let client = Server::open_in_memory()?.client()?;
/// let insert = [0x54, 2, 1, 0, b't', 0, 0x12, 0, 1, 0, 0, 0, 0, 0, 0, 0, 1, 3, 1, b'x'];
/// client.create_table("t", &[true, false])?;
/// for omitted in [0, 1] {
///     assert_eq!(client.apply(insert, Abort, Abort, Omit)?.omitted, omitted);
/// }
/// # Ok::<(), changecap::Error>(())
/// ```
#[derive(Clone, Copy, Debug, PartialEq, Eq)]
pub enum ConflictAction {
    /// The change is omitted.
    Omit,
    /// It is applied all the same; where there is no row, the blob is refused.
    Replace,
    /// The blob is refused.
    Abort,
}

impl ConflictAction {
    pub(crate) fn number(self) -> u32 {
        match self {
            ConflictAction::Omit => ffi::OMIT,
            ConflictAction::Replace => ffi::REPLACE,
            ConflictAction::Abort => ffi::ABORT,
        }
    }
}

/// What became of the changes of an applied blob.
///
/// ```
/// use changecap::{ConflictAction::Abort, Report, Server};
/// let client = Server::open_in_memory()?.client()?;
/// let insert = [0x54, 2, 1, 0, b't', 0, 0x12, 0, 1, 0, 0, 0, 0, 0, 0, 0, 1, 3, 1, b'x'];
/// let report = client.apply(insert, Abort, Abort, Abort)?;
/// assert_eq!(report, Report { version: 1, applied: 0, conflicts: 0, omitted: 0, skipped: 1 });
/// # Ok::<(), changecap::Error>(())
/// ```
#[derive(Clone, Copy, Debug, PartialEq, Eq)]
pub struct Report {
    /// The new version.
    pub version: u64,
    /// Changes that were applied, those that replaced a row among them.
    pub applied: u64,
    /// Changes that met a conflict: each that was not omitted replaced a row.
    pub conflicts: u64,
    /// Changes that were omitted because of one.
    pub omitted: u64,
    /// Groups that were skipped: there is no such table.
    pub skipped: u64,
}

/// A client of a server, which makes one call at a time. It is lent by the server, and goes back when it is
/// dropped. It may go to another thread; each thread has one of its own. A call that asks for the state of
/// the server waits while another client's has it.
///
/// ```
/// use changecap::{Batch, Cause, Server};
/// let server = Server::open_in_memory()?;
/// let client = server.client()?;
/// client.create_table("t", &[true, false])?;
/// let thread = std::thread::spawn(move || {
///     let mut batch = Batch::new()?;
///     batch.insert("t", (1, "x"), Cause::Direct)?;
///     client.commit(&mut batch)
/// });
/// assert_eq!(thread.join().unwrap()?, 2);
/// # Ok::<(), changecap::Error>(())
/// ```
///
/// Two threads cannot share one:
///
/// ```compile_fail,E0277
/// let client = changecap::Server::open_in_memory()?.client()?;
/// std::thread::scope(|scope| scope.spawn(|| client.snapshot().map(drop)).join().unwrap())?;
/// # Ok::<(), changecap::Error>(())
/// ```
#[derive(Debug)]
pub struct Client {
    handle: RefCell<ffi::Client>,
    pool: Arc<Pool>,
}

impl Client {
    /// A client that the pool lends. Where all are lent it waits until one comes back.
    pub(crate) fn lent(pool: Arc<Pool>) -> Result<Client> {
        Ok(Client { handle: pool.take()?.into(), pool })
    }

    /// What a function makes of the handle, which is open.
    fn with<T>(&self, call: impl FnOnce(&mut ffi::Client) -> T) -> T {
        call(&mut self.handle.borrow_mut())
    }

    /// Makes a call that has a fault.
    fn done(&self, call: impl FnOnce(&mut ffi::Client, &mut ffi::Fault) -> u32) -> Result<()> {
        self.with(|client| done(|fault| call(client, fault)))
    }

    /// Carries out one command of the workload language (docs/manual/formats.md, "Workload text"), and
    /// answers the text of its reply, as `ok version 2`. [`Error::Command`] where the text is not one
    /// command.
    pub fn execute(&self, command: &str) -> Result<String> {
        let mut fault = ffi::Fault::default();
        // SAFETY: the client is open, and `&mut` says that no other call has it. A slice, a fault, and a
        // buffer and a length that are of the call alone.
        let (status, reply) = self.with(|client| unsafe {
            let status = ffi::changecap_call(client, command.as_ptr(), command.len(), &mut fault);
            let client: *mut ffi::Client = client;
            let reply =
                taken(64, |out, len, _| ffi::changecap_reply(client, out.as_mut_ptr(), out.len(), len));
            (status, reply)
        });
        if status != ffi::OK && status != ffi::REFUSED {
            return Err(Error::of(status, fault, |_| false));
        }
        let reply = reply.and_then(text_of)?;
        if status == ffi::OK {
            return Ok(reply);
        }
        Err(Refused::of_reply(&reply).map_or(Error::Misuse, Error::Refused))
    }

    /// Creates a table with these columns, 1 to 2,000, each of them in the primary key or not, and answers
    /// the new version.
    pub fn create_table(&self, table: &str, key: &[bool]) -> Result<u64> {
        let key: Vec<u8> = key.iter().map(|flag| u8::from(*flag)).collect();
        let mut version = 0;
        // SAFETY: the client is open, and no other call has it. Two slices, and places of this function.
        self.done(|client, fault| unsafe {
            let (n, columns) = (table.len(), key.len());
            ffi::changecap_create(client, table.as_ptr(), n, key.as_ptr(), columns, &mut version, fault)
        })?;
        Ok(version)
    }

    /// A snapshot of the tables as they are, from which rows are read and on which transactions begin.
    pub fn snapshot(&self) -> Result<Snapshot> {
        self.with(snapshot)
    }

    /// Commits a batch, all of its operations or none, and answers the new version. Then the batch is empty,
    /// for any version. Where it is refused, or with any other error, the batch is as it was.
    pub fn commit(&self, batch: &mut Batch) -> Result<u64> {
        let mut version = 0;
        self.with(|client| {
            // SAFETY: the client and the batch are open, and no other call has them.
            batch.committed(|batch, fault| unsafe {
                ffi::changecap_commit(client, batch, &mut version, fault)
            })
        })?;
        Ok(version)
    }

    /// Creates the tables of a blob, and applies it to them: what [`Snapshot::dump`](crate::Snapshot::dump) wrote
    /// of one server and is loaded into another gives the same tables. Refused where one of its tables is there
    /// already, or a change is no INSERT of a new row, and then nothing is made.
    ///
    /// ```
    /// use changecap::{Error, KeyFlags, Refusal, Server};
    /// let client = Server::open_in_memory()?.client()?;
    /// let insert = [0x54, 2, 1, 0, b't', 0, 0x12, 0, 1, 0, 0, 0, 0, 0, 0, 0, 1, 3, 1, b'x'];
    /// assert_eq!(client.load(insert)?.applied, 1);
    /// let dump = client.snapshot()?.dump(&["t"], KeyFlags::Places)?;
    /// assert_eq!(dump.as_bytes(), insert);
    /// let again = client.load(&dump);
    /// assert!(matches!(again, Err(Error::Refused(why)) if why.code == Refusal::TableExists));
    /// # Ok::<(), changecap::Error>(())
    /// ```
    pub fn load(&self, blob: impl AsRef<[u8]>) -> Result<Report> {
        let blob = blob.as_ref();
        // SAFETY: the client is open, and no other call has it. A slice, and places of the call.
        self.applied(|client, report, fault| unsafe {
            ffi::changecap_load(client, blob.as_ptr(), blob.len(), report, fault)
        })
        .map_err(|error| named(error, blob))
    }

    /// Applies a changeset or a patchset: what is done where a row differs, where it is missing, and where
    /// its key is in use. A blob that is refused changes nothing, and the refusal names the change.
    pub fn apply(
        &self,
        blob: impl AsRef<[u8]>,
        data: ConflictAction,
        not_found: ConflictAction,
        conflict: ConflictAction,
    ) -> Result<Report> {
        let blob = blob.as_ref();
        let (data, not_found, conflict) = (data.number(), not_found.number(), conflict.number());
        // SAFETY: the client is open, and no other call has it. A slice, and places of the call.
        self.applied(|client, report, fault| unsafe {
            let (at, n) = (blob.as_ptr(), blob.len());
            ffi::changecap_apply(client, at, n, data, not_found, conflict, report, fault)
        })
        .map_err(|error| named(error, blob))
    }

    /// The same of all that an iterator goes over, wherever it stands. It has the rebase buffer of the
    /// application then ([`ChangesetIter::buffer`]), for a [`Rebaser`](crate::Rebaser).
    ///
    /// ```
    /// use changecap::{Changeset, ConflictAction::Omit, Server};
    /// let client = Server::open_in_memory()?.client()?;
    /// let insert = [0x54, 2, 1, 0, b't', 0, 0x12, 0, 1, 0, 0, 0, 0, 0, 0, 0, 1, 3, 1, b'x'];
    /// client.create_table("t", &[true, false])?;
    /// let mut changes = Changeset::from_bytes(&insert)?.iter()?;
    /// for conflicts in [0, 1] {
    ///     assert_eq!(client.apply_iter(&mut changes, Omit, Omit, Omit)?.conflicts, conflicts);
    ///     assert_eq!(changes.buffer()?.is_empty(), conflicts == 0);
    /// }
    /// # Ok::<(), changecap::Error>(())
    /// ```
    pub fn apply_iter(
        &self,
        changes: &mut ChangesetIter,
        data: ConflictAction,
        not_found: ConflictAction,
        conflict: ConflictAction,
    ) -> Result<Report> {
        let (data, not_found, conflict) = (data.number(), not_found.number(), conflict.number());
        // SAFETY: the client and the iterator are open, and no other call has them. Places of the call.
        self.applied(|client, report, fault| unsafe {
            ffi::changecap_apply_iter(client, changes.handle.at(), data, not_found, conflict, report, fault)
        })
    }

    /// Applies a changeset or a patchset as [`apply`](Self::apply) does, to the tables that the filter of the options
    /// accepts. Each quiet session of the options stays as it is. The number of a change that is refused counts the
    /// changes that are passed over, too. [`Error::Filter`] of a text that is no filter; refused with
    /// [`Refusal::NoSession`] where a quiet session has ended; [`Error::Misuse`] where one is of another server.
    pub fn apply_options(&self, blob: impl AsRef<[u8]>, options: &ApplyOptions) -> Result<(Report, Passed)> {
        let blob = blob.as_ref();
        // SAFETY: the client is open, and no other call has it. Slices, and places of the call.
        self.optional(options, |client, [data, not_found, conflict], told, report, passed, fault| unsafe {
            let (at, n) = (blob.as_ptr(), blob.len());
            ffi::changecap_apply_with(client, at, n, data, not_found, conflict, told, report, passed, fault)
        })
        .map_err(|error| named(error, blob))
    }

    /// The same of all that an iterator goes over, as [`apply_iter`](Self::apply_iter). With a filter it goes over the
    /// accepted changes alone then, from the first on.
    pub fn apply_iter_options(
        &self,
        changes: &mut ChangesetIter,
        options: &ApplyOptions,
    ) -> Result<(Report, Passed)> {
        // SAFETY: the client and the iterator are open, and no other call has them. Slices, and places of the call.
        self.optional(options, |client, [data, not_found, conflict], told, report, passed, fault| unsafe {
            let it = changes.handle.at();
            ffi::changecap_apply_iter_with(client, it, data, not_found, conflict, told, report, passed, fault)
        })
    }

    /// What became of the changes of a blob that a call applies with options.
    fn optional(
        &self,
        options: &ApplyOptions,
        call: impl FnOnce(
            &mut ffi::Client,
            [u32; 3],
            &ffi::Options,
            &mut ffi::Report,
            &mut ffi::Passed,
            &mut ffi::Fault,
        ) -> u32,
    ) -> Result<(Report, Passed)> {
        let quiet = options.numbers(&self.pool)?;
        let (told, mut passed) = (options.pointing(&quiet), ffi::Passed::default());
        let answers = options.answers.map(ConflictAction::number);
        let report =
            self.applied(|client, report, fault| call(client, answers, &told, report, &mut passed, fault))?;
        let ffi::Passed { groups, changes } = passed;
        Ok((report, Passed { groups, changes }))
    }

    /// Applies a changeset or a patchset to the tables that a filter accepts, a text as of
    /// [`Session::table_filter`](crate::Session::table_filter), or to all, and calls a function at each conflict: with
    /// what the change meets, and the change with the row that is there. It answers a [`ConflictAction`], or the
    /// values of a row that shall stand there instead ([`ConflictAnswer`]). The names and the order of the
    /// arguments are those of rusqlite's `apply`.
    ///
    /// The blob is applied to a snapshot and committed as a transaction that looked at each row that a change
    /// names, so that no call of another thread comes between. Where one of those has changed it is applied
    /// again, up to [`TRIES`] times.
    ///
    /// ```
    /// use changecap::{ConflictAction::{Abort, Omit, Replace}, ConflictAnswer, Server, ValueRef};
    /// let client = Server::open_in_memory()?.client()?;
    /// let insert = [0x54, 2, 1, 0, b't', 0, 0x12, 0, 1, 0, 0, 0, 0, 0, 0, 0, 1, 3, 1, b'x'];
    /// client.create_table("t", &[true, false])?;
    /// client.apply(insert, Abort, Abort, Abort)?;
    /// // Both texts, one behind the other.
    /// let report = client.apply_with(insert, None, |_, item| {
    ///     let text = |value: Option<ValueRef>| value.map_or(String::new(), |it| it.to_string());
    ///     let both = text(item.conflict(1)) + &text(item.new_value(1));
    ///     ConflictAnswer::Row(vec![1.into(), both.as_str().into()])
    /// })?;
    /// assert_eq!((report.version, report.omitted), (3, 1));
    /// assert_eq!(client.snapshot()?.get("t", (1,))?.unwrap().get::<String>(1)?, "'x''x'");
    /// assert_eq!(client.apply_with(insert, Some("not is t"), |_, _| Replace)?.conflicts, 0);
    /// # let _ = Omit;
    /// # Ok::<(), changecap::Error>(())
    /// ```
    pub fn apply_with<A: Into<ConflictAnswer>>(
        &self,
        blob: impl AsRef<[u8]>,
        filter: Option<&str>,
        conflict: impl FnMut(ConflictType, &ChangesetItem) -> A,
    ) -> Result<Report> {
        Ok(self.decided(blob.as_ref(), filter, conflict)?.1)
    }

    /// The same, with the rebase buffer of the application, for a [`Rebaser`](crate::Rebaser). A change in whose
    /// place a row stands is omitted. [`Error::Patchset`] of a patchset, which is not applied.
    pub fn apply_with_buffer<A: Into<ConflictAnswer>>(
        &self,
        changeset: &Changeset,
        filter: Option<&str>,
        conflict: impl FnMut(ConflictType, &ChangesetItem) -> A,
    ) -> Result<(Report, RebaseBuffer)> {
        let (application, report) = self.decided(changeset.as_bytes(), filter, conflict)?;
        Ok((report, application.buffer()?))
    }

    /// An application that a function decides, begun again where a row that it looked at has changed.
    fn decided<A: Into<ConflictAnswer>>(
        &self,
        blob: &[u8],
        filter: Option<&str>,
        mut conflict: impl FnMut(ConflictType, &ChangesetItem) -> A,
    ) -> Result<(Application, Report)> {
        let mut tries = 1;
        loop {
            let mut application = Application::begin(&self.snapshot()?, blob, filter)?;
            application.decide(&mut conflict)?;
            let (mut batch, report) = application.end()?;
            match self.commit(&mut batch) {
                Ok(version) => return Ok((application, Report { version, ..report })),
                Err(Error::Refused(why)) if why.code == Refusal::Stale && tries < TRIES => tries += 1,
                Err(error) => return Err(error),
            }
            std::thread::yield_now();
        }
    }

    /// What became of the changes of a blob that a call applies.
    fn applied(
        &self,
        call: impl FnOnce(&mut ffi::Client, &mut ffi::Report, &mut ffi::Fault) -> u32,
    ) -> Result<Report> {
        let mut report = ffi::Report::default();
        self.with(|client| done_at(|fault| call(client, &mut report, fault), Refusal::is_of_a_change))?;
        let ffi::Report { version, applied, conflicts, omitted, skipped } = report;
        Ok(Report { version, applied, conflicts, omitted, skipped })
    }

    /// Saves the tables under a name, for [`Session::diff`](crate::Session::diff), in place of what was saved
    /// under it.
    pub fn save(&self, database: &str) -> Result<()> {
        // SAFETY: the client is open, and no other call has it. A slice.
        self.done(|client, fault| unsafe {
            ffi::changecap_save(client, database.as_ptr(), database.len(), fault)
        })
    }
}

impl Drop for Client {
    fn drop(&mut self) {
        self.pool.put(self.handle.replace(ffi::Client::CLOSED));
    }
}

/// The refusal of a blob with the change that is refused.
fn named(error: Error, blob: &[u8]) -> Error {
    match error {
        Error::Refused(Refused { code, at: Some(at), .. }) => {
            let change = ChangesetIter::start(blob).ok().and_then(|mut changes| changes.nth(at));
            let change = change.map(|change| RefusedChange::of(&change).into());
            Error::Refused(Refused { code, at: Some(at), change, item: None })
        }
        error => error,
    }
}
