//! The options of an application under a policy.
use crate::pool::Pool;
use crate::{ffi, ConflictAction, Error, Result, Session};
use std::sync::Arc;

/// The options of [`Client::apply_options`](crate::Client::apply_options): what is done where a row differs, where it is
/// missing, and where its key is in use; which tables it is for; and which sessions record none of the changes.
///
/// ```
/// use changecap::{ApplyOptions, ConflictAction::Abort, Server, Session};
/// let server = Server::open_in_memory()?;
/// let (client, own, other) = (server.client()?, Session::new(&server)?, Session::new(&server)?);
/// client.create_table("t", &[true, false])?;
/// own.attach(None)?;
/// other.attach(None)?;
/// let insert = [0x54, 2, 1, 0, b't', 0, 0x12, 0, 1, 0, 0, 0, 0, 0, 0, 0, 1, 3, 1, b'x'];
/// let options = ApplyOptions::new(Abort, Abort, Abort);
/// client.apply_options(insert, &options.clone().quiet(&own))?;
/// assert!(own.is_empty()? && !other.is_empty()?);
/// let (report, passed) = client.apply_options(insert, &options.filter("not is t"))?;
/// assert_eq!((report.version, report.applied, passed.changes), (3, 0, 1));
/// # Ok::<(), changecap::Error>(())
/// ```
#[derive(Clone, Debug)]
pub struct ApplyOptions<'a> {
    pub(crate) answers: [ConflictAction; 3],
    filter: &'a str,
    quiet: Vec<&'a Session>,
}

impl<'a> ApplyOptions<'a> {
    /// These answers: to a row that differs, one that is missing, and a key that is in use. It is for each table,
    /// and each session records what is applied.
    pub fn new(data: ConflictAction, not_found: ConflictAction, conflict: ConflictAction) -> Self {
        ApplyOptions { answers: [data, not_found, conflict], filter: "", quiet: Vec::new() }
    }

    /// Passes over tables that the filter of this text does not accept, as of
    /// [`Session::table_filter`](crate::Session::table_filter). The empty text accepts each table.
    pub fn filter(mut self, filter: &'a str) -> Self {
        self.filter = filter;
        self
    }

    /// Leaves one more session as it is.
    pub fn quiet(mut self, session: &'a Session) -> Self {
        self.quiet.push(session);
        self
    }

    /// The numbers of the quiet sessions. [`Error::Misuse`] where one is of another server.
    pub(crate) fn numbers(&self, of: &Arc<Pool>) -> Result<Vec<u64>> {
        let number = |it: &&Session| it.number_in(of).ok_or(Error::Misuse);
        self.quiet.iter().map(number).collect()
    }

    /// The same for C, which points to the filter and to these numbers.
    pub(crate) fn pointing(&self, quiet: &[u64]) -> ffi::Options {
        let (filter, filter_n) = (self.filter.as_ptr(), self.filter.len());
        ffi::Options { filter, filter_n, quiet: quiet.as_ptr(), quiet_n: quiet.len() }
    }
}

/// How much of a blob an application passed over, since its filter does not accept the tables.
///
/// ```
/// use changecap::{ApplyOptions, ConflictAction::Abort, Passed, Server};
/// let client = Server::open_in_memory()?.client()?;
/// let insert = [0x54, 2, 1, 0, b't', 0, 0x12, 0, 1, 0, 0, 0, 0, 0, 0, 0, 1, 3, 1, b'x'];
/// let options = ApplyOptions::new(Abort, Abort, Abort).filter("starts 'u'");
/// let (report, passed) = client.apply_options(insert, &options)?;
/// assert_eq!((report.skipped, passed), (0, Passed { groups: 1, changes: 1 }));
/// # Ok::<(), changecap::Error>(())
/// ```
#[derive(Clone, Copy, Debug, PartialEq, Eq)]
pub struct Passed {
    /// Groups that were passed over.
    pub groups: u64,
    /// Their changes.
    pub changes: u64,
}
