//! Snapshots of the tables.
use crate::call::taken;
use crate::handle::Owned;
use crate::params::record_of;
use crate::row::{get, scan};
use crate::{ffi, Changeset, KeyFlags, Params, Result, Row, RowName, Rows, Transaction};

/// The tables as they were at one point of the history. A snapshot stays as it is, whatever is committed,
/// outlasts its server, and is read without waiting. Another thread may have it, one at a time.
///
/// ```
/// use changecap::{Batch, Cause, Server};
/// let client = Server::open_in_memory()?.client()?;
/// client.create_table("t", &[true, false])?;
/// let before = client.snapshot()?;
/// let mut batch = Batch::new()?;
/// batch.insert("t", (1, "x"), Cause::Direct)?;
/// client.commit(&mut batch)?;
/// assert_eq!((before.version(), before.scan("t")?.count()), (1, 0));
/// let now = client.snapshot()?;
/// assert_eq!((now.version(), now.scan("t")?.count()), (2, 1));
/// assert_eq!(now.get("t", (1,))?.unwrap().get::<String>(1)?, "x");
/// # Ok::<(), changecap::Error>(())
/// ```
#[derive(Debug)]
pub struct Snapshot {
    pub(crate) handle: Owned,
}

impl Snapshot {
    /// The version of the tables: how many commands have created a table, committed a batch or applied a
    /// blob.
    pub fn version(&self) -> u64 {
        let mut version = 0;
        // SAFETY: the handle is open as long as the snapshot is there. The call has one answer, OK.
        unsafe { ffi::changecap_snapshot_version(self.handle.at(), &mut version) };
        version
    }

    /// The row of this name, if there is one.
    pub fn get(&self, table: &str, row: impl RowName) -> Result<Option<Row>> {
        // SAFETY: the handle is an open snapshot.
        unsafe { get(ffi::changecap_get, &self.handle, table, row) }
    }

    /// All rows of a table: those with a key in the order of their keys, and then the others by their ids.
    pub fn scan(&self, table: &str) -> Result<Rows> {
        // SAFETY: the handle is an open snapshot.
        unsafe { scan(ffi::changecap_scan, &self.handle, table) }
    }

    /// The rows with a key that is not below this one, in the order of their keys, at most `limit` of them.
    pub fn scan_from(&self, table: &str, key: impl Params, limit: u64) -> Result<Rows> {
        let (n, key) = (table.len(), record_of(key));
        // SAFETY: the handle is an open snapshot, the rows are closed, and the rest is slices of this
        // function.
        Rows::open(|rows, fault| unsafe {
            let (at, table) = (self.handle.at(), table.as_ptr());
            ffi::changecap_scan_from(at, table, n, key.as_ptr(), key.len(), limit, rows, fault)
        })
    }

    /// These tables as one changeset, with an INSERT for each row that has a key, for
    /// [`Client::load`](crate::Client::load). A table without rows is in it; a table without key columns and a row
    /// without a key have no place in a changeset, and are not. [`Error::Misuse`](crate::Error::Misuse) where there
    /// is no table of a name.
    pub fn dump(&self, tables: &[&str], key_flags: KeyFlags) -> Result<Changeset> {
        let mut all = Vec::new();
        for table in tables {
            // SAFETY: the handle is open as long as the snapshot is there, a slice, and the buffer of this call.
            all.append(&mut taken(256, |out, len, _| unsafe {
                let (name, at, room) = (table.as_ptr(), out.as_mut_ptr(), out.len());
                let snapshot = self.handle.at();
                ffi::changecap_dump(snapshot, name, table.len(), key_flags.number(), at, room, len)
            })?);
        }
        Ok(Changeset(all))
    }

    /// Begins a transaction on the snapshot.
    pub fn transaction(&self) -> Result<Transaction> {
        Transaction::begin(self)
    }
}
