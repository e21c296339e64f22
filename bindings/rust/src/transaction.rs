//! Transactions on snapshots.
use crate::call::done;
use crate::handle::Owned;
use crate::pool::Pool;
use crate::row::{get, scan};
use crate::{batch, ffi};
use crate::{Batch, Cause, Client, Error, Params, Refusal, Result, Row, RowName, Rows, Snapshot, ToValue};

/// How often a transaction is begun before its last refusal is answered.
pub const TRIES: usize = 1_000;

/// A transaction reads a snapshot as its own operations have left it, without waiting. Its commit is accepted
/// exactly if all that it looked at is then as it was in the snapshot, and else refused with
/// [`Refusal::Stale`](crate::Refusal::Stale). [`Server::transaction`](crate::Server::transaction) begins
/// again then. A transaction that is dropped is rolled back.
///
/// A refused operation leaves the rows as they were, and the transaction goes on.
///
/// ```
/// use changecap::{Cause, Server};
/// let server = Server::open_in_memory()?;
/// let client = server.client()?;
/// client.create_table("t", &[true, false])?;
/// let mut transaction = client.snapshot()?.transaction()?;
/// transaction.insert("t", (1, "x"), Cause::Direct)?;
/// assert_eq!(transaction.get("t", (1,))?.unwrap().get::<String>(1)?, "x");
/// assert_eq!(transaction.commit(&client)?, 2);
/// # Ok::<(), changecap::Error>(())
/// ```
#[derive(Debug)]
pub struct Transaction {
    handle: Owned,
}

/// A savepoint of a transaction.
///
/// ```
/// use changecap::{Cause, Server};
/// let server = Server::open_in_memory()?;
/// server.client()?.create_table("t", &[true])?;
/// let (rows, _version) = server.transaction(|t| {
///     t.insert("t", (1,), Cause::Direct)?;
///     let savepoint = t.savepoint()?;
///     t.insert("t", (2,), Cause::Direct)?;
///     t.rollback_to(savepoint)?;
///     Ok(t.scan("t")?.count())
/// })?;
/// assert_eq!(rows, 1);
/// # Ok::<(), changecap::Error>(())
/// ```
#[derive(Clone, Copy, Debug, PartialEq, Eq)]
pub struct Savepoint(u64);

impl Transaction {
    pub(crate) fn begin(snapshot: &Snapshot) -> Result<Transaction> {
        let handle = Owned::open(ffi::changecap_rollback, |transaction| {
            // SAFETY: the snapshot is open, and the transaction closed.
            done(|_| unsafe { ffi::changecap_begin(snapshot.handle.at(), transaction) })
        })?;
        Ok(Transaction { handle })
    }

    /// Inserts a row.
    pub fn insert(&mut self, table: &str, row: impl Params, cause: Cause) -> Result<()> {
        // SAFETY: the handle is an open transaction.
        unsafe { batch::insert(ffi::changecap_transaction_insert, &self.handle, table, row, cause) }
    }

    /// Sets columns, from 0 on, of a row.
    pub fn update<V: ToValue>(
        &mut self,
        table: &str,
        row: impl RowName,
        set: &[(usize, V)],
        cause: Cause,
    ) -> Result<()> {
        // SAFETY: the handle is an open transaction.
        unsafe { batch::update(ffi::changecap_transaction_update, &self.handle, table, row, set, cause) }
    }

    /// Deletes a row.
    pub fn delete(&mut self, table: &str, row: impl RowName, cause: Cause) -> Result<()> {
        // SAFETY: the handle is an open transaction.
        unsafe { batch::delete(ffi::changecap_transaction_delete, &self.handle, table, row, cause) }
    }

    /// The row of this name, if there is one. The commit looks at it again.
    pub fn get(&mut self, table: &str, row: impl RowName) -> Result<Option<Row>> {
        // SAFETY: the handle is an open transaction.
        unsafe { get(ffi::changecap_transaction_get, &self.handle, table, row) }
    }

    /// All rows of a table, in the order of [`Snapshot::scan`]. The commit looks at all of them again, so
    /// that any change of the table refuses it.
    pub fn scan(&mut self, table: &str) -> Result<Rows> {
        // SAFETY: the handle is an open transaction.
        unsafe { scan(ffi::changecap_transaction_scan, &self.handle, table) }
    }

    /// Makes a savepoint. Refused with [`Refusal::TooMany`] where the transaction has made 10,000.
    pub fn savepoint(&mut self) -> Result<Savepoint> {
        let mut mark = 0;
        // SAFETY: the handle is an open transaction.
        done(|fault| unsafe { ffi::changecap_savepoint(self.handle.at(), &mut mark, fault) })?;
        Ok(Savepoint(mark))
    }

    /// Undoes all operations since a savepoint of this transaction, and all later savepoints. The savepoint
    /// itself stays. Refused with [`Refusal::NoMark`] where it was undone.
    pub fn rollback_to(&mut self, savepoint: Savepoint) -> Result<()> {
        // SAFETY: the handle is an open transaction.
        done(|fault| unsafe { ffi::changecap_rollback_to(self.handle.at(), savepoint.0, fault) })
    }

    /// Ends the transaction, of which nothing is left.
    pub fn rollback(self) {}

    /// Ends the transaction as a batch of its operations, which is judged by what the transaction looked at.
    /// Once an operation is put into that batch, it may be committed on the version of the snapshot alone.
    pub fn into_batch(self) -> Result<Batch> {
        // SAFETY: the transaction is open, and the batch closed.
        Batch::open(|batch, _| unsafe { ffi::changecap_end(self.handle.at(), batch) })
    }

    /// Commits the transaction by a client, and answers the new version.
    pub fn commit(self, client: &Client) -> Result<u64> {
        client.commit(&mut self.into_batch()?)
    }
}

/// What work in a transaction answers, and what its commit answers. Where that is refused since something
/// that the transaction looked at has changed, both are made again.
pub(crate) fn retried<T, C>(
    pool: &Pool,
    mut work: impl FnMut(&mut Transaction) -> Result<T>,
    mut commit: impl FnMut(&mut Batch) -> Result<C>,
) -> Result<(T, C)> {
    let mut tries = 1;
    loop {
        let mut transaction = pool.snapshot()?.transaction()?;
        let made = work(&mut transaction)?;
        match commit(&mut transaction.into_batch()?) {
            Err(Error::Refused(why)) if why.code == Refusal::Stale && tries < TRIES => tries += 1,
            committed => return Ok((made, committed?)),
        }
        std::thread::yield_now();
    }
}
