//! Batches of operations.
use crate::call::{done, done_with_records, taken, text_of};
use crate::handle::Owned;
use crate::params::{name_of, record_of};
use crate::record::{self, Record};
use crate::refused::{Item, ItemKind, Refused};
use crate::{ffi, Error, Params, Refusal, Result, RowId, RowName, ToValue, Value};

/// What causes an operation, by which a session marks its touch.
///
/// ```
/// use changecap::{Batch, Cause, Server, Session};
/// let server = Server::open_in_memory()?;
/// server.client()?.create_table("t", &[true])?;
/// let session = Session::new(&server)?;
/// session.attach(None)?;
/// let mut batch = Batch::new()?;
/// batch.insert("t", (1,), Cause::Cascade)?;
/// let changeset = session.commit(&mut batch)?.changeset(changecap::KeyFlags::Places)?;
/// assert!(changeset.iter()?.all(|change| change.indirect()));
/// # Ok::<(), changecap::Error>(())
/// ```
#[derive(Clone, Copy, Debug, PartialEq, Eq)]
pub enum Cause {
    /// The operation itself: the touch is marked by the session's flag.
    Direct,
    /// A trigger or a foreign key action: the touch is indirect.
    Cascade,
}

impl Cause {
    fn number(self) -> u32 {
        match self {
            Cause::Direct => ffi::DIRECT,
            Cause::Cascade => ffi::CASCADE,
        }
    }
}

/// Operations that are made together or not at all, at most 10,000. A batch is put together without a client,
/// and any client commits it ([`Client::commit`](crate::Client::commit)). Whether there is such a table, row
/// or column is looked at then.
///
/// Where an operation cannot be put in, the whole batch has failed: it is not committed, and the commit
/// answers [`Error::FailedBatch`], until [`clear`](Batch::clear).
///
/// ```
/// use changecap::{Batch, Cause, Server};
/// let client = Server::open_in_memory()?.client()?;
/// client.create_table("t", &[true, false])?;
/// let mut batch = Batch::new()?;
/// batch.insert("t", (1, "x"), Cause::Direct)?;
/// batch.update("t", (1,), &[(1, "y")], Cause::Direct)?;
/// assert_eq!(client.commit(&mut batch)?, 2);
/// # Ok::<(), changecap::Error>(())
/// ```
#[derive(Debug)]
pub struct Batch {
    handle: Owned,
    /// Whether an operation could not be put in it.
    has_failed: bool,
}

impl Batch {
    /// The batch that a call opens.
    pub(crate) fn open(call: impl FnOnce(*mut ffi::Handle, &mut ffi::Fault) -> u32) -> Result<Batch> {
        let handle = Owned::open(ffi::changecap_batch_close, |batch| done(|fault| call(batch, fault)))?;
        Ok(Batch { handle, has_failed: false })
    }

    /// A batch without operations.
    pub fn new() -> Result<Batch> {
        // SAFETY: the handle is closed.
        Batch::open(|batch, _| unsafe { ffi::changecap_batch_open(batch) })
    }

    /// The same of one that may be committed on this version alone. On any other it is refused with
    /// [`Refusal::Stale`](crate::Refusal::Stale).
    pub fn new_at(version: u64) -> Result<Batch> {
        // SAFETY: the handle is closed.
        Batch::open(|batch, _| unsafe { ffi::changecap_batch_open_at(batch, version) })
    }

    /// Takes all operations out. The batch may be committed on any version then.
    pub fn clear(&mut self) {
        // SAFETY: the handle is open as long as the batch is there.
        unsafe { ffi::changecap_batch_clear(self.handle.at()) }
        self.has_failed = false;
    }

    /// Notes whether an operation was put in.
    fn noted(&mut self, put: Result<()>) -> Result<()> {
        self.has_failed |= put.is_err();
        put
    }

    /// Puts an operation last that inserts a row. [`Error::Misuse`] where there can be no such table or
    /// value, refused with [`Refusal::TooMany`](crate::Refusal::TooMany) where the batch has 10,000
    /// operations.
    pub fn insert(&mut self, table: &str, row: impl Params, cause: Cause) -> Result<()> {
        // SAFETY: the handle is an open batch.
        let put = unsafe { insert(ffi::changecap_insert, &self.handle, table, row, cause) };
        self.noted(put)
    }

    /// The same of one that sets columns, from 0 on, of a row.
    pub fn update<V: ToValue>(
        &mut self,
        table: &str,
        row: impl RowName,
        set: &[(usize, V)],
        cause: Cause,
    ) -> Result<()> {
        // SAFETY: the handle is an open batch.
        let put = unsafe { update(ffi::changecap_update, &self.handle, table, row, set, cause) };
        self.noted(put)
    }

    /// The same of one that deletes a row.
    pub fn delete(&mut self, table: &str, row: impl RowName, cause: Cause) -> Result<()> {
        // SAFETY: the handle is an open batch.
        let put = unsafe { delete(ffi::changecap_delete, &self.handle, table, row, cause) };
        self.noted(put)
    }

    /// Makes a call that commits the batch, whose refusals have the number of an operation.
    pub(crate) fn committed(
        &mut self,
        call: impl FnOnce(*mut ffi::Handle, &mut ffi::Fault) -> u32,
    ) -> Result<()> {
        if self.has_failed {
            return Err(Error::FailedBatch);
        }
        let mut fault = ffi::Fault::default();
        match call(self.handle.at(), &mut fault) {
            ffi::OK => Ok(()),
            status => {
                let error = Error::of(status, fault, |code| !OF_NO_OPERATION.contains(&code));
                Err(self.named(error, fault.at))
            }
        }
    }

    /// An error, where it says that an item has changed with the item of this number.
    fn named(&self, error: Error, at: usize) -> Error {
        match error {
            Error::Refused(why) if why.code == Refusal::Stale => {
                Error::Refused(Refused { item: self.item(at).ok().map(Box::new), ..why })
            }
            error => error,
        }
    }

    /// An item that a transaction looked at, for its batch. [`Error::Misuse`] where there is none.
    fn item(&self, at: usize) -> Result<Item> {
        let (batch, mut item) = (self.handle.at(), ffi::Item::default());
        // SAFETY: the handle is open as long as the batch is there, and a place of this function.
        done(|_| unsafe { ffi::changecap_batch_item(batch, at, &mut item) })?;
        // SAFETY: the batch is open. A buffer and a length that are of the call alone.
        let table = taken(255, |out, len, _| unsafe {
            ffi::changecap_batch_item_table(batch, at, out.as_mut_ptr(), out.len(), len)
        })?;
        let kind = match item.kind {
            ffi::ITEM_TABLE => ItemKind::Table,
            ffi::ITEM_SCAN => ItemKind::Scan,
            ffi::ITEM_NEXT_ID => ItemKind::NextId,
            _ if item.id != 0 => ItemKind::RowId(RowId(item.id)),
            _ => ItemKind::Row(self.key_of_item(at)?),
        };
        Ok(Item { table: text_of(table)?, kind })
    }

    /// The key of the row that an item is.
    fn key_of_item(&self, at: usize) -> Result<Vec<Value>> {
        // SAFETY: the batch is open. A buffer and a length that are of the call alone.
        let key = taken(64, |out, len, _| unsafe {
            ffi::changecap_batch_item_key(self.handle.at(), at, out.as_mut_ptr(), out.len(), len)
        })?;
        let key = Record::of(&key).ok_or(Error::Misuse)?;
        Ok((0..key.len()).filter_map(|column| key.get(column)).map(Value::from).collect())
    }
}

/// The refusals of a commit that have no operation: E11 Stale and E18 NoSession.
const OF_NO_OPERATION: [Refusal; 2] = [Refusal::Stale, Refusal::NoSession];

/// Puts an insert last in a batch or a transaction, by its call.
///
/// # Safety
///
/// The handle is open, and of the kind that the call takes.
pub(crate) unsafe fn insert(
    call: ffi::InsertCall,
    to: &Owned,
    table: &str,
    row: impl Params,
    cause: Cause,
) -> Result<()> {
    let row = record_of(row);
    done_with_records(|fault| {
        let (table, n, cause) = (table.as_ptr(), table.len(), cause.number());
        // SAFETY: of the handle by the caller. The rest is slices of this function.
        unsafe { call(to.at(), table, n, row.as_ptr(), row.len(), cause, fault) }
    })
}

/// The same of an update.
///
/// # Safety
///
/// As of `insert`.
pub(crate) unsafe fn update<V: ToValue>(
    call: ffi::UpdateCall,
    to: &Owned,
    table: &str,
    row: impl RowName,
    set: &[(usize, V)],
    cause: Cause,
) -> Result<()> {
    let ((key, id), set) = (name_of(row), record::of_assignments(set));
    done_with_records(|fault| {
        let (table, n, key, m) = (table.as_ptr(), table.len(), key.as_ptr(), key.len());
        // SAFETY: as in `insert`.
        unsafe { call(to.at(), table, n, key, m, id, set.as_ptr(), set.len(), cause.number(), fault) }
    })
}

/// The same of a delete.
///
/// # Safety
///
/// As of `insert`.
pub(crate) unsafe fn delete(
    call: ffi::DeleteCall,
    to: &Owned,
    table: &str,
    row: impl RowName,
    cause: Cause,
) -> Result<()> {
    let (key, id) = name_of(row);
    done_with_records(|fault| {
        let (table, n, cause) = (table.as_ptr(), table.len(), cause.number());
        // SAFETY: as in `insert`.
        unsafe { call(to.at(), table, n, key.as_ptr(), key.len(), id, cause, fault) }
    })
}
