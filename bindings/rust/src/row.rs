//! Rows that are read.
use crate::call::{done, done_with_records, taken_into};
use crate::handle::Owned;
use crate::params::name_of;
use crate::record::Record;
use crate::{ffi, Error, FromValue, Result, RowId, RowName, ValueRef};
use std::iter::FusedIterator;

/// A row that was read. It owns its values and lends them.
///
/// ```
/// use changecap::{Batch, Cause, Server, ValueRef};
/// let client = Server::open_in_memory()?.client()?;
/// client.create_table("t", &[true, false])?;
/// let mut batch = Batch::new()?;
/// batch.insert("t", (1, "x"), Cause::Direct)?;
/// client.commit(&mut batch)?;
/// let row = client.snapshot()?.get("t", (1,))?.unwrap();
/// assert_eq!((row.get::<i64>(0)?, row.get_ref(1)?), (1, ValueRef::Text("x")));
/// assert_eq!((row.len(), row.id()), (2, None));
/// # Ok::<(), changecap::Error>(())
/// ```
#[derive(Clone, Debug, PartialEq, Eq)]
pub struct Row {
    id: u64,
    record: Record,
}

#[allow(clippy::len_without_is_empty)] // A row has a column.
impl Row {
    /// Its id, where it has no key.
    pub fn id(&self) -> Option<RowId> {
        (self.id != 0).then_some(RowId(self.id))
    }

    /// How many columns it has.
    pub fn len(&self) -> usize {
        self.record.len()
    }

    /// What is made of the value of a column, from 0 on: [`Error::ColumnIndex`] where there is no such
    /// column, [`Error::ColumnType`] where its value is of another type, or too great.
    pub fn get<T: FromValue>(&self, column: usize) -> Result<T> {
        T::from_value(self.get_ref(column)?).ok_or(Error::ColumnType(column))
    }

    /// The value of a column, from 0 on, or [`Error::ColumnIndex`].
    pub fn get_ref(&self, column: usize) -> Result<ValueRef<'_>> {
        self.record.get(column).ok_or(Error::ColumnIndex(column))
    }

    /// The values of all columns.
    pub fn values(&self) -> impl ExactSizeIterator<Item = ValueRef<'_>> {
        (0..self.len()).map(|column| self.record.get(column).unwrap_or(ValueRef::Null))
    }
}

/// Rows that were read, in the order of the read. They stay as they are, whatever is committed. The only
/// error is [`Error::OutOfMemory`], and the row is then passed over.
///
/// ```
/// use changecap::{Batch, Cause, Result, Server};
/// let client = Server::open_in_memory()?.client()?;
/// client.create_table("t", &[true, false])?;
/// let mut batch = Batch::new()?;
/// batch.insert("t", (1, 20), Cause::Direct)?;
/// batch.insert("t", (2, 22), Cause::Direct)?;
/// client.commit(&mut batch)?;
/// let numbers: Result<Vec<i64>> = client.snapshot()?.scan("t")?.map(|row| row?.get(1)).collect();
/// assert_eq!(numbers?, [20, 22]);
/// # Ok::<(), changecap::Error>(())
/// ```
#[derive(Debug)]
pub struct Rows {
    handle: Owned,
    /// What a row is read into.
    record: Vec<u8>,
}

impl Rows {
    /// The rows that a call opens.
    pub(crate) fn open(call: impl FnOnce(*mut ffi::Handle, &mut ffi::Fault) -> u32) -> Result<Rows> {
        let handle =
            Owned::open(ffi::changecap_rows_close, |rows| done_with_records(|fault| call(rows, fault)))?;
        Ok(Rows { handle, record: Vec::new() })
    }

    /// The row at which the rows are.
    fn row(&mut self) -> Result<Row> {
        let (rows, mut id) = (self.handle.at(), 0);
        // SAFETY: the handle is open as long as the rows are there.
        done(|_| unsafe { ffi::changecap_row_id(rows, &mut id) })?;
        let len = taken_into(&mut self.record, |out, len, _| {
            // SAFETY: the same, and what is written is a buffer and a length of this call alone.
            unsafe { ffi::changecap_row(rows, out.as_mut_ptr(), out.len(), len) }
        })?;
        let record = Record::of(&self.record[..len]).ok_or(Error::Misuse)?;
        Ok(Row { id, record })
    }
}

impl Iterator for Rows {
    type Item = Result<Row>;

    fn next(&mut self) -> Option<Result<Row>> {
        // SAFETY: the handle is open as long as the rows are there.
        match unsafe { ffi::changecap_step(self.handle.at()) } {
            ffi::ROW => Some(self.row()),
            _ => None,
        }
    }
}

impl FusedIterator for Rows {}

/// The row of this name, by the call of a snapshot or of a transaction.
///
/// # Safety
///
/// The handle is open, and of the kind that the call takes.
pub(crate) unsafe fn get(
    call: ffi::GetCall,
    from: &Owned,
    table: &str,
    row: impl RowName,
) -> Result<Option<Row>> {
    let (key, id) = name_of(row);
    let mut rows = Rows::open(|rows, fault| {
        let (table, n) = (table.as_ptr(), table.len());
        // SAFETY: of the handle by the caller. The rest is the rows, which are closed, and slices of this
        // function.
        unsafe { call(from.at(), table, n, key.as_ptr(), key.len(), id, rows, fault) }
    })?;
    rows.next().transpose()
}

/// All rows of a table, by the call of a snapshot or of a transaction.
///
/// # Safety
///
/// As of `get`.
pub(crate) unsafe fn scan(call: ffi::ScanCall, from: &Owned, table: &str) -> Result<Rows> {
    // SAFETY: as in `get`.
    Rows::open(|rows, fault| unsafe { call(from.at(), table.as_ptr(), table.len(), rows, fault) })
}
