//! Applications that stop at each conflict.
use crate::call::{done, done_at, done_with_records, taken};
use crate::handle::Owned;
use crate::record::{self, Record};
use crate::refused::{Refused, RefusedChange};
use crate::{
    ffi, Batch, Change, ChangesetIter, ConflictAction, Error, RebaseBuffer, Refusal, Report, Result,
};
use crate::{Snapshot, Value, ValueRef};
use std::ops::Deref;

/// What a change meets, as rusqlite's.
///
/// ```
/// use changecap::{ConflictAction::Omit, ConflictType, Server};
/// let client = Server::open_in_memory()?.client()?;
/// client.create_table("t", &[true, false])?;
/// let delete = [0x54, 2, 1, 0, b't', 0, 0x09, 0, 1, 0, 0, 0, 0, 0, 0, 0, 1, 3, 1, b'x'];
/// let mut kinds = Vec::new();
/// client.apply_with(delete, None, |kind, _| {
///     kinds.push(kind);
///     Omit
/// })?;
/// assert_eq!(kinds, [ConflictType::NotFound]);
/// # Ok::<(), changecap::Error>(())
/// ```
#[derive(Clone, Copy, Debug, PartialEq, Eq, Hash)]
pub enum ConflictType {
    /// The row has other values than those before the change.
    Data,
    /// There is no row to update or delete.
    NotFound,
    /// The key of an inserted row is in use.
    Conflict,
}

/// What decides a conflict: a [`ConflictAction`], or the values of a row of the caller's own, which stands there
/// in place of the change.
///
/// ```
/// use changecap::{ConflictAction::Omit, ConflictAnswer};
/// assert_eq!(ConflictAnswer::from(Omit), ConflictAnswer::Action(Omit));
/// let row = vec![1.into(), "x".into()];
/// assert_eq!(ConflictAnswer::from(row.clone()), ConflictAnswer::Row(row));
/// ```
#[derive(Clone, Debug, PartialEq, Eq)]
pub enum ConflictAnswer {
    /// One of the three answers.
    Action(ConflictAction),
    /// A row with the columns of the table and the key of the change.
    Row(Vec<Value>),
}

impl From<ConflictAction> for ConflictAnswer {
    fn from(action: ConflictAction) -> ConflictAnswer {
        ConflictAnswer::Action(action)
    }
}

impl From<Vec<Value>> for ConflictAnswer {
    fn from(row: Vec<Value>) -> ConflictAnswer {
        ConflictAnswer::Row(row)
    }
}

/// A change that meets a conflict, with the row that is there, as rusqlite's. It is a [`Change`] too.
///
/// ```
/// use changecap::{ConflictAction::{Abort, Omit}, Server, ValueRef};
/// let client = Server::open_in_memory()?.client()?;
/// client.create_table("t", &[true, false])?;
/// let insert = [0x54, 2, 1, 0, b't', 0, 0x12, 0, 1, 0, 0, 0, 0, 0, 0, 0, 1, 3, 1, b'x'];
/// client.apply(insert, Abort, Abort, Abort)?;
/// client.apply_with(insert, None, |_, item| {
///     assert_eq!((item.table_name(), item.change_number()), ("t", 0));
///     assert_eq!((item.new_value(1), item.conflict(1)), (Some(ValueRef::Text("x")), item.new_value(1)));
///     Omit
/// })?;
/// # Ok::<(), changecap::Error>(())
/// ```
#[derive(Clone, Debug, PartialEq, Eq)]
pub struct ChangesetItem {
    change: Change,
    number: u64,
    present: Option<Record>,
}

impl ChangesetItem {
    /// The number of the change, from 0 over the whole blob.
    pub fn change_number(&self) -> u64 {
        self.number
    }

    /// The value of a column of the row that is there, which the earlier changes of the blob have left. None
    /// where there is no row, or no such column.
    pub fn conflict(&self, column: usize) -> Option<ValueRef<'_>> {
        self.present.as_ref()?.get(column)
    }

    /// The values of the row that is there.
    pub fn present(&self) -> Option<Vec<Value>> {
        let row = self.present.as_ref()?;
        Some((0..row.len()).filter_map(|column| row.get(column)).map(Value::from).collect())
    }
}

impl Deref for ChangesetItem {
    type Target = Change;

    fn deref(&self) -> &Change {
        &self.change
    }
}

/// An application on a snapshot, with an iterator over the changes of its blob.
pub(crate) struct Application {
    handle: Owned,
    changes: ChangesetIter,
    /// How many changes the iterator has passed.
    passed: u64,
}

impl Application {
    /// The application of a blob to the tables that a filter accepts, or without one to all.
    pub(crate) fn begin(snapshot: &Snapshot, blob: &[u8], filter: Option<&str>) -> Result<Application> {
        let changes = ChangesetIter::start(blob)?;
        let filter = filter.unwrap_or("all");
        if filter.is_empty() {
            return Err(Error::Filter(crate::Fault { kind: 12, at: 0 }));
        }
        let handle = Owned::open(ffi::changecap_apply_close, |application| {
            let (at, n, text, m) = (blob.as_ptr(), blob.len(), filter.as_ptr(), filter.len());
            // SAFETY: the snapshot is open, and the application closed. Two slices.
            done(|fault| unsafe {
                ffi::changecap_apply_open(snapshot.handle.at(), at, n, text, m, application, fault)
            })
        })?;
        Ok(Application { handle, changes, passed: 0 })
    }

    /// Answers each conflict as a function decides.
    pub(crate) fn decide<A: Into<ConflictAnswer>>(
        &mut self,
        mut conflict: impl FnMut(ConflictType, &ChangesetItem) -> A,
    ) -> Result<()> {
        while let Some(item) = self.item()? {
            let answer = conflict(self.kind()?, &item).into();
            self.answer(&answer).map_err(|error| named(error, &item))?;
        }
        Ok(())
    }

    /// What it left, as a batch, and the report with the version of the snapshot.
    pub(crate) fn end(&self) -> Result<(Batch, Report)> {
        let (at, mut report) = (self.handle.at(), ffi::Report::default());
        // SAFETY: the handle is open as long as the application is there, and a place of this function.
        done(|_| unsafe { ffi::changecap_apply_report(at, &mut report) })?;
        // SAFETY: the application is open, and the batch closed.
        let batch = Batch::open(|batch, fault| unsafe { ffi::changecap_apply_end(at, batch, fault) })?;
        let ffi::Report { version, applied, conflicts, omitted, skipped } = report;
        Ok((batch, Report { version, applied, conflicts, omitted, skipped }))
    }

    /// The rebase buffer.
    pub(crate) fn buffer(&self) -> Result<RebaseBuffer> {
        let at = self.handle.at();
        // SAFETY: the application is open. A buffer and a length that are of the call alone.
        let bytes = taken(256, |out, len, _| unsafe {
            ffi::changecap_apply_buffer(at, ffi::KEYS_PLACES, out.as_mut_ptr(), out.len(), len)
        })?;
        Ok(RebaseBuffer(bytes))
    }

    /// The change that meets the conflict at which it stands, if there is one.
    fn item(&mut self) -> Result<Option<ChangesetItem>> {
        let (at, mut number) = (self.handle.at(), 0);
        // SAFETY: the handle is open as long as the application is there.
        match unsafe { ffi::changecap_apply_step(at) } {
            ffi::ROW => {}
            ffi::DONE => return Ok(None),
            status => return Err(Error::of(status, ffi::Fault::default(), |_| false)),
        }
        // SAFETY: the application is open, and a place of this function.
        done(|_| unsafe { ffi::changecap_apply_number(at, &mut number) })?;
        let change = self.changes.skip_to(number - self.passed)?;
        self.passed = number + 1;
        Ok(Some(ChangesetItem { change, number, present: self.present()? }))
    }

    fn kind(&self) -> Result<ConflictType> {
        let mut kind = 0;
        // SAFETY: the handle is open as long as the application is there, and a place of this function.
        done(|_| unsafe { ffi::changecap_apply_kind(self.handle.at(), &mut kind) })?;
        match kind {
            ffi::DATA => Ok(ConflictType::Data),
            ffi::NOTFOUND => Ok(ConflictType::NotFound),
            _ => Ok(ConflictType::Conflict),
        }
    }

    /// The row that is there.
    fn present(&self) -> Result<Option<Record>> {
        let at = self.handle.at();
        // SAFETY: the application is open. A buffer and a length that are of the call alone.
        let written = taken(64, |out, len, _| unsafe {
            ffi::changecap_apply_present(at, out.as_mut_ptr(), out.len(), len)
        });
        match written {
            Ok(bytes) => Record::of(&bytes).map(Some).ok_or(Error::Misuse),
            Err(Error::Misuse) => Ok(None),
            Err(error) => Err(error),
        }
    }

    fn answer(&mut self, answer: &ConflictAnswer) -> Result<()> {
        let at = self.handle.at();
        match answer {
            ConflictAnswer::Action(action) => done_at(
                // SAFETY: the handle is open as long as the application is there.
                |fault| unsafe { ffi::changecap_apply_answer(at, action.number(), fault) },
                Refusal::is_of_a_change,
            ),
            ConflictAnswer::Row(values) => {
                let mut row = Vec::new();
                values.iter().for_each(|value| record::put(&mut row, value.into()));
                // SAFETY: the application is open. A slice of this function.
                done_with_records(|fault| unsafe {
                    ffi::changecap_apply_answer_row(at, row.as_ptr(), row.len(), fault)
                })
            }
        }
    }
}

/// The refusal of an answer, with its change.
fn named(error: Error, item: &ChangesetItem) -> Error {
    match error {
        Error::Refused(why) => {
            let change = Some(RefusedChange::of(item).into());
            Error::Refused(Refused { at: Some(item.number as usize), change, ..why })
        }
        error => error,
    }
}
