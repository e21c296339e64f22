//! The changes of a blob.
use crate::call::{done, taken, taken_into};
use crate::handle::Owned;
use crate::record::Record;
use crate::{ffi, ConflictAction, Error, RebaseBuffer, Result, ValueRef};
use std::io::{ErrorKind, Read};
use std::iter::FusedIterator;
use std::sync::Arc;

/// What a change does to its row.
///
/// ```
/// use changecap::{Action, ChangesetIter};
/// let delete = [0x54, 2, 1, 0, b't', 0, 0x09, 0, 1, 0, 0, 0, 0, 0, 0, 0, 1, 3, 1, b'x'];
/// assert!(ChangesetIter::start(&delete)?.all(|change| change.code() == Action::Delete));
/// # Ok::<(), changecap::Error>(())
/// ```
#[derive(Clone, Copy, Debug, PartialEq, Eq, Hash)]
pub enum Action {
    /// It is inserted.
    Insert,
    /// Columns outside its key get new values.
    Update,
    /// It is deleted.
    Delete,
}

/// A change. It owns what it has and lends its values.
///
/// ```
/// use changecap::{Action, ChangesetIter, ValueRef};
/// let insert = [0x54, 2, 1, 0, b't', 0, 0x12, 0, 1, 0, 0, 0, 0, 0, 0, 0, 1, 3, 1, b'x'];
/// let change = ChangesetIter::start(&insert)?.next().unwrap();
/// assert_eq!((change.table_name(), change.code(), change.number_of_columns()), ("t", Action::Insert, 2));
/// assert_eq!((change.old_value(1), change.new_value(1)), (None, Some(ValueRef::Text("x"))));
/// assert_eq!(change.key().collect::<Vec<_>>(), [ValueRef::Integer(1)]);
/// # Ok::<(), changecap::Error>(())
/// ```
#[derive(Clone, Debug, PartialEq, Eq)]
pub struct Change {
    table: Arc<Table>,
    code: Action,
    indirect: bool,
    old: Record,
    new: Record,
}

/// The table of changes that follow each other.
#[derive(Debug, PartialEq, Eq)]
struct Table {
    name: String,
    /// For each column whether it is in the key.
    key: Vec<bool>,
}

impl Change {
    /// The name of its table.
    pub fn table_name(&self) -> &str {
        &self.table.name
    }

    /// How many columns the table has.
    pub fn number_of_columns(&self) -> usize {
        self.table.key.len()
    }

    /// What the change does.
    pub fn code(&self) -> Action {
        self.code
    }

    /// Whether the change is marked as indirect.
    pub fn indirect(&self) -> bool {
        self.indirect
    }

    /// For each column whether it is in the table's key.
    pub fn pk(&self) -> &[bool] {
        &self.table.key
    }

    /// The value of a column before the change, or none where it is undefined or there is no such column.
    pub fn old_value(&self, column: usize) -> Option<ValueRef<'_>> {
        self.old.get(column)
    }

    /// The value of a column after the change, or none where it is undefined or there is no such column.
    pub fn new_value(&self, column: usize) -> Option<ValueRef<'_>> {
        self.new.get(column)
    }

    /// The values of the columns in the table's key.
    pub fn key(&self) -> impl Iterator<Item = ValueRef<'_>> {
        let side = if self.code == Action::Insert { &self.new } else { &self.old };
        let columns = 0..self.number_of_columns();
        columns.filter(|column| self.pk()[*column]).filter_map(|column| side.get(column))
    }
}

/// The changes of a changeset or a patchset, in their order. It owns what it has read, and may go to another
/// thread. `next` panics where there is no memory for a change.
///
/// ```
/// use changecap::ChangesetIter;
/// let mut insert = &[0x54, 2, 1, 0, b't', 0, 0x12, 0, 1, 0, 0, 0, 0, 0, 0, 0, 1, 3, 1, b'x'][..];
/// assert_eq!(ChangesetIter::start(insert)?.count(), 1);
/// assert_eq!(ChangesetIter::start_strm(&mut insert)?.count(), 1);
/// # Ok::<(), changecap::Error>(())
/// ```
#[derive(Debug)]
pub struct ChangesetIter {
    pub(crate) handle: Owned,
    /// What a name or a record is read into.
    bytes: Vec<u8>,
    /// What key columns are read into.
    key: Vec<bool>,
    /// The table of the change before.
    table: Option<Arc<Table>>,
}

impl ChangesetIter {
    /// The iterator that a call opens.
    fn open(call: impl FnOnce(*mut ffi::Handle, &mut ffi::Fault) -> u32) -> Result<ChangesetIter> {
        let handle = Owned::open(ffi::changecap_iter_close, |iter| done(|fault| call(iter, fault)))?;
        Ok(ChangesetIter { handle, bytes: Vec::new(), key: Vec::new(), table: None })
    }

    /// Before the first change of a blob, all of which is read. [`Error::Malformed`] where it is none.
    pub fn start(blob: &[u8]) -> Result<ChangesetIter> {
        // SAFETY: the iterator is closed, and the blob is a slice.
        ChangesetIter::open(|iter, fault| unsafe {
            ffi::changecap_iter_open(blob.as_ptr(), blob.len(), iter, fault)
        })
    }

    /// The same of all bytes that the reader gives, which is read to its end or to the piece that shows a
    /// fault.
    pub fn start_strm(input: &mut dyn Read) -> Result<ChangesetIter> {
        let mut decoder = Decoder::new()?;
        let mut piece = [0; 4096];
        loop {
            match input.read(&mut piece) {
                Ok(0) => return decoder.finish(),
                Ok(n) => decoder.feed(&piece[..n])?,
                Err(error) if error.kind() == ErrorKind::Interrupted => {}
                Err(error) => return Err(error.into()),
            }
        }
    }

    /// The change behind so many further ones, which are passed over.
    pub(crate) fn skip_to(&mut self, passed: u64) -> Result<Change> {
        for _ in 0..=passed {
            // SAFETY: the handle is open as long as the iterator is there.
            if unsafe { ffi::changecap_iter_next(self.handle.at()) } != ffi::ROW {
                return Err(Error::Misuse);
            }
        }
        self.change()
    }

    /// The change at which the iterator is.
    fn change(&mut self) -> Result<Change> {
        let (iter, mut change) = (self.handle.at(), ffi::Change::default());
        // SAFETY: the handle is open as long as the iterator is there, and a place of this function.
        done(|_| unsafe { ffi::changecap_iter_op(iter, &mut change) })?;
        let code = match change.op {
            ffi::INSERT => Action::Insert,
            ffi::UPDATE => Action::Update,
            _ => Action::Delete,
        };
        let table = self.table(change.columns)?;
        let (mut old, mut new) = (Record::default(), Record::default());
        if code != Action::Insert {
            old = self.record(ffi::changecap_iter_old_record)?;
        }
        if code != Action::Delete {
            new = self.record(ffi::changecap_iter_new_record)?;
        }
        Ok(Change { table, code, indirect: change.indirect != 0, old, new })
    }

    /// The table of the change, which has so many columns. It is that of the change before where it has the same
    /// name and key.
    fn table(&mut self, columns: usize) -> Result<Arc<Table>> {
        let (iter, mut is_key) = (self.handle.at(), 0);
        // SAFETY: the iterator is open. A buffer and a length that are of the call alone.
        let len = taken_into(&mut self.bytes, |out, len, _| unsafe {
            ffi::changecap_iter_table(iter, out.as_mut_ptr(), out.len(), len)
        })?;
        self.key.clear();
        for column in 0..columns {
            // SAFETY: the iterator is open, and a place of this function.
            done(|_| unsafe { ffi::changecap_iter_key(iter, column, &mut is_key) })?;
            self.key.push(is_key != 0);
        }
        let name = &self.bytes[..len];
        match &self.table {
            Some(before) if before.name.as_bytes() == name && before.key == self.key => {
                Ok(Arc::clone(before))
            }
            _ => {
                let table = Arc::new(Table { name: text_in(name)?.to_owned(), key: self.key.clone() });
                self.table = Some(Arc::clone(&table));
                Ok(table)
            }
        }
    }

    /// The record of one side of the change, by its call.
    fn record(&mut self, call: ffi::RecordCall) -> Result<Record> {
        let iter = self.handle.at();
        // SAFETY: the iterator is open, and the call is one of an iterator. A buffer and a length that are of
        // the call alone.
        let len = taken_into(&mut self.bytes, |out, len, _| unsafe {
            call(iter, out.as_mut_ptr(), out.len(), len)
        })?;
        Record::of(&self.bytes[..len]).ok_or(Error::Misuse)
    }

    /// Says of an application elsewhere, as by SQLite, that the change that `next` answered last met a
    /// conflict, and its answer, Omit or Replace: once for each such change, in their order.
    /// [`buffer`](Self::buffer) has them then. [`Error::Misuse`] where there is no change, or with Abort.
    ///
    /// ```
    /// use changecap::{Changeset, ConflictAction::Omit, KeyFlags, Rebaser};
    /// let theirs = [0x54, 2, 1, 0, b't', 0, 0x12, 0, 1, 0, 0, 0, 0, 0, 0, 0, 1, 3, 1, b'x'];
    /// let ours = [0x54, 2, 1, 0, b't', 0, 0x12, 0, 1, 0, 0, 0, 0, 0, 0, 0, 1, 3, 1, b'y'];
    /// let mut changes = Changeset::from_bytes(&theirs)?.iter()?;
    /// while let Some(change) = changes.next() {
    ///     // SQLite had a row with this key already, and its own stayed.
    ///     assert_eq!(change.table_name(), "t");
    ///     changes.answer(Omit)?;
    /// }
    /// let mut rebaser = Rebaser::new();
    /// rebaser.configure(&changes.buffer()?);
    /// let rebased = rebaser.rebase(&Changeset::from_bytes(&ours)?, KeyFlags::Places)?;
    /// assert_eq!(rebased.iter()?.next().unwrap().code(), changecap::Action::Update);
    /// # Ok::<(), changecap::Error>(())
    /// ```
    pub fn answer(&mut self, answer: ConflictAction) -> Result<()> {
        if answer == ConflictAction::Abort {
            return Err(Error::Misuse);
        }
        // SAFETY: the handle is open as long as the iterator is there.
        done(|_| unsafe { ffi::changecap_iter_answer(self.handle.at(), answer.number()) })
    }

    /// The rebase buffer of what the iterator goes over: it has the conflicts of the last
    /// [`Client::apply_iter`](crate::Client::apply_iter), if any, and of [`answer`](Self::answer) since.
    /// [`Error::Patchset`] of a patchset. Where there is no memory for the bytes they may be asked for again.
    pub fn buffer(&mut self) -> Result<RebaseBuffer> {
        let iter = self.handle.at();
        // SAFETY: the iterator is open. A buffer and a length that are of the call alone.
        let bytes = taken(256, |out, len, _| unsafe {
            ffi::changecap_iter_buffer(iter, ffi::KEYS_PLACES, out.as_mut_ptr(), out.len(), len)
        })?;
        Ok(RebaseBuffer(bytes))
    }
}

/// The text that bytes are.
fn text_in(bytes: &[u8]) -> Result<&str> {
    std::str::from_utf8(bytes).map_err(|_| Error::Misuse)
}

impl Iterator for ChangesetIter {
    type Item = Change;

    fn next(&mut self) -> Option<Change> {
        // SAFETY: the handle is open as long as the iterator is there.
        match unsafe { ffi::changecap_iter_next(self.handle.at()) } {
            // While it is at a change, the library answers each of these calls with OK, unless memory is out.
            ffi::ROW => Some(self.change().expect("a change that the library has read")),
            _ => None,
        }
    }
}

impl FusedIterator for ChangesetIter {}

/// A decoder that gets a blob in pieces of any lengths. It may go to another thread.
///
/// ```
/// use changecap::Decoder;
/// let insert = [0x54, 2, 1, 0, b't', 0, 0x12, 0, 1, 0, 0, 0, 0, 0, 0, 0, 1, 3, 1, b'x'];
/// let mut decoder = Decoder::new()?;
/// for piece in insert.chunks(7) {
///     decoder.feed(piece)?;
/// }
/// assert_eq!(decoder.finish()?.count(), 1);
/// # Ok::<(), changecap::Error>(())
/// ```
#[derive(Debug)]
pub struct Decoder {
    handle: Owned,
}

impl Decoder {
    /// A decoder without bytes.
    pub fn new() -> Result<Decoder> {
        let handle = Owned::open(ffi::changecap_decoder_close, |decoder| {
            // SAFETY: the handle is closed.
            done(|_| unsafe { ffi::changecap_decoder_open(decoder) })
        })?;
        Ok(Decoder { handle })
    }

    /// Takes the next piece. A fault that no further bytes can mend is reported with the piece that shows it,
    /// and again whatever follows; its offset is counted from the first byte of the first piece.
    pub fn feed(&mut self, piece: &[u8]) -> Result<()> {
        // SAFETY: the handle is open until `finish`, which takes the decoder.
        done(|fault| unsafe {
            ffi::changecap_decoder_feed(self.handle.at(), piece.as_ptr(), piece.len(), fault)
        })
    }

    /// An iterator before the first change of all the pieces.
    pub fn finish(self) -> Result<ChangesetIter> {
        // SAFETY: the decoder is open, and the iterator closed.
        ChangesetIter::open(|iter, fault| unsafe {
            ffi::changecap_decoder_finish(self.handle.at(), iter, fault)
        })
    }
}
