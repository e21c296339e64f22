//! Changesets over the changes of another copy.
use crate::call::taken;
use crate::{ffi, Changeset, KeyFlags, Result};

/// The changes of an application that met a conflict, each with its answer, for a [`Rebaser`]:
/// [`ChangesetIter::buffer`](crate::ChangesetIter::buffer) makes it. It is not the rebase buffer of SQLite, which
/// has less.
///
/// ```
/// use changecap::{Changeset, ConflictAction::Replace, RebaseBuffer};
/// let insert = [0x54, 2, 1, 0, b't', 0, 0x12, 0, 1, 0, 0, 0, 0, 0, 0, 0, 1, 3, 1, b'x'];
/// let mut changes = Changeset::from_bytes(&insert)?.iter()?;
/// while changes.next().is_some() {
///     changes.answer(Replace)?;
/// }
/// let buffer = changes.buffer()?;
/// assert_eq!(RebaseBuffer::from_bytes(buffer.as_bytes())?, buffer);
/// # Ok::<(), changecap::Error>(())
/// ```
#[derive(Clone, Debug, Default, PartialEq, Eq)]
pub struct RebaseBuffer(pub(crate) Vec<u8>);

impl RebaseBuffer {
    /// The buffer with these bytes, which are checked.
    pub fn from_bytes(bytes: &[u8]) -> Result<RebaseBuffer> {
        Ok(RebaseBuffer(Changeset::from_bytes(bytes)?.0))
    }

    /// Its bytes.
    pub fn as_bytes(&self) -> &[u8] {
        &self.0
    }

    /// Whether no change met a conflict.
    pub fn is_empty(&self) -> bool {
        self.0.is_empty()
    }
}

/// Makes changesets of a copy such that they lead from the rows of the copy whose changes it has applied to its
/// own rows, as `sqlite3_rebaser` (docs/manual/applying.md, "Rebasing").
///
/// ```
/// use changecap::{Batch, Cause, ConflictAction::{Abort, Omit}, KeyFlags, Rebaser, Server, Session};
/// let servers = [Server::open_in_memory()?, Server::open_in_memory()?];
/// let mut changesets = Vec::new();
/// for (server, text) in servers.iter().zip(["of the hub", "of the client"]) {
///     server.client()?.create_table("t", &[true, false])?;
///     let session = Session::new(server)?;
///     session.attach(None)?;
///     server.transaction(|t| t.insert("t", (1, text), Cause::Direct))?;
///     changesets.push(session.capture()?.changeset(KeyFlags::Places)?);
/// }
/// let ([hub, client], [theirs, ours]) = (&servers, &changesets[..]) else { panic!() };
///
/// // The client keeps its row.
/// let mut changes = theirs.iter()?;
/// client.client()?.apply_iter(&mut changes, Omit, Omit, Omit)?;
/// let mut rebaser = Rebaser::new();
/// rebaser.configure(&changes.buffer()?);
///
/// // And the hub gets it.
/// let rebased = rebaser.rebase(ours, KeyFlags::Places)?;
/// hub.client()?.apply(&rebased, Abort, Abort, Abort)?;
/// let row = hub.client()?.snapshot()?.get("t", (1,))?.unwrap();
/// assert_eq!(row.get::<String>(1)?, "of the client");
/// # Ok::<(), changecap::Error>(())
/// ```
#[derive(Clone, Debug, Default)]
pub struct Rebaser {
    buffers: Vec<u8>,
}

impl Rebaser {
    /// A rebaser without buffers.
    pub fn new() -> Rebaser {
        Rebaser::default()
    }

    /// Takes the buffer of an application, behind those of earlier ones.
    pub fn configure(&mut self, buffer: &RebaseBuffer) {
        self.buffers.extend_from_slice(&buffer.0);
    }

    /// The changeset over the buffers. It has all that the copy has changed since it was as the other one:
    /// several are concatenated first. [`Error::OtherColumns`](crate::Error::OtherColumns) where a table has
    /// other columns, or another key, in a buffer.
    pub fn rebase(&self, changeset: &Changeset, key_flags: KeyFlags) -> Result<Changeset> {
        let (changeset, buffers) = (&changeset.0, &self.buffers);
        // SAFETY: two slices, a buffer and a length that are of the call alone, and a place for the number.
        let rebased = taken(changeset.len() + buffers.len(), |out, len, fault| unsafe {
            ffi::changecap_rebase(
                changeset.as_ptr(),
                changeset.len(),
                buffers.as_ptr(),
                buffers.len(),
                key_flags.number(),
                out.as_mut_ptr(),
                out.len(),
                len,
                fault,
                &mut 0,
            )
        })?;
        Ok(Changeset(rebased))
    }
}
