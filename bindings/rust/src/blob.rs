//! Whole blobs.
use crate::call::{done, taken, text_of};
use crate::ffi;
use crate::{Change, ChangesetIter, ConflictAction, Error, RebaseBuffer, Result};
use std::io::{Read, Write};

/// What is written at each key column: `01`, as SQLite's documentation says, or the place within the key, as
/// its code writes and its applier wants.
///
/// ```
/// use changecap::{Changeset, KeyFlags};
/// let two_keys = [0x54, 2, 1, 1, b't', 0, 0x12, 0, 3, 1, b'x', 3, 1, b'y'];
/// let changeset = Changeset::from_bytes(&two_keys)?;
/// assert_eq!(changeset.invert(KeyFlags::Ones)?.as_bytes()[..4], [0x54, 2, 1, 1]);
/// assert_eq!(changeset.invert(KeyFlags::Places)?.as_bytes()[..4], [0x54, 2, 1, 2]);
/// # Ok::<(), changecap::Error>(())
/// ```
#[derive(Clone, Copy, Debug, PartialEq, Eq)]
pub enum KeyFlags {
    /// `01` at each.
    Ones,
    /// `01`, `02` and so on.
    Places,
}

impl KeyFlags {
    pub(crate) fn number(self) -> u32 {
        match self {
            KeyFlags::Ones => ffi::KEYS_ONES,
            KeyFlags::Places => ffi::KEYS_PLACES,
        }
    }
}

/// Whether the bytes are a changeset or a patchset: [`Error::Malformed`] where they are none.
///
/// ```
/// use changecap::{check, Error, Fault};
/// assert!(check(&[]).is_ok());
/// assert!(matches!(check(b"T\x80"), Err(Error::Malformed(Fault { kind: 3, at: 1 }))));
/// ```
pub fn check(blob: &[u8]) -> Result<()> {
    // SAFETY: a slice, and a fault that is there.
    done(|fault| unsafe { ffi::changecap_check(blob.as_ptr(), blob.len(), fault) })
}

/// What a call makes of a changeset.
fn converted(call: ffi::ConvertCall, blob: &[u8], key_flags: KeyFlags) -> Result<Vec<u8>> {
    // What is made is no longer than the changeset.
    // SAFETY: a slice, and a buffer and a length that are of the call alone.
    taken(blob.len(), |out, len, fault| unsafe {
        call(blob.as_ptr(), blob.len(), key_flags.number(), out.as_mut_ptr(), out.len(), len, fault)
    })
}

/// Both blobs as one, by `changecap_concat`.
fn joined(first: &[u8], second: &[u8], key_flags: KeyFlags) -> Result<Vec<u8>> {
    // SAFETY: two slices, a buffer and a length that are of the call alone, and a place for the number.
    taken(first.len() + second.len(), |out, len, fault| unsafe {
        ffi::changecap_concat(
            first.as_ptr(),
            first.len(),
            second.as_ptr(),
            second.len(),
            key_flags.number(),
            out.as_mut_ptr(),
            out.len(),
            len,
            fault,
            &mut 0,
        )
    })
}

fn json_of(blob: &[u8]) -> Result<String> {
    // SAFETY: a slice, and a buffer and a length that are of the call alone.
    taken(4 * blob.len(), |out, len, fault| unsafe {
        ffi::changecap_json(blob.as_ptr(), blob.len(), out.as_mut_ptr(), out.len(), len, fault)
    })
    .and_then(text_of)
}

/// The bytes of a changeset.
///
/// ```
/// use changecap::{Changeset, KeyFlags};
/// let insert = [0x54, 2, 1, 0, b't', 0, 0x12, 0, 1, 0, 0, 0, 0, 0, 0, 0, 1, 3, 1, b'x'];
/// let changeset = Changeset::from_bytes(&insert)?;
/// let inverse = changeset.invert(KeyFlags::Places)?;
/// assert!(Changeset::concat(&changeset, &inverse, KeyFlags::Places)?.as_bytes().is_empty());
/// for change in changeset.iter()? {
///     assert_eq!(change.table_name(), "t");
/// }
/// # Ok::<(), changecap::Error>(())
/// ```
#[derive(Clone, Debug, PartialEq, Eq)]
pub struct Changeset(pub(crate) Vec<u8>);

/// The bytes of a patchset.
///
/// ```
/// use changecap::Patchset;
/// let delete = [0x50, 2, 1, 0, b't', 0, 0x09, 0, 1, 0, 0, 0, 0, 0, 0, 0, 1];
/// let patchset = Patchset::from_bytes(&delete)?;
/// assert!(patchset.json()?.starts_with(r#"[{"table":"t","op":"delete""#));
/// # Ok::<(), changecap::Error>(())
/// ```
#[derive(Clone, Debug, PartialEq, Eq)]
pub struct Patchset(pub(crate) Vec<u8>);

impl Changeset {
    /// The changeset with these bytes, which are checked. No bytes are a changeset without changes.
    pub fn from_bytes(bytes: &[u8]) -> Result<Changeset> {
        check(bytes)?;
        if bytes.first() == Some(&b'P') {
            return Err(Error::Patchset);
        }
        Ok(Changeset(bytes.to_vec()))
    }

    /// Its bytes.
    pub fn as_bytes(&self) -> &[u8] {
        &self.0
    }

    /// The inverse: it undoes the changes.
    pub fn invert(&self, key_flags: KeyFlags) -> Result<Changeset> {
        Ok(Changeset(converted(ffi::changecap_invert, &self.0, key_flags)?))
    }

    /// The patchset, as a session would have written it.
    pub fn patchset(&self, key_flags: KeyFlags) -> Result<Patchset> {
        Ok(Patchset(converted(ffi::changecap_patchset, &self.0, key_flags)?))
    }

    /// The concatenation of two changesets: one change for each row that both have changed.
    pub fn concat(first: &Changeset, second: &Changeset, key_flags: KeyFlags) -> Result<Changeset> {
        Ok(Changeset(joined(&first.0, &second.0, key_flags)?))
    }

    /// An array with an object for each change, and a line feed. `changecap.h` says what is in an object.
    pub fn json(&self) -> Result<String> {
        json_of(&self.0)
    }

    /// The changes, in their order.
    pub fn iter(&self) -> Result<ChangesetIter> {
        ChangesetIter::start(&self.0)
    }

    /// The rebase buffer of an application elsewhere, as by SQLite, for a [`Rebaser`](crate::Rebaser): the
    /// function answers of each change how it was answered, or `None` where it met no conflict.
    ///
    /// ```
    /// use changecap::{Changeset, ConflictAction::Omit};
    /// let insert = [0x54, 2, 1, 0, b't', 0, 0x12, 0, 1, 0, 0, 0, 0, 0, 0, 0, 1, 3, 1, b'x'];
    /// let changeset = Changeset::from_bytes(&insert)?;
    /// assert!(changeset.rebase_buffer(|_| None)?.is_empty());
    /// assert!(!changeset.rebase_buffer(|change| change.pk()[0].then_some(Omit))?.is_empty());
    /// # Ok::<(), changecap::Error>(())
    /// ```
    pub fn rebase_buffer(
        &self,
        mut answer: impl FnMut(&Change) -> Option<ConflictAction>,
    ) -> Result<RebaseBuffer> {
        let mut changes = self.iter()?;
        while let Some(change) = changes.next() {
            if let Some(answer) = answer(&change) {
                changes.answer(answer)?;
            }
        }
        changes.buffer()
    }
}

impl Patchset {
    /// The patchset with these bytes, which are checked. No bytes are a patchset without changes.
    pub fn from_bytes(bytes: &[u8]) -> Result<Patchset> {
        check(bytes)?;
        if bytes.first() == Some(&b'T') {
            return Err(Error::Changeset);
        }
        Ok(Patchset(bytes.to_vec()))
    }

    /// Its bytes.
    pub fn as_bytes(&self) -> &[u8] {
        &self.0
    }

    /// The concatenation of two patchsets: one change for each row that both have changed.
    pub fn concat(first: &Patchset, second: &Patchset, key_flags: KeyFlags) -> Result<Patchset> {
        Ok(Patchset(joined(&first.0, &second.0, key_flags)?))
    }

    /// An array with an object for each change, and a line feed. `changecap.h` says what is in an object.
    pub fn json(&self) -> Result<String> {
        json_of(&self.0)
    }

    /// The changes, in their order.
    pub fn iter(&self) -> Result<ChangesetIter> {
        ChangesetIter::start(&self.0)
    }
}

impl AsRef<[u8]> for Changeset {
    fn as_ref(&self) -> &[u8] {
        &self.0
    }
}

impl AsRef<[u8]> for Patchset {
    fn as_ref(&self) -> &[u8] {
        &self.0
    }
}

/// Inverts a changeset, with key flags as SQLite's code writes them.
///
/// ```
/// let mut insert = &[0x54, 2, 1, 0, b't', 0, 0x12, 0, 1, 0, 0, 0, 0, 0, 0, 0, 1, 3, 1, b'x'][..];
/// let mut inverse = Vec::new();
/// changecap::invert_strm(&mut insert, &mut inverse)?;
/// assert_eq!(inverse[6], 0x09);
/// # Ok::<(), changecap::Error>(())
/// ```
pub fn invert_strm(input: &mut dyn Read, output: &mut dyn Write) -> Result<()> {
    let mut bytes = Vec::new();
    input.read_to_end(&mut bytes)?;
    output.write_all(&converted(ffi::changecap_invert, &bytes, KeyFlags::Places)?)?;
    Ok(())
}
