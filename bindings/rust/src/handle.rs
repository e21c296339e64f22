//! Handles that are closed in the end.
use crate::{ffi, Result};
use std::cell::UnsafeCell;
use std::fmt;

/// A handle, closed when it is dropped. A call has it by `at` for as long as the call runs. It is not `Sync`,
/// so no other thread makes a call on it meanwhile, and no call of the library calls back into this crate.
pub(crate) struct Owned {
    handle: UnsafeCell<ffi::Handle>,
    close: ffi::CloseCall,
}

// SAFETY: a handle may go to another thread between two calls that are ordered, and a move to another thread
// orders those before it and those behind it.
unsafe impl Send for Owned {}

impl Owned {
    /// A handle that a call may open, and the call that closes handles of its kind.
    pub(crate) fn closed(close: ffi::CloseCall) -> Owned {
        Owned { handle: ffi::Handle::CLOSED.into(), close }
    }

    /// The handle that a call opens.
    pub(crate) fn open(
        close: ffi::CloseCall,
        call: impl FnOnce(*mut ffi::Handle) -> Result<()>,
    ) -> Result<Owned> {
        let owned = Owned::closed(close);
        call(owned.at())?;
        Ok(owned)
    }

    pub(crate) fn at(&self) -> *mut ffi::Handle {
        self.handle.get()
    }
}

impl fmt::Debug for Owned {
    fn fmt(&self, f: &mut fmt::Formatter<'_>) -> fmt::Result {
        f.write_str("Owned")
    }
}

impl Drop for Owned {
    fn drop(&mut self) {
        if !self.handle.get_mut().at.is_null() {
            // SAFETY: the handle is open, and no call has it.
            unsafe { (self.close)(self.at()) }
        }
    }
}
