//! The clients of a history, which it has at most 64 of.
use crate::call::done;
use crate::handle::Owned;
use crate::{ffi, Result, Snapshot};
use std::sync::{Condvar, Mutex, MutexGuard, PoisonError};

/// How many clients are lent at most. One more is the pool's own.
const LENT_MAX: usize = 63;

/// One client that is never lent, by which sessions and transactions make their calls, and those that are.
/// They are closed with the pool, when none is lent.
#[derive(Debug)]
pub(crate) struct Pool {
    own: Mutex<ffi::Client>,
    seats: Mutex<Seats>,
    returned: Condvar,
}

/// The clients but the pool's own.
#[derive(Debug)]
struct Seats {
    /// Those that are not lent.
    idle: Vec<ffi::Client>,
    /// How many there are in all.
    open: usize,
}

/// Locks what no panic leaves half changed.
fn locked<T>(mutex: &Mutex<T>) -> MutexGuard<'_, T> {
    mutex.lock().unwrap_or_else(PoisonError::into_inner)
}

/// Lets a client see the history as it is: all that was answered before, on any thread.
fn refreshed(client: &mut ffi::Client) {
    // SAFETY: the client is open, and `&mut` says that no other call has it. The call has one answer, OK.
    unsafe { ffi::changecap_front(client, &mut 0) };
}

impl Pool {
    /// The pool of a new history.
    pub(crate) fn open() -> Result<Pool> {
        let mut own = ffi::Client::CLOSED;
        // SAFETY: the client is closed.
        done(|_| unsafe { ffi::changecap_open(&mut own) })?;
        let seats = Seats { idle: Vec::with_capacity(LENT_MAX), open: 0 };
        Ok(Pool { own: own.into(), seats: seats.into(), returned: Condvar::new() })
    }

    /// What a function makes of the pool's own client, which is open, while no other call has it.
    pub(crate) fn with<T>(&self, call: impl FnOnce(&mut ffi::Client) -> T) -> T {
        let mut own = locked(&self.own);
        refreshed(&mut own);
        call(&mut own)
    }

    /// Makes a call that has a fault by the pool's own client.
    pub(crate) fn done(&self, call: impl FnOnce(&mut ffi::Client, &mut ffi::Fault) -> u32) -> Result<()> {
        self.with(|client| done(|fault| call(client, fault)))
    }

    /// A snapshot of the tables as they are, by the pool's own client.
    pub(crate) fn snapshot(&self) -> Result<Snapshot> {
        self.with(snapshot)
    }

    /// A client to lend. Where all are lent it waits until one comes back.
    pub(crate) fn take(&self) -> Result<ffi::Client> {
        let mut seats = locked(&self.seats);
        loop {
            if let Some(mut client) = seats.idle.pop() {
                drop(seats);
                refreshed(&mut client);
                return Ok(client);
            }
            if seats.open < LENT_MAX {
                seats.open += 1;
                drop(seats);
                return self.joined();
            }
            seats = self.returned.wait(seats).unwrap_or_else(PoisonError::into_inner);
        }
    }

    /// A further client, which is counted already.
    fn joined(&self) -> Result<ffi::Client> {
        let mut client = ffi::Client::CLOSED;
        // SAFETY: the client is closed, and the pool's own one is open.
        let joined = self.done(|own, _| unsafe { ffi::changecap_join(&mut client, own) });
        if let Err(why) = joined {
            locked(&self.seats).open -= 1;
            self.returned.notify_one();
            return Err(why);
        }
        Ok(client)
    }

    /// Takes back a client that was lent.
    pub(crate) fn put(&self, client: ffi::Client) {
        locked(&self.seats).idle.push(client);
        self.returned.notify_one();
    }
}

impl Drop for Pool {
    fn drop(&mut self) {
        let seats = self.seats.get_mut().unwrap_or_else(PoisonError::into_inner);
        let own = self.own.get_mut().unwrap_or_else(PoisonError::into_inner);
        for client in seats.idle.iter_mut().chain([own]) {
            // SAFETY: the client is open, and no call has it, since nobody has the pool.
            unsafe { ffi::changecap_close(client) }
        }
    }
}

/// A snapshot of the tables as they are, by a client that is open.
pub(crate) fn snapshot(client: &mut ffi::Client) -> Result<Snapshot> {
    let handle = Owned::open(ffi::changecap_snapshot_close, |snapshot| {
        // SAFETY: the client is open, and `&mut` says that no other call has it. The snapshot is closed.
        done(|_| unsafe { ffi::changecap_snapshot_open(client, snapshot) })
    })?;
    Ok(Snapshot { handle })
}
