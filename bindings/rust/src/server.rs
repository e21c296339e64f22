//! A table server in memory.
use crate::pool::Pool;
use crate::transaction::retried;
use crate::{Client, Result, Transaction};
use std::sync::Arc;

/// A table server in memory, whose history any threads share. It lends clients, which make its calls. A clone
/// is the same server; it ends with the last of its clones, clients and sessions.
///
/// ```
/// use changecap::{Cause, Server};
/// let server = Server::open_in_memory()?;
/// server.client()?.create_table("t", &[true, false])?;
/// std::thread::scope(|scope| {
///     for thread in 0..4 {
///         let server = &server;
///         scope.spawn(move || server.transaction(|t| t.insert("t", (thread, "x"), Cause::Direct)).unwrap());
///     }
/// });
/// assert_eq!(server.client()?.snapshot()?.scan("t")?.count(), 4);
/// # Ok::<(), changecap::Error>(())
/// ```
#[derive(Clone, Debug)]
pub struct Server {
    pub(crate) pool: Arc<Pool>,
}

impl Server {
    /// A new server, which is empty.
    pub fn open_in_memory() -> Result<Server> {
        Ok(Server { pool: Pool::open()?.into() })
    }

    /// Lends a client, which has then seen all that was answered before. As many as 63 are lent at once;
    /// where all are, it waits until one is dropped, on any thread. A thread that waits here while it holds
    /// the others waits for ever. No other call waits for a client.
    pub fn client(&self) -> Result<Client> {
        Client::lent(Arc::clone(&self.pool))
    }

    /// Makes work in a transaction, commits it, and answers what the work did and the new version. Where
    /// something that the transaction looked at has changed meanwhile, both are made again on a new snapshot,
    /// [`TRIES`](crate::TRIES) times at most; the last refusal is answered then. An error of the work rolls
    /// the transaction back.
    ///
    /// No client is held while the work runs.
    pub fn transaction<T>(&self, work: impl FnMut(&mut Transaction) -> Result<T>) -> Result<(T, u64)> {
        retried(&self.pool, work, |batch| {
            let mut version = 0;
            self.pool.with(|client| {
                // SAFETY: the client and the batch are open, and no other call has them.
                batch.committed(|batch, fault| unsafe {
                    crate::ffi::changecap_commit(client, batch, &mut version, fault)
                })
            })?;
            Ok(version)
        })
    }
}
