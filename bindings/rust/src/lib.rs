//! A table server in memory that any threads share, and what its sessions capture: changesets and patchsets
//! of SQLite's session extension, under the names of rusqlite and its session module. The calls are those of
//! `changecap.h`.
//!
//! ```
//! use changecap::{Cause, ConflictAction::Abort, KeyFlags, Server, Session};
//! let server = Server::open_in_memory()?;
//! server.client()?.create_table("t", &[true, false])?;
//! let session = Session::new(&server)?;
//! session.attach(None)?;
//! let ((), version) = server.transaction(|t| t.insert("t", (1, "x"), Cause::Direct))?;
//! let changeset = session.capture()?.changeset(KeyFlags::Places)?;
//!
//! let copy = Server::open_in_memory()?.client()?;
//! copy.create_table("t", &[true, false])?;
//! assert_eq!(copy.apply(&changeset, Abort, Abort, Abort)?.version, version);
//! assert_eq!(copy.snapshot()?.get("t", (1,))?.unwrap().get::<String>(1)?, "x");
//! # Ok::<(), changecap::Error>(())
//! ```
#![warn(missing_docs, missing_debug_implementations, clippy::undocumented_unsafe_blocks)]

mod application;
mod batch;
mod blob;
mod call;
mod capture;
mod client;
mod error;
mod ffi;
mod handle;
mod iter;
mod options;
mod params;
mod pool;
mod rebase;
mod record;
mod refused;
mod row;
mod server;
mod session;
mod snapshot;
mod transaction;
mod value;

pub use application::{ChangesetItem, ConflictAnswer, ConflictType};
pub use batch::{Batch, Cause};
pub use blob::{check, invert_strm, Changeset, KeyFlags, Patchset};
pub use capture::Capture;
pub use client::{Client, ConflictAction, Report};
pub use error::{Error, Fault, Result};
pub use iter::{Action, Change, ChangesetIter, Decoder};
pub use options::{ApplyOptions, Passed};
pub use params::{Params, RowId, RowName};
pub use rebase::{RebaseBuffer, Rebaser};
pub use refused::{Item, ItemKind, Refusal, Refused, RefusedChange};
pub use row::{Row, Rows};
pub use server::Server;
pub use session::{Captures, Session};
pub use snapshot::Snapshot;
pub use transaction::{Savepoint, Transaction, TRIES};
pub use value::{FromValue, ToValue, Value, ValueRef};
