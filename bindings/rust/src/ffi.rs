//! The numbers, the structures and the calls of changecap.h.
#![allow(dead_code)] // The numbers are here as the header has them, also one that is not asked for.

pub const OK: u32 = 0;
pub const MALFORMED: u32 = 1;
pub const ROOM: u32 = 2;
pub const NOMEM: u32 = 3;
pub const PATCHSET: u32 = 4;
pub const MISUSE: u32 = 5;
pub const REFUSED: u32 = 6;
pub const COMMAND: u32 = 7;
pub const FULL: u32 = 8;
pub const KIND: u32 = 9;
pub const COLUMNS: u32 = 10;
pub const FILTER: u32 = 11;
pub const BUSY: u32 = 12;
pub const OVERTAKEN: u32 = 13;
pub const CLIENTS: u32 = 14;
pub const ROW: u32 = 100;
pub const DONE: u32 = 101;

pub const KEYS_ONES: u32 = 0;
pub const KEYS_PLACES: u32 = 1;

pub const DELETE: u32 = 9;
pub const INSERT: u32 = 18;
pub const UPDATE: u32 = 23;

pub const UNDEFINED: u32 = 0;
pub const INTEGER: u32 = 1;
pub const TEXT: u32 = 3;
pub const BLOB: u32 = 4;
pub const NULL: u32 = 5;

pub const OMIT: u32 = 0;
pub const REPLACE: u32 = 1;
pub const ABORT: u32 = 2;

pub const DATA: u32 = 1;
pub const NOTFOUND: u32 = 2;
pub const CONFLICT: u32 = 3;

pub const ASK: u32 = 2;

pub const DIRECT: u32 = 0;
pub const CASCADE: u32 = 1;

pub const ITEM_TABLE: u32 = 0;
pub const ITEM_ROW: u32 = 1;
pub const ITEM_SCAN: u32 = 2;
pub const ITEM_NEXT_ID: u32 = 3;

#[repr(C)]
#[derive(Default, Clone, Copy)]
pub struct Fault {
    pub kind: u32,
    pub at: usize,
}

#[repr(C)]
#[derive(Default, Clone, Copy)]
pub struct Change {
    pub op: u32,
    pub indirect: u32,
    pub patchset: u32,
    pub columns: usize,
}

#[repr(C)]
#[derive(Default, Clone, Copy)]
pub struct Item {
    pub kind: u32,
    pub id: u64,
}

#[repr(C)]
#[derive(Default, Clone, Copy)]
pub struct Report {
    pub version: u64,
    pub applied: u64,
    pub conflicts: u64,
    pub omitted: u64,
    pub skipped: u64,
}

#[repr(C)]
#[derive(Default, Clone, Copy)]
pub struct Passed {
    pub groups: u64,
    pub changes: u64,
}

/// A `changecap_options`: each pointer is read only where the number behind it is not 0.
#[repr(C)]
pub struct Options {
    pub filter: *const u8,
    pub filter_n: usize,
    pub quiet: *const u64,
    pub quiet_n: usize,
}

/// A `changecap_client`: `at` is null while it is closed.
#[repr(C)]
#[derive(Debug)]
pub struct Client {
    pub at: *mut u8,
    pub shared: *mut u8,
}

// SAFETY: a client may go to another thread between two calls that are ordered. What the clients of a history
// have in common has a lock of its own, so calls of two clients may run at once.
unsafe impl Send for Client {}

impl Client {
    pub const CLOSED: Client = Client { at: std::ptr::null_mut(), shared: std::ptr::null_mut() };
}

/// A handle of any other kind, as a `changecap_iter` or a `changecap_batch`: null while it is closed.
#[repr(C)]
pub struct Handle {
    pub at: *mut u8,
}

impl Handle {
    pub const CLOSED: Handle = Handle { at: std::ptr::null_mut() };
}

pub type CloseCall = unsafe extern "C" fn(*mut Handle);
pub type FlagCall = unsafe extern "C" fn(*mut Client, u64, u32, *mut u32, *mut Fault) -> u32;
pub type CaptureCall = unsafe extern "C" fn(*mut Client, u64, *mut Handle, *mut Fault) -> u32;
pub type WriteCall = unsafe extern "C" fn(*mut Handle, u32, *mut u8, usize, *mut usize) -> u32;
pub type ConvertCall =
    unsafe extern "C" fn(*const u8, usize, u32, *mut u8, usize, *mut usize, *mut Fault) -> u32;
/// The record of one side of a change.
pub type RecordCall = unsafe extern "C" fn(*mut Handle, *mut u8, usize, *mut usize) -> u32;
/// An insert into a batch or a transaction.
pub type InsertCall =
    unsafe extern "C" fn(*mut Handle, *const u8, usize, *const u8, usize, u32, *mut Fault) -> u32;
pub type UpdateCall = unsafe extern "C" fn(
    *mut Handle,
    *const u8,
    usize,
    *const u8,
    usize,
    u64,
    *const u8,
    usize,
    u32,
    *mut Fault,
) -> u32;
pub type DeleteCall =
    unsafe extern "C" fn(*mut Handle, *const u8, usize, *const u8, usize, u64, u32, *mut Fault) -> u32;
/// A read of a snapshot or a transaction.
pub type GetCall = unsafe extern "C" fn(
    *mut Handle,
    *const u8,
    usize,
    *const u8,
    usize,
    u64,
    *mut Handle,
    *mut Fault,
) -> u32;
pub type ScanCall = unsafe extern "C" fn(*mut Handle, *const u8, usize, *mut Handle, *mut Fault) -> u32;

unsafe extern "C" {
    pub fn changecap_check(blob: *const u8, n: usize, fault: *mut Fault) -> u32;
    pub fn changecap_invert(
        blob: *const u8,
        n: usize,
        key_flags: u32,
        out: *mut u8,
        room: usize,
        len: *mut usize,
        fault: *mut Fault,
    ) -> u32;
    pub fn changecap_patchset(
        blob: *const u8,
        n: usize,
        key_flags: u32,
        out: *mut u8,
        room: usize,
        len: *mut usize,
        fault: *mut Fault,
    ) -> u32;
    pub fn changecap_concat(
        first: *const u8,
        n: usize,
        second: *const u8,
        m: usize,
        key_flags: u32,
        out: *mut u8,
        room: usize,
        len: *mut usize,
        fault: *mut Fault,
        blob: *mut usize,
    ) -> u32;
    pub fn changecap_json(
        blob: *const u8,
        n: usize,
        out: *mut u8,
        room: usize,
        len: *mut usize,
        fault: *mut Fault,
    ) -> u32;

    pub fn changecap_rebase(
        changeset: *const u8,
        n: usize,
        buffers: *const u8,
        m: usize,
        key_flags: u32,
        out: *mut u8,
        room: usize,
        len: *mut usize,
        fault: *mut Fault,
        blob: *mut usize,
    ) -> u32;

    pub fn changecap_iter_open(blob: *const u8, n: usize, iter: *mut Handle, fault: *mut Fault) -> u32;
    pub fn changecap_iter_next(iter: *mut Handle) -> u32;
    pub fn changecap_iter_op(iter: *mut Handle, change: *mut Change) -> u32;
    pub fn changecap_iter_table(iter: *mut Handle, out: *mut u8, room: usize, len: *mut usize) -> u32;
    pub fn changecap_iter_key(iter: *mut Handle, column: usize, key: *mut u32) -> u32;
    pub fn changecap_iter_old_record(iter: *mut Handle, out: *mut u8, room: usize, len: *mut usize) -> u32;
    pub fn changecap_iter_new_record(iter: *mut Handle, out: *mut u8, room: usize, len: *mut usize) -> u32;
    pub fn changecap_iter_answer(iter: *mut Handle, answer: u32) -> u32;
    pub fn changecap_iter_buffer(
        iter: *mut Handle,
        key_flags: u32,
        out: *mut u8,
        room: usize,
        len: *mut usize,
    ) -> u32;
    pub fn changecap_iter_close(iter: *mut Handle);

    pub fn changecap_decoder_open(decoder: *mut Handle) -> u32;
    pub fn changecap_decoder_feed(decoder: *mut Handle, piece: *const u8, n: usize, fault: *mut Fault)
        -> u32;
    pub fn changecap_decoder_finish(decoder: *mut Handle, iter: *mut Handle, fault: *mut Fault) -> u32;
    pub fn changecap_decoder_close(decoder: *mut Handle);

    pub fn changecap_open(client: *mut Client) -> u32;
    pub fn changecap_join(client: *mut Client, of: *mut Client) -> u32;
    pub fn changecap_close(client: *mut Client);
    pub fn changecap_front(client: *mut Client, events: *mut u64) -> u32;
    pub fn changecap_call(client: *mut Client, text: *const u8, n: usize, fault: *mut Fault) -> u32;
    pub fn changecap_reply(client: *mut Client, out: *mut u8, room: usize, len: *mut usize) -> u32;

    pub fn changecap_create(
        client: *mut Client,
        table: *const u8,
        n: usize,
        key: *const u8,
        columns: usize,
        version: *mut u64,
        fault: *mut Fault,
    ) -> u32;
    pub fn changecap_save(client: *mut Client, database: *const u8, n: usize, fault: *mut Fault) -> u32;
    pub fn changecap_apply(
        client: *mut Client,
        blob: *const u8,
        n: usize,
        data: u32,
        notfound: u32,
        conflict: u32,
        report: *mut Report,
        fault: *mut Fault,
    ) -> u32;
    pub fn changecap_load(
        client: *mut Client,
        blob: *const u8,
        n: usize,
        report: *mut Report,
        fault: *mut Fault,
    ) -> u32;
    pub fn changecap_apply_iter(
        client: *mut Client,
        iter: *mut Handle,
        data: u32,
        notfound: u32,
        conflict: u32,
        report: *mut Report,
        fault: *mut Fault,
    ) -> u32;
    pub fn changecap_apply_with(
        client: *mut Client,
        blob: *const u8,
        n: usize,
        data: u32,
        notfound: u32,
        conflict: u32,
        options: *const Options,
        report: *mut Report,
        passed: *mut Passed,
        fault: *mut Fault,
    ) -> u32;
    pub fn changecap_apply_iter_with(
        client: *mut Client,
        iter: *mut Handle,
        data: u32,
        notfound: u32,
        conflict: u32,
        options: *const Options,
        report: *mut Report,
        passed: *mut Passed,
        fault: *mut Fault,
    ) -> u32;
    pub fn changecap_session_new(client: *mut Client, session: *mut u64, fault: *mut Fault) -> u32;
    pub fn changecap_session_drop(client: *mut Client, session: u64, fault: *mut Fault) -> u32;
    pub fn changecap_session_attach(
        client: *mut Client,
        session: u64,
        table: *const u8,
        n: usize,
        fault: *mut Fault,
    ) -> u32;
    pub fn changecap_session_attach_all(client: *mut Client, session: u64, fault: *mut Fault) -> u32;
    pub fn changecap_session_filter(
        client: *mut Client,
        session: u64,
        text: *const u8,
        n: usize,
        fault: *mut Fault,
    ) -> u32;
    pub fn changecap_session_diff(
        client: *mut Client,
        session: u64,
        from: *const u8,
        n: usize,
        table: *const u8,
        m: usize,
        fault: *mut Fault,
    ) -> u32;
    pub fn changecap_session_enable(
        client: *mut Client,
        session: u64,
        set: u32,
        flag: *mut u32,
        fault: *mut Fault,
    ) -> u32;
    pub fn changecap_session_indirect(
        client: *mut Client,
        session: u64,
        set: u32,
        flag: *mut u32,
        fault: *mut Fault,
    ) -> u32;
    pub fn changecap_session_isempty(
        client: *mut Client,
        session: u64,
        flag: *mut u32,
        fault: *mut Fault,
    ) -> u32;
    pub fn changecap_session_capture(
        client: *mut Client,
        session: u64,
        capture: *mut Handle,
        fault: *mut Fault,
    ) -> u32;
    pub fn changecap_session_restart(
        client: *mut Client,
        session: u64,
        capture: *mut Handle,
        fault: *mut Fault,
    ) -> u32;
    pub fn changecap_capture_version(capture: *mut Handle, version: *mut u64) -> u32;
    pub fn changecap_capture_changeset(
        capture: *mut Handle,
        key_flags: u32,
        out: *mut u8,
        room: usize,
        len: *mut usize,
    ) -> u32;
    pub fn changecap_capture_patchset(
        capture: *mut Handle,
        key_flags: u32,
        out: *mut u8,
        room: usize,
        len: *mut usize,
    ) -> u32;
    pub fn changecap_capture_close(capture: *mut Handle);

    pub fn changecap_batch_open(batch: *mut Handle) -> u32;
    pub fn changecap_batch_open_at(batch: *mut Handle, version: u64) -> u32;
    pub fn changecap_batch_clear(batch: *mut Handle);
    pub fn changecap_batch_close(batch: *mut Handle);
    pub fn changecap_insert(
        batch: *mut Handle,
        table: *const u8,
        n: usize,
        row: *const u8,
        len: usize,
        cause: u32,
        fault: *mut Fault,
    ) -> u32;
    pub fn changecap_update(
        batch: *mut Handle,
        table: *const u8,
        n: usize,
        key: *const u8,
        m: usize,
        id: u64,
        fields: *const u8,
        len: usize,
        cause: u32,
        fault: *mut Fault,
    ) -> u32;
    pub fn changecap_delete(
        batch: *mut Handle,
        table: *const u8,
        n: usize,
        key: *const u8,
        m: usize,
        id: u64,
        cause: u32,
        fault: *mut Fault,
    ) -> u32;
    pub fn changecap_commit(
        client: *mut Client,
        batch: *mut Handle,
        version: *mut u64,
        fault: *mut Fault,
    ) -> u32;

    pub fn changecap_commit_captured(
        client: *mut Client,
        batch: *mut Handle,
        session: u64,
        version: *mut u64,
        capture: *mut Handle,
        fault: *mut Fault,
    ) -> u32;

    pub fn changecap_batch_item(batch: *mut Handle, at: usize, item: *mut Item) -> u32;
    pub fn changecap_batch_item_table(
        batch: *mut Handle,
        at: usize,
        out: *mut u8,
        room: usize,
        len: *mut usize,
    ) -> u32;
    pub fn changecap_batch_item_key(
        batch: *mut Handle,
        at: usize,
        out: *mut u8,
        room: usize,
        len: *mut usize,
    ) -> u32;

    pub fn changecap_snapshot_open(client: *mut Client, snapshot: *mut Handle) -> u32;
    pub fn changecap_snapshot_version(snapshot: *mut Handle, version: *mut u64) -> u32;
    pub fn changecap_snapshot_close(snapshot: *mut Handle);
    pub fn changecap_dump(
        snapshot: *mut Handle,
        table: *const u8,
        n: usize,
        key_flags: u32,
        out: *mut u8,
        room: usize,
        len: *mut usize,
    ) -> u32;
    pub fn changecap_get(
        snapshot: *mut Handle,
        table: *const u8,
        n: usize,
        key: *const u8,
        m: usize,
        id: u64,
        rows: *mut Handle,
        fault: *mut Fault,
    ) -> u32;
    pub fn changecap_scan(
        snapshot: *mut Handle,
        table: *const u8,
        n: usize,
        rows: *mut Handle,
        fault: *mut Fault,
    ) -> u32;
    pub fn changecap_scan_from(
        snapshot: *mut Handle,
        table: *const u8,
        n: usize,
        key: *const u8,
        m: usize,
        limit: u64,
        rows: *mut Handle,
        fault: *mut Fault,
    ) -> u32;

    pub fn changecap_step(rows: *mut Handle) -> u32;
    pub fn changecap_row_id(rows: *mut Handle, id: *mut u64) -> u32;
    pub fn changecap_row(rows: *mut Handle, out: *mut u8, room: usize, len: *mut usize) -> u32;
    pub fn changecap_rows_close(rows: *mut Handle);

    pub fn changecap_begin(snapshot: *mut Handle, transaction: *mut Handle) -> u32;
    pub fn changecap_rollback(transaction: *mut Handle);
    pub fn changecap_transaction_insert(
        transaction: *mut Handle,
        table: *const u8,
        n: usize,
        row: *const u8,
        len: usize,
        cause: u32,
        fault: *mut Fault,
    ) -> u32;
    pub fn changecap_transaction_update(
        transaction: *mut Handle,
        table: *const u8,
        n: usize,
        key: *const u8,
        m: usize,
        id: u64,
        fields: *const u8,
        len: usize,
        cause: u32,
        fault: *mut Fault,
    ) -> u32;
    pub fn changecap_transaction_delete(
        transaction: *mut Handle,
        table: *const u8,
        n: usize,
        key: *const u8,
        m: usize,
        id: u64,
        cause: u32,
        fault: *mut Fault,
    ) -> u32;
    pub fn changecap_transaction_get(
        transaction: *mut Handle,
        table: *const u8,
        n: usize,
        key: *const u8,
        m: usize,
        id: u64,
        rows: *mut Handle,
        fault: *mut Fault,
    ) -> u32;
    pub fn changecap_transaction_scan(
        transaction: *mut Handle,
        table: *const u8,
        n: usize,
        rows: *mut Handle,
        fault: *mut Fault,
    ) -> u32;
    pub fn changecap_savepoint(transaction: *mut Handle, mark: *mut u64, fault: *mut Fault) -> u32;
    pub fn changecap_rollback_to(transaction: *mut Handle, mark: u64, fault: *mut Fault) -> u32;
    pub fn changecap_end(transaction: *mut Handle, batch: *mut Handle) -> u32;

    pub fn changecap_apply_open(
        snapshot: *mut Handle,
        blob: *const u8,
        n: usize,
        filter: *const u8,
        m: usize,
        application: *mut Handle,
        fault: *mut Fault,
    ) -> u32;
    pub fn changecap_apply_step(application: *mut Handle) -> u32;
    pub fn changecap_apply_kind(application: *mut Handle, kind: *mut u32) -> u32;
    pub fn changecap_apply_number(application: *mut Handle, number: *mut u64) -> u32;
    pub fn changecap_apply_present(
        application: *mut Handle,
        out: *mut u8,
        room: usize,
        len: *mut usize,
    ) -> u32;
    pub fn changecap_apply_answer(application: *mut Handle, answer: u32, fault: *mut Fault) -> u32;
    pub fn changecap_apply_answer_row(
        application: *mut Handle,
        row: *const u8,
        n: usize,
        fault: *mut Fault,
    ) -> u32;
    pub fn changecap_apply_end(application: *mut Handle, batch: *mut Handle, fault: *mut Fault) -> u32;
    pub fn changecap_apply_report(application: *mut Handle, report: *mut Report) -> u32;
    pub fn changecap_apply_buffer(
        application: *mut Handle,
        key_flags: u32,
        out: *mut u8,
        room: usize,
        len: *mut usize,
    ) -> u32;
    pub fn changecap_apply_close(application: *mut Handle);
}
