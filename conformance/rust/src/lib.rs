//! SQLite with its session extension: the calls of its library that the recipe synchronise makes. rusqlite, which no
//! build here asks a registry for, has most of them.
use std::collections::HashMap;
use std::ffi::{c_char, c_int, c_void, CStr, CString};
use std::ptr::{null, null_mut};

type OnConflict = unsafe extern "C" fn(*mut c_void, c_int, *mut c_void) -> c_int;
type OnValue = unsafe extern "C" fn(*mut c_void, c_int, *mut *mut c_void) -> c_int;
type OnRow = unsafe extern "C" fn(*mut c_void, c_int, *mut *mut c_char, *mut *mut c_char) -> c_int;

#[link(name = "sqlite3")]
unsafe extern "C" {
    fn sqlite3_open(name: *const c_char, database: *mut *mut c_void) -> c_int;
    fn sqlite3_close(database: *mut c_void) -> c_int;
    fn sqlite3_exec(
        database: *mut c_void,
        sql: *const c_char,
        on_row: Option<OnRow>,
        context: *mut c_void,
        message: *mut *mut c_char,
    ) -> c_int;
    fn sqlite3_free(at: *mut c_void);
    fn sqlite3_value_int64(value: *mut c_void) -> i64;
    fn sqlite3session_create(database: *mut c_void, name: *const c_char, session: *mut *mut c_void) -> c_int;
    fn sqlite3session_attach(session: *mut c_void, table: *const c_char) -> c_int;
    fn sqlite3session_changeset(session: *mut c_void, n: *mut c_int, at: *mut *mut c_void) -> c_int;
    fn sqlite3session_delete(session: *mut c_void);
    fn sqlite3changeset_apply(
        database: *mut c_void,
        n: c_int,
        at: *const c_void,
        filter: *const c_void,
        on_conflict: OnConflict,
        context: *mut c_void,
    ) -> c_int;
    fn sqlite3changeset_op(
        change: *mut c_void,
        table: *mut *const c_char,
        columns: *mut c_int,
        op: *mut c_int,
        indirect: *mut c_int,
    ) -> c_int;
    fn sqlite3changeset_old(change: *mut c_void, column: c_int, value: *mut *mut c_void) -> c_int;
    fn sqlite3changeset_new(change: *mut c_void, column: c_int, value: *mut *mut c_void) -> c_int;
    fn sqlite3changeset_conflict(change: *mut c_void, column: c_int, value: *mut *mut c_void) -> c_int;
}

const INSERT: c_int = 18;

/// A change that has met a conflict, as long as it is decided.
pub struct Conflict {
    change: *mut c_void,
}

impl Conflict {
    /// The change's table.
    pub fn table(&self) -> String {
        // SAFETY: the name is there as long as the change.
        unsafe { CStr::from_ptr(self.op().0) }.to_str().unwrap().to_owned()
    }

    /// The integer of a column of the row before the change, or of an inserted one.
    pub fn key(&self, column: i32) -> i64 {
        let of = if self.op().1 == INSERT { sqlite3changeset_new } else { sqlite3changeset_old };
        self.integer(of, column).unwrap()
    }

    /// The integer of a column after the change. A deletion has none.
    pub fn new(&self, column: i32) -> Option<i64> {
        self.integer(sqlite3changeset_new, column)
    }

    /// The integer of a column of the row that is there, if one is.
    pub fn row(&self, column: i32) -> Option<i64> {
        self.integer(sqlite3changeset_conflict, column)
    }

    fn op(&self) -> (*const c_char, c_int) {
        let (mut table, mut columns, mut op, mut indirect) = (null(), 0, 0, 0);
        // SAFETY: the change is there, and places of this function.
        let code =
            unsafe { sqlite3changeset_op(self.change, &mut table, &mut columns, &mut op, &mut indirect) };
        assert_eq!(code, 0);
        (table, op)
    }

    fn integer(&self, call: OnValue, column: i32) -> Option<i64> {
        let mut value = null_mut();
        // SAFETY: the change is there, and a place of this function; the value is there where it is set.
        let code = unsafe { call(self.change, column, &mut value) };
        (code == 0 && !value.is_null()).then(|| unsafe { sqlite3_value_int64(value) })
    }
}

/// A database in memory, and a session on all of its tables.
pub struct Database {
    at: *mut c_void,
    session: *mut c_void,
}

/// What decides whether a change in conflict is made.
type Decide<'a> = &'a mut dyn FnMut(&Conflict) -> bool;

impl Database {
    pub fn open() -> Database {
        let mut made = Database { at: null_mut(), session: null_mut() };
        // SAFETY: a string with a zero byte at its end, and a place of this function.
        assert_eq!(unsafe { sqlite3_open(c":memory:".as_ptr(), &mut made.at) }, 0);
        made
    }

    /// Runs statements, and answers the values of the rows as texts.
    pub fn execute(&self, sql: &str) -> Vec<Vec<String>> {
        let (sql, mut rows) = (CString::new(sql).unwrap(), Vec::new());
        let context: *mut Vec<Vec<String>> = &mut rows;
        // SAFETY: the database is open, and the context is what `note_row` takes.
        let code = unsafe { sqlite3_exec(self.at, sql.as_ptr(), Some(note_row), context.cast(), null_mut()) };
        assert_eq!(code, 0, "{sql:?}");
        rows
    }

    /// Begins the session, which has ended, or was not there.
    pub fn begin_session(&mut self) {
        // SAFETY: the database is open, and a place of this object.
        unsafe {
            assert_eq!(sqlite3session_create(self.at, c"main".as_ptr(), &mut self.session), 0);
            assert_eq!(sqlite3session_attach(self.session, null()), 0);
        }
    }

    /// Ends the session, and answers what it has captured.
    pub fn end_session(&mut self) -> Vec<u8> {
        let (mut n, mut at) = (0, null_mut());
        // SAFETY: the session is there, and SQLite answers so many bytes, or null where there is none.
        unsafe {
            assert_eq!(sqlite3session_changeset(self.session, &mut n, &mut at), 0);
            sqlite3session_delete(std::mem::replace(&mut self.session, null_mut()));
            let captured = match n {
                0 => Vec::new(),
                _ => std::slice::from_raw_parts(at.cast::<u8>(), n as usize).to_vec(),
            };
            sqlite3_free(at);
            captured
        }
    }

    /// Applies a changeset. The function says whether a change in conflict is made; what it said is answered, by
    /// the table and the integer in the first column, which is the key.
    pub fn apply(
        &self,
        changeset: &[u8],
        is_made: impl Fn(&Conflict) -> bool,
    ) -> HashMap<(String, i64), bool> {
        let mut said = HashMap::new();
        let mut decide: Decide =
            &mut |conflict| *said.entry((conflict.table(), conflict.key(0))).or_insert(is_made(conflict));
        let (context, n): (*mut Decide, _) = (&mut decide, changeset.len() as c_int);
        // SAFETY: the database is open, a slice, and the context is what `on_conflict` takes.
        let code = unsafe {
            sqlite3changeset_apply(self.at, n, changeset.as_ptr().cast(), null(), on_conflict, context.cast())
        };
        assert_eq!(code, 0);
        said
    }
}

impl Drop for Database {
    fn drop(&mut self) {
        // SAFETY: the database is open, and nobody has it any more.
        unsafe {
            if !self.session.is_null() {
                sqlite3session_delete(self.session);
            }
            sqlite3_close(self.at);
        }
    }
}

/// SQLite calls this with a row, and rows as its context.
unsafe extern "C" fn note_row(
    rows: *mut c_void,
    columns: c_int,
    values: *mut *mut c_char,
    _: *mut *mut c_char,
) -> c_int {
    // SAFETY: the values are so many texts, none of them NULL here.
    unsafe {
        let text = |column| CStr::from_ptr(*values.add(column)).to_str().unwrap().to_owned();
        (*rows.cast::<Vec<Vec<String>>>()).push((0..columns as usize).map(text).collect());
    }
    0
}

/// SQLite calls this with a change that has met a conflict, and what decides it as its context. OMIT is 0, and
/// REPLACE 1.
unsafe extern "C" fn on_conflict(decide: *mut c_void, _: c_int, change: *mut c_void) -> c_int {
    // SAFETY: the context is what `apply` gives, and the change is there as long as this runs.
    unsafe { c_int::from((*decide.cast::<Decide>())(&Conflict { change })) }
}
