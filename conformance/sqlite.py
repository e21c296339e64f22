"""SQLite with its session extension, by ctypes: connections, sessions, and the calls on finished changesets.

The names are those of SQLite's C interface without their prefix. Values are None, int, str (TEXT) and bytes (BLOB).
The library is the system's libsqlite3, or the one that the environment variable SQLITE_LIBRARY names.
"""
import ctypes
import ctypes.util
import functools
import os
from ctypes import CFUNCTYPE, POINTER, byref, c_char_p, c_int, c_int64, c_ubyte, c_void_p
from dataclasses import dataclass

OK, ERROR, ABORT, CORRUPT, SCHEMA, MISUSE, RANGE, ROW, DONE = 0, 1, 4, 11, 17, 21, 25, 100, 101
CONSTRAINT_PRIMARYKEY, CONSTRAINT_UNIQUE = 1555, 2067
INTEGER, FLOAT, TEXT, BLOB, NULL = 1, 2, 3, 4, 5
TRANSIENT = c_void_p(-1)
CONFIG_LOG = 16

OPERATIONS = {18: "insert", 23: "update", 9: "delete"}
CONFLICTS = {1: "data", 2: "notfound", 3: "conflict", 4: "constraint", 5: "foreign key"}
ANSWERS = {"omit": 0, "replace": 1, "abort": 2}

XLog = CFUNCTYPE(None, c_void_p, c_int, c_char_p)
XFilter = CFUNCTYPE(c_int, c_void_p, c_char_p)
XConflict = CFUNCTYPE(c_int, c_void_p, c_int, c_void_p)
XUpdate = CFUNCTYPE(None, c_void_p, c_int, c_char_p, c_char_p, c_int64)


class Missing(Exception):
    """There is no SQLite with the session extension here."""


class SqliteError(Exception):
    """A call of SQLite that did not succeed: its extended result code and its message."""

    def __init__(self, code, message):
        super().__init__(f"{message} ({code})")
        self.code, self.message = code, message


@dataclass
class Change:
    """One change as SQLite's iterator gives it. A field that is undefined has no entry in `old` or `new`. `row` has the
    fields of the row with which it is in conflict, where there is one."""

    table: str
    width: int
    key: bytes
    operation: str
    indirect: int
    old: dict
    new: dict
    row: dict = None


class Library:
    """The loaded library. Its log is a list of (code, message), which grows. `log_hook` keeps the callback alive."""

    def __init__(self):
        name = os.environ.get("SQLITE_LIBRARY") or ctypes.util.find_library("sqlite3") or "libsqlite3.so.0"
        try:
            self.calls = ctypes.CDLL(name)
            self.calls.sqlite3session_create, self.calls.sqlite3_preupdate_hook  # noqa: B018
        except OSError as error:
            raise Missing(f"libsqlite3 (Debian: libsqlite3-0): {error}") from None
        except AttributeError:
            raise Missing(f"the session extension in {name}: it is built without SQLITE_ENABLE_SESSION") from None
        self.declare()
        self.log = []
        self.log_hook = XLog(lambda _, code, text: self.log.append((code, text.decode(errors="replace"))))
        self.calls.sqlite3_config(CONFIG_LOG, self.log_hook, None)

    def declare(self):
        """The types of what is not an int."""
        for name in ("errmsg", "libversion"):
            getattr(self.calls, f"sqlite3_{name}").restype = c_char_p
        for name in ("column_blob", "value_blob"):
            getattr(self.calls, f"sqlite3_{name}").restype = c_void_p
        for name in ("column_int64", "value_int64"):
            getattr(self.calls, f"sqlite3_{name}").restype = c_int64
        self.calls.sqlite3_free.argtypes = [c_void_p]
        self.calls.sqlite3_bind_int64.argtypes = [c_void_p, c_int, c_int64]

    def version(self):
        return self.calls.sqlite3_libversion().decode()


@functools.cache
def library():
    """The library, loaded once."""
    return Library()


def value_of(value):
    """The value that a `sqlite3_value *` holds."""
    calls, value = library().calls, c_void_p(value)
    kind = calls.sqlite3_value_type(value)
    if kind == NULL:
        return None
    if kind == INTEGER:
        return calls.sqlite3_value_int64(value)
    if kind == FLOAT:
        return float("nan")
    length = calls.sqlite3_value_bytes(value)
    content = ctypes.string_at(calls.sqlite3_value_blob(value), length) if length else b""
    return content if kind == BLOB else content.decode(errors="surrogateescape")


class Connection:
    """A database in memory."""

    def __init__(self):
        self.calls, self.at = library().calls, c_void_p()
        self.check(self.calls.sqlite3_open(b":memory:", byref(self.at)))
        self.calls.sqlite3_extended_result_codes(self.at, 1)
        self.sessions = []

    def check(self, code):
        """The result code, where it is no error."""
        if code not in (OK, ROW, DONE):
            raise SqliteError(code, self.calls.sqlite3_errmsg(self.at).decode(errors="replace"))
        return code

    def prepare(self, sql):
        """The statement. SqliteError where SQLite refuses it."""
        statement, text = c_void_p(), sql.encode()
        self.check(self.calls.sqlite3_prepare_v2(self.at, text, len(text), byref(statement), None))
        return statement

    def try_statement(self, sql):
        """SqliteError where SQLite refuses a statement before it runs: a table or a column is not there."""
        self.calls.sqlite3_finalize(self.prepare(sql))

    def execute(self, sql, values=()):
        """Runs one statement, and returns its rows."""
        statement = self.prepare(sql)
        try:
            for place, value in enumerate(values, 1):
                self.bind(statement, place, value)
            rows = []
            while self.check(self.calls.sqlite3_step(statement)) == ROW:
                count = self.calls.sqlite3_column_count(statement)
                rows.append(tuple(self.column(statement, place) for place in range(count)))
            return rows
        finally:
            self.calls.sqlite3_finalize(statement)

    def bind(self, statement, place, value):
        if value is None:
            code = self.calls.sqlite3_bind_null(statement, place)
        elif isinstance(value, int):
            code = self.calls.sqlite3_bind_int64(statement, place, value)
        elif isinstance(value, str):
            text = value.encode()
            code = self.calls.sqlite3_bind_text(statement, place, text, len(text), TRANSIENT)
        else:
            code = self.calls.sqlite3_bind_blob(statement, place, value, len(value), TRANSIENT)
        self.check(code)

    def column(self, statement, place):
        kind = self.calls.sqlite3_column_type(statement, place)
        if kind == NULL:
            return None
        if kind == INTEGER:
            return self.calls.sqlite3_column_int64(statement, place)
        length = self.calls.sqlite3_column_bytes(statement, place)
        content = ctypes.string_at(self.calls.sqlite3_column_blob(statement, place), length) if length else b""
        return content if kind == BLOB else content.decode()

    def total_changes(self):
        return self.calls.sqlite3_total_changes(self.at)

    def session(self):
        return Session(self)

    def apply(self, blob, policy, accepts=None):
        """Applies a changeset or a patchset by `sqlite3changeset_apply`, to the tables whose names a function accepts,
        or to all. The policy is a function from the kind of a conflict to an answer; what it raises is raised again.
        The result code is in what is returned."""
        applied = Applied(policy)
        chosen = XFilter(lambda _, name: bool(accepts(name.decode()))) if accepts else None
        update = XUpdate(lambda _, operation, database, table, row: applied.note_row(table.decode()))
        conflict = XConflict(lambda _, kind, at: applied.note_conflict(CONFLICTS[kind]))
        before = len(library().log)
        self.calls.sqlite3_update_hook(self.at, update, None)
        try:
            applied.code = self.calls.sqlite3changeset_apply(self.at, len(blob), blob, chosen, conflict, None)
        finally:
            self.calls.sqlite3_update_hook(self.at, XUpdate(0), None)
        for _, text in library().log[before:]:
            if text.startswith("sqlite3changeset_apply(): "):
                applied.warnings.append(text.partition(": ")[2])
        if applied.error:
            raise applied.error
        return applied

    def apply_with_buffer(self, blob, answer, accepts=None):
        """Applies a changeset by `sqlite3changeset_apply_v2`, to the tables whose names a function accepts, or to all.
        What it answers to a conflict is the answer of a function from the kind of the conflict and the change. Returns
        the result code, the changes that met a conflict, each with its kind and its answer, and the rebase buffer,
        which is empty of a patchset."""
        conflicts, length, content = [], c_int(), c_void_p()
        chosen = XFilter(lambda _, name: bool(accepts(name.decode()))) if accepts else XFilter(0)

        def note(_, kind, iterator):
            """SQLite calls this, so that no exception may leave it."""
            try:
                change = change_at(self.calls, c_void_p(iterator))
                if CONFLICTS[kind] in ("data", "conflict"):
                    change.row = fields_of(self.calls.sqlite3changeset_conflict, c_void_p(iterator), change.width)
                conflicts.append((change, CONFLICTS[kind], answer(CONFLICTS[kind], change)))
                return ANSWERS[conflicts[-1][2]]
            except Exception as error:  # noqa: BLE001
                conflicts.append((None, "error", error))
                return ANSWERS["abort"]

        buffer = (None, None) if blob[:1] == b"P" else (byref(content), byref(length))
        code = self.calls.sqlite3changeset_apply_v2(self.at, len(blob), blob, chosen, XConflict(note), None, *buffer, 0)
        for change, _, error in conflicts:
            if change is None:
                raise error
        return code, conflicts, taken(self.calls, length, content)

    def close(self):
        for session in list(self.sessions):
            session.delete()
        self.check(self.calls.sqlite3_close(self.at))


class Applied:
    """What is seen of an application: how many changes were made and omitted, the table of each row that was changed,
    conflicts, warnings, and the result code. A conflict is (kind, answer, made, omitted), with how many changes were
    made and omitted before it. `error` is what the policy raised."""

    def __init__(self, policy):
        self.policy, self.tables, self.conflicts, self.warnings = policy, [], [], []
        self.made = self.omitted = 0
        self.code, self.error = OK, None

    def note_row(self, table):
        self.made += 1
        self.tables.append(table)

    def note_conflict(self, kind):
        """SQLite calls this, so that no exception may leave it. An insert that replaces a row changes two rows."""
        try:
            answer = self.policy(kind)
        except Exception as error:  # noqa: BLE001
            self.error, answer = error, "abort"
        self.conflicts.append((kind, answer, self.made, self.omitted))
        self.omitted += answer == "omit"
        self.made -= (kind, answer) == ("conflict", "replace")
        return ANSWERS[answer]


class Session:
    """A session on the main database of a connection."""

    def __init__(self, connection):
        self.calls, self.connection, self.at, self.filter = connection.calls, connection, c_void_p(), None
        connection.check(self.calls.sqlite3session_create(connection.at, b"main", byref(self.at)))
        connection.sessions.append(self)

    def attach(self, table=None):
        """Attaches a table, or with None each table of which a row changes."""
        self.connection.check(self.calls.sqlite3session_attach(self.at, table and table.encode()))

    def table_filter(self, accepts):
        """Lets a function from a name to a truth value decide which tables are attached automatically."""
        self.filter = XFilter(lambda _, name: bool(accepts(name.decode())))
        self.calls.sqlite3session_table_filter(self.at, self.filter, None)

    def enable(self, flag=None):
        return bool(self.calls.sqlite3session_enable(self.at, -1 if flag is None else int(flag)))

    def indirect(self, flag=None):
        return bool(self.calls.sqlite3session_indirect(self.at, -1 if flag is None else int(flag)))

    def is_empty(self):
        return bool(self.calls.sqlite3session_isempty(self.at))

    def changeset(self):
        return self.capture(self.calls.sqlite3session_changeset)

    def patchset(self):
        return self.capture(self.calls.sqlite3session_patchset)

    def capture(self, call):
        length, content = c_int(), c_void_p()
        self.connection.check(call(self.at, byref(length), byref(content)))
        return taken(self.calls, length, content)

    def diff(self, database, table):
        message = c_void_p()
        code = self.calls.sqlite3session_diff(self.at, database.encode(), table.encode(), byref(message))
        text = ctypes.string_at(message.value).decode() if message.value else ""
        self.calls.sqlite3_free(message)
        if code != OK:
            raise SqliteError(code, text)

    def delete(self):
        self.connection.sessions.remove(self)
        self.calls.sqlite3session_delete(self.at)


def taken(calls, length, content):
    """The bytes that SQLite allocated, which are freed."""
    found = ctypes.string_at(content.value, length.value) if length.value else b""
    calls.sqlite3_free(content)
    return found


def made_by(name, *arguments):
    """The blob that the call of this name makes of its arguments."""
    calls, length, content = library().calls, c_int(), c_void_p()
    code = getattr(calls, name)(*arguments, byref(length), byref(content))
    if code != OK:
        raise SqliteError(code, name)
    return taken(calls, length, content)


def invert(blob):
    """The inverse by `sqlite3changeset_invert`."""
    return made_by("sqlite3changeset_invert", len(blob), blob)


def concat(first, second):
    """Both as one by `sqlite3changeset_concat`."""
    return made_by("sqlite3changeset_concat", len(first), first, len(second), second)


def rebase(changeset, buffers):
    """The changeset over rebase buffers, by `sqlite3rebaser_configure` and `sqlite3rebaser_rebase`."""
    calls, rebaser = library().calls, c_void_p()
    calls.sqlite3rebaser_create(byref(rebaser))
    try:
        for content in buffers:
            code = calls.sqlite3rebaser_configure(rebaser, len(content), content)
            if code != OK:
                raise SqliteError(code, "sqlite3rebaser_configure")
        return made_by("sqlite3rebaser_rebase", rebaser, len(changeset), changeset)
    finally:
        calls.sqlite3rebaser_delete(rebaser)


def iterate(blob):
    """Each change of a changeset or a patchset, by SQLite's iterator."""
    calls, iterator = library().calls, c_void_p()
    if calls.sqlite3changeset_start(byref(iterator), len(blob), blob) != OK:
        raise SqliteError(ERROR, "sqlite3changeset_start")
    try:
        while True:
            code = calls.sqlite3changeset_next(iterator)
            if code != ROW:
                break
            yield change_at(calls, iterator)
    finally:
        code = calls.sqlite3changeset_finalize(iterator)
    if code != OK:
        raise SqliteError(code, "sqlite3changeset_next")


def change_at(calls, iterator):
    """The change that an iterator is at."""
    table, width, operation, indirect = c_char_p(), c_int(), c_int(), c_int()
    calls.sqlite3changeset_op(iterator, byref(table), byref(width), byref(operation), byref(indirect))
    flags, count = POINTER(c_ubyte)(), c_int()
    calls.sqlite3changeset_pk(iterator, byref(flags), byref(count))
    name = OPERATIONS[operation.value]
    old = fields_of(calls.sqlite3changeset_old, iterator, width.value) if name != "insert" else {}
    new = fields_of(calls.sqlite3changeset_new, iterator, width.value) if name != "delete" else {}
    key = bytes(flags[place] for place in range(count.value))
    return Change(table.value.decode(errors="surrogateescape"), width.value, key, name, indirect.value, old, new)


def fields_of(call, iterator, width):
    """The fields of a record that are defined, by their columns."""
    found = {}
    for column in range(width):
        value = c_void_p()
        if call(iterator, column, byref(value)) == OK and value.value:
            found[column] = value_of(value.value)
    return found
