"""Databases of SQLite, and its session extension, by ctypes: Python's module sqlite3 has no changesets.

The library is the system's libsqlite3, or the one that the environment variable SQLITE_LIBRARY names.
"""
from __future__ import annotations

import ctypes
import ctypes.util
import functools
import os
from ctypes import CFUNCTYPE, byref, c_char_p, c_int, c_int64, c_void_p

OK, BUSY, LOCKED, ABORT, ROW, DONE = 0, 5, 6, 4, 100, 101
_INTEGER, _TEXT, _NULL = 1, 3, 5
_TRANSIENT = c_void_p(-1)
_CONFLICTS = {1: "DATA", 2: "NOTFOUND", 3: "CONFLICT", 4: "CONSTRAINT", 5: "FOREIGN_KEY"}
_OPERATIONS = {18: "insert", 23: "update", 9: "delete"}
_ANSWER_ABORT = 2
_OnConflict = CFUNCTYPE(c_int, c_void_p, c_int, c_void_p)

Value = None | int | str | bytes


class Missing(Exception):
    """There is no SQLite with the session extension here."""


class SqliteError(Exception):
    """A call of SQLite that did not succeed: its result code and its message."""

    def __init__(self, code: int, message: str) -> None:
        super().__init__(message)
        self.code = code


class Conflict(Exception):
    """A change met a conflict, and nothing of its changeset was applied."""


@functools.cache
def library() -> ctypes.CDLL:
    """The library, loaded once."""
    name = os.environ.get("SQLITE_LIBRARY") or ctypes.util.find_library("sqlite3") or "libsqlite3.so.0"
    try:
        calls = ctypes.CDLL(name)
        calls.sqlite3changeset_apply  # noqa: B018
    except OSError as error:
        raise Missing(f"libsqlite3 (Debian: libsqlite3-0): {error}") from None
    except AttributeError:
        raise Missing(f"the session extension in {name}: it is built without SQLITE_ENABLE_SESSION") from None
    calls.sqlite3_errmsg.restype = c_char_p
    calls.sqlite3_column_blob.restype = c_void_p
    calls.sqlite3_column_int64.restype = c_int64
    calls.sqlite3_bind_int64.argtypes = [c_void_p, c_int, c_int64]
    calls.sqlite3_free.argtypes = [c_void_p]
    return calls


class Database:
    """A database in a file. One thread at a time may call it."""

    def __init__(self, path: str, busy_seconds: float = 5) -> None:
        self._calls, self._at = library(), c_void_p()
        code = self._calls.sqlite3_open(os.fsencode(path), byref(self._at))
        if code != OK:
            error = self._error(code)
            self.close()
            raise error
        self._calls.sqlite3_busy_timeout(self._at, int(1000 * busy_seconds))

    def _error(self, code: int) -> SqliteError:
        return SqliteError(code, self._calls.sqlite3_errmsg(self._at).decode(errors="replace"))

    def _check(self, code: int) -> int:
        if code not in (OK, ROW, DONE):
            raise self._error(code)
        return code

    def execute(self, sql: str, *values: Value) -> list[tuple[Value, ...]]:
        """Runs a statement, and answers its rows."""
        statement, text = c_void_p(), sql.encode()
        self._check(self._calls.sqlite3_prepare_v2(self._at, text, len(text), byref(statement), None))
        try:
            for place, value in enumerate(values, 1):
                self._check(self._bind(statement, place, value))
            rows = []
            while self._check(self._calls.sqlite3_step(statement)) == ROW:
                count = self._calls.sqlite3_column_count(statement)
                rows.append(tuple(self._column(statement, place) for place in range(count)))
            return rows
        finally:
            self._calls.sqlite3_finalize(statement)

    def _bind(self, statement: c_void_p, place: int, value: Value) -> int:
        if value is None:
            code = self._calls.sqlite3_bind_null(statement, place)
        elif isinstance(value, int):
            code = self._calls.sqlite3_bind_int64(statement, place, value)
        else:
            call = self._calls.sqlite3_bind_text if isinstance(value, str) else self._calls.sqlite3_bind_blob
            content = value.encode() if isinstance(value, str) else value
            code = call(statement, place, content, len(content), _TRANSIENT)
        return int(code)

    def _column(self, statement: c_void_p, place: int) -> Value:
        kind = self._calls.sqlite3_column_type(statement, place)
        if kind == _NULL:
            return None
        if kind == _INTEGER:
            return int(self._calls.sqlite3_column_int64(statement, place))
        content = self._calls.sqlite3_column_blob(statement, place)
        length = self._calls.sqlite3_column_bytes(statement, place)
        found = ctypes.string_at(content, length) if length else b""
        return found.decode() if kind == _TEXT else found

    def changed_rows(self) -> int:
        """How many rows the last statement has changed."""
        return int(self._calls.sqlite3_changes(self._at))

    def apply(self, changeset: bytes) -> None:
        """Applies a changeset. Conflict is raised where a change meets a conflict of any kind."""
        met = list[str]()

        def on_conflict(_: int, kind: int, iterator: int) -> int:
            """SQLite calls this, so that no exception may leave it."""
            try:
                met.append(self._conflict(kind, c_void_p(iterator)))
            except Exception as error:  # noqa: BLE001
                met.append(repr(error))
            return _ANSWER_ABORT

        code = self._calls.sqlite3changeset_apply(self._at, len(changeset), changeset, None,
                                                  _OnConflict(on_conflict), None)
        if met:
            raise Conflict(met[0])
        self._check(code)

    def _conflict(self, kind: int, iterator: c_void_p) -> str:
        """What is said of a conflict. There is no change where a foreign key is not kept."""
        table, columns, operation, indirect = c_char_p(), c_int(), c_int(), c_int()
        self._calls.sqlite3changeset_op(iterator, byref(table), byref(columns), byref(operation),
                                        byref(indirect))
        what = _OPERATIONS.get(operation.value)
        name = (table.value or b"?").decode(errors="replace")
        of_what = f" of the {what} of a row of {name}" if what else ""
        return f"a conflict {_CONFLICTS.get(kind, kind)}{of_what}"

    def close(self) -> None:
        """Closes the database. Closing it again does nothing."""
        self._calls.sqlite3_close(self._at)
        self._at = c_void_p()
