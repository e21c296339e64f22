"""Changesets and patchsets of SQLite's session extension, and a table server that captures them.

    inverse = changecap.invert(changeset)
    for change in changecap.iterate(changeset):
        print(change.table, change.operation, change.old, change.new)

    with changecap.Server() as server, server.session() as session:
        server.create_table("t", [True, False])
        session.attach("t")
        with server.transaction() as transaction:
            transaction.insert("t", (1, "x"))
        changeset = session.changeset()
        print(server.scan("t"))

A value is None, an int (True is 1), a str (TEXT), or bytes, a bytearray or a memoryview of single bytes (BLOB).
Nothing else is converted in silence: an argument of another type is a TypeError, one that no call can take a
ValueError, and an int of more than 64 bits an OverflowError.

Any thread may call a `Server`. No call holds the GIL while it waits or works.
"""
try:
    from . import _changecap
except ImportError as _error:
    raise ImportError("changecap._changecap is not built: `make python` at the top of changecap's sources builds the "
                      "package, or `pip install` of bindings/python does") from _error
from ._blobs import (EXAMPLE, Blob, Change, Given, Rebaser, Row, RowId, Value, check, concat, invert, iterate,
                     iterate_pieces, json, patchset, rebase_buffer)
from ._errors import Conflict, Error, Malformed, NoFilter, NotOneCommand, Refused, Uncaptured
from ._numbers import (ABORT, BUSY, CASCADE, CLIENTS, COLUMNS, COMMAND, CONFLICT, DATA, DIRECT, DONE, E_ABORTED,
                       E_BAD_COLUMN, E_BAD_FILTER, E_BAD_NAME, E_BAD_SCHEMA, E_DUPLICATE, E_IDS_SPENT,
                       E_INCOMPATIBLE, E_MISUSE, E_NO_DATABASE, E_NO_MARK, E_NO_ROW, E_NO_SESSION, E_NO_TABLE,
                       E_STALE, E_TABLE_EXISTS, E_TOO_DEEP, E_TOO_LONG, E_TOO_MANY, E_WRONG_WIDTH, FILTER, FULL,
                       KEYS_ONES, KEYS_PLACES, KIND, MALFORMED, MISUSE, NOMEM, NOTFOUND, OK, OMIT, OVERTAKEN,
                       PATCHSET, REFUSED, REPLACE, ROOM, ROW)
from ._server import Capture, Decide, Key, Operation, Passed, Report, Server, Session, Snapshot, Transaction

__version__ = _changecap.VERSION
__all__ = [
    "ABORT", "BUSY", "CASCADE", "CLIENTS", "COLUMNS", "COMMAND", "CONFLICT", "DATA", "DIRECT", "DONE", "EXAMPLE",
    "E_ABORTED", "E_BAD_COLUMN", "E_BAD_FILTER", "E_BAD_NAME", "E_BAD_SCHEMA", "E_DUPLICATE", "E_IDS_SPENT",
    "E_INCOMPATIBLE", "E_MISUSE", "E_NO_DATABASE", "E_NO_MARK", "E_NO_ROW", "E_NO_SESSION", "E_NO_TABLE", "E_STALE",
    "E_TABLE_EXISTS", "E_TOO_DEEP", "E_TOO_LONG", "E_TOO_MANY", "E_WRONG_WIDTH", "FILTER", "FULL", "KEYS_ONES",
    "KEYS_PLACES", "KIND", "MALFORMED", "MISUSE", "NOMEM", "NOTFOUND", "OK", "OMIT", "OVERTAKEN", "PATCHSET", "REFUSED",
    "REPLACE", "ROOM", "ROW",
    "Blob", "Capture", "Change", "Conflict", "Decide", "Error", "Given", "Key", "Malformed", "NoFilter",
    "NotOneCommand", "Operation", "Passed", "Rebaser", "Refused", "Report", "Row", "RowId", "Server", "Session",
    "Snapshot", "Transaction", "Uncaptured", "Value", "check", "concat", "invert", "iterate", "iterate_pieces", "json",
    "patchset", "rebase_buffer",
]
