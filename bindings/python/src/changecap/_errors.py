"""What calls raise."""
from __future__ import annotations

import re
from collections.abc import Mapping
from typing import TYPE_CHECKING, Any

from . import _changecap
from ._numbers import COMMAND, E_STALE, FILTER, MALFORMED, REFUSED

if TYPE_CHECKING:
    from ._blobs import Change, RowId, Value

# The names of the refusals, by their numbers from 1 on.
NAMES = ("TooLong", "BadSchema", "WrongWidth", "BadColumn", "Duplicate", "NoRow", "IdsSpent", "NoTable", "TableExists",
         "TooMany", "Stale", "BadFilter", "TooDeep", "Incompatible", "Aborted", "Misuse", "BadName", "NoSession",
         "NoDatabase", "NoMark")


class Error(Exception):
    """A call that did not succeed.

    >>> import changecap
    >>> try:
    ...     changecap.invert(b"P" + changecap.EXAMPLE[1:])
    ... except changecap.Error as error:
    ...     error.status == changecap.PATCHSET, str(error)
    (True, 'a patchset, where only a changeset serves')
    """

    status: int
    """The status, as in changecap.h."""
    blob: int | None = None
    """Of a concatenation or a rebase that failed: 0 or 1, the blob that is refused."""

    def __init__(self, status: int, message: str) -> None:
        super().__init__(message)
        self.status = status


class Malformed(Error):
    """Bytes that are no blob.

    >>> import changecap
    >>> try:
    ...     changecap.check(b"T\\x80")
    ... except changecap.Malformed as fault:
    ...     fault.kind, fault.at
    (3, 1)
    """

    def __init__(self, kind: int, at: int) -> None:
        super().__init__(MALFORMED, f"fault D{kind} at {at}")
        self.kind, self.at = kind, at


class NotOneCommand(Error):
    """A text that is not one command: the number of the fault, as in G1, or 0, and its offset.

    >>> import changecap
    >>> with changecap.Server() as server:
    ...     try:
    ...         server.call("attach 1 ;")
    ...     except changecap.NotOneCommand as fault:
    ...         fault.kind, fault.at
    (1, 9)
    """

    def __init__(self, kind: int, at: int) -> None:
        super().__init__(COMMAND, f"not one command: G{kind} at {at}")
        self.kind, self.at = kind, at


class NoFilter(Error):
    """A text that is no filter: the number of the refusal, 12 or 13, and where the first token does not fit.

    >>> import changecap
    >>> with changecap.Server() as server, server.session() as session:
    ...     try:
    ...         session.filter("not is")
    ...     except changecap.NoFilter as fault:
    ...         fault.kind, fault.at
    (12, 6)
    """

    def __init__(self, kind: int, at: int) -> None:
        super().__init__(FILTER, f"no filter: E{kind} at {at}")
        self.kind, self.at = kind, at


class Refused(Error):
    """A command that the rules refuse. `kind` is the number of the refusal and `name` its name; `at` is the number of
    the operation or change that is refused, from 0, or None where it is the whole command. `change` is the change of a
    blob that was to be applied, or None.

    >>> import changecap
    >>> with changecap.Server() as server:
    ...     server.create_table("t", [True, False])
    ...     try:
    ...         server.commit(("insert", "t", (1, "x")), ("delete", "t", (2,)))
    ...     except changecap.Refused as refused:
    ...         print(refused.kind == changecap.E_NO_ROW, refused.name, refused.at, "-", refused)
    1
    True NoRow 1 - refused at 1: E6 NoRow
    """

    def __init__(self, kind: int, at: int | None = None, text: str | None = None,
                 change: Change | None = None) -> None:
        self.kind, self.at, self.change = kind, at, change
        self.name = NAMES[kind - 1] if 0 < kind <= len(NAMES) else "?"
        place = "" if at is None else f" at {at}"
        what = "" if change is None else f": {change.operation} of {change.table} {change.row!r:.80}"
        super().__init__(REFUSED, text or f"refused{place}: E{kind} {self.name}{what}")


class Conflict(Refused):
    """A commit on another version than its base, or of a transaction of which something that it looked at has changed.
    Begin again. `table` is the name of a transaction's table that has changed, and `row` the key or the id of its row,
    or None where it is the table or all of its rows.

    >>> import changecap
    >>> with changecap.Server() as server:
    ...     server.create_table("t", [True, False])
    ...     try:
    ...         with server.transaction() as transaction:
    ...             seen = transaction.get("t", (1,))
    ...             version = server.commit(("insert", "t", (1, "by another")))
    ...     except changecap.Conflict as conflict:
    ...         conflict.table, conflict.row
    1
    ('t', (1,))
    """

    table: str | None
    row: tuple[Value, ...] | RowId | None

    def __init__(self, table: str | None = None, row: tuple[Value, ...] | RowId | None = None,
                 text: str | None = None) -> None:
        super().__init__(E_STALE, None, text)
        self.table, self.row = table, row


class Uncaptured(Error):
    """A commit that was made, as `version`, and whose capture failed, as where memory is out. The session keeps its
    records: capture them later, and do not commit again.

    >>> import changecap
    >>> changecap.Uncaptured(changecap.NOMEM, 2)
    Uncaptured('committed as version 2, and not captured: out of memory')
    """

    def __init__(self, status: int, version: int) -> None:
        super().__init__(status, f"committed as version {version}, and not captured: {_changecap.errstr(status)}")
        self.version = version


def refused_reply(reply: str) -> Refused:
    """The refusal that a reply tells, as in 'refused at 1: E6 NoRow'."""
    found = re.match(r"refused(?: at (\d+))?: E(\d+)", reply)
    if found is None:
        return Refused(0, None, reply)
    at, kind = found[1], int(found[2])
    return Conflict(text=reply) if kind == E_STALE else Refused(kind, None if at is None else int(at), reply)


def error_of(status: int, kind: int, place: int, at: int, detail: Mapping[str, Any] | None) -> Error:
    """The error of a status and a fault. `at` is the place of a refusal, or -1."""
    if detail is not None and "version" in detail:
        return Uncaptured(status, detail["version"])
    if status == REFUSED:
        if kind == E_STALE:
            return Conflict(**detail) if detail else Conflict()
        return Refused(kind, None if at < 0 else at)
    for failed, made in ((MALFORMED, Malformed), (COMMAND, NotOneCommand), (FILTER, NoFilter)):
        if status == failed:
            error: Error = made(kind, place)
            break
    else:
        error = Error(status, _changecap.errstr(status))
    if detail is not None:
        error.blob = detail["blob"]
    return error
