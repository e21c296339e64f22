"""Blobs, their changes, and rows."""
from __future__ import annotations

from collections.abc import Callable, Iterable, Iterator, Mapping, Sequence
from typing import NamedTuple, Union

from . import _changecap, _errors
from ._numbers import KEYS_PLACES, MISUSE, OMIT, PATCHSET, REPLACE

Value = Union[None, int, str, bytes]
"""A value that is read."""
Given = Union[None, int, str, bytes, bytearray, memoryview]
"""A value that is written."""
Blob = Union[bytes, bytearray, memoryview]
"""A changeset or a patchset."""

EXAMPLE = bytes.fromhex("5402010074001200010000000000000001030178")
"""A changeset with one change, the insert of the row (1, 'x') into the table t, for trying the functions."""


class RowId(int):
    """The id of a row that has no key, from 1 on.

    >>> RowId(1)
    RowId(1)
    """

    def __repr__(self) -> str:
        return f"RowId({int(self)})"


class Row(NamedTuple):
    """A row, with its `RowId` where it has no key.

    >>> import changecap
    >>> with changecap.Server() as server:
    ...     server.create_table("t", [True, False])
    ...     server.commit(("insert", "t", (1, "x")), ("insert", "t", (None, "y")))
    ...     server.scan("t")
    1
    2
    [Row(id=None, values=(1, 'x')), Row(id=RowId(1), values=(None, 'y'))]
    """

    id: RowId | None
    values: tuple[Value, ...]


class Change(NamedTuple):
    """A change of a blob.

    >>> import changecap
    >>> change, = changecap.iterate(changecap.EXAMPLE)
    >>> change.operation, change.table, change.row
    ('insert', 't', (1,))
    >>> change.key, change.old, change.new
    ((True, False), {}, {0: 1, 1: 'x'})
    """

    table: str
    key: tuple[bool, ...]
    """For each column whether it is in the primary key."""
    operation: str
    """insert, update or delete."""
    indirect: bool
    patchset: bool
    old: dict[int, Value]
    """The values before the change, by column. A column that is undefined has none."""
    new: dict[int, Value]
    """The values after it."""

    @property
    def row(self) -> tuple[Value, ...]:
        """The key of the row that is changed, as `Server.get` takes it."""
        values = self.new if self.operation == "insert" else self.old
        return tuple(values[column] for column, is_key in enumerate(self.key) if is_key)


def check(blob: Blob) -> None:
    """Raises Malformed unless the bytes are a changeset or a patchset.

    >>> import changecap
    >>> check(EXAMPLE)
    >>> try:
    ...     check(EXAMPLE[:5])
    ... except changecap.Malformed as fault:
    ...     fault.kind, fault.at
    (1, 5)
    """
    _changecap.check(blob)


def invert(changeset: Blob, key_flags: int = KEYS_PLACES) -> bytes:
    """The inverse of a changeset.

    >>> change, = iterate(invert(EXAMPLE))
    >>> change.operation, change.old
    ('delete', {0: 1, 1: 'x'})
    """
    return _changecap.invert(changeset, key_flags)


def patchset(changeset: Blob, key_flags: int = KEYS_PLACES) -> bytes:
    """The patchset of a changeset.

    >>> patchset(EXAMPLE)[:1]
    b'P'
    """
    return _changecap.patchset(changeset, key_flags)


def concat(first: Blob, second: Blob, key_flags: int = KEYS_PLACES) -> bytes:
    """The concatenation of two changesets or of two patchsets. Of an error, `blob` is 0 or 1: the one that is
    refused.

    >>> concat(EXAMPLE, invert(EXAMPLE))
    b''
    """
    return _changecap.concat(first, second, key_flags)


def json(blob: Blob) -> str:
    """A changeset or a patchset as JSON: an array with an object for each change, and a line feed.

    >>> print(json(EXAMPLE), end="")
    [{"table":"t","op":"insert","indirect":false,"key":["c0"],"new":{"c0":1,"c1":"x"}}]
    """
    return _changecap.json(blob)


def _each(opened: Callable[[], _changecap.Changes]) -> Iterator[Change]:
    changes = opened()
    while some := changes.some():
        yield from some


def iterate(blob: Blob) -> Iterator[Change]:
    """Each change of a changeset or a patchset, in order.

    >>> [change.new for change in iterate(EXAMPLE)]
    [{0: 1, 1: 'x'}]
    """
    return _each(lambda: _changecap.Changes(blob))


def iterate_pieces(pieces: Iterable[Blob]) -> Iterator[Change]:
    """The same of a blob in pieces of any lengths. A fault is raised with the piece that shows it.

    >>> [change.row for change in iterate_pieces([EXAMPLE[:5], EXAMPLE[5:]])]
    [(1,)]
    """
    return _each(lambda: _decoded(pieces))


def _decoded(pieces: Iterable[Blob]) -> _changecap.Changes:
    decoder = _changecap.Decoder()
    for piece in pieces:
        decoder.feed(piece)
    return decoder.finish()


def _answer_byte(answer: int | None) -> int:
    """The byte of an answer, or of no conflict."""
    if answer is None:
        return 255
    if answer not in (OMIT, REPLACE):
        raise _errors.Error(MISUSE, _changecap.errstr(MISUSE))
    return int(answer)


def rebase_buffer(changeset: Blob, answer: Callable[[Change], int | None]) -> bytes:
    """The rebase buffer of an application elsewhere, as by SQLite, for `Rebaser.configure`: the changes that met a
    conflict, each with its answer. The function is called with each change, in order, and answers OMIT, REPLACE, or
    None where the change met no conflict. It is not the rebase buffer of SQLite, which has less.

    >>> import changecap
    >>> noted = {("t", (1,)): changecap.OMIT}
    >>> len(rebase_buffer(EXAMPLE, lambda change: noted.get((change.table, change.row))))
    20
    >>> rebase_buffer(EXAMPLE, lambda change: None)
    b''
    """
    changes = _changecap.Changes(changeset)
    changes.answer(bytes(_answer_byte(answer(change)) for change in iterate(changeset)))
    return changes.buffer()


class Rebaser:
    """Makes changesets of a copy such that they lead from the rows of the copy whose changes it has applied to its own
    rows, as `apsw.Rebaser`.

    >>> import changecap
    >>> theirs, ours = EXAMPLE, EXAMPLE[:-1] + b"y"
    >>> rebaser = Rebaser()
    >>> rebaser.configure(rebase_buffer(theirs, lambda change: changecap.OMIT))
    >>> change, = iterate(rebaser.rebase(ours))
    >>> change.operation, change.old, change.new
    ('update', {0: 1, 1: 'x'}, {1: 'y'})
    """

    def __init__(self) -> None:
        self._buffers = b""

    def configure(self, buffer: Blob) -> None:
        """Takes the rebase buffer of an application, behind those of earlier ones: `Report.buffer`, or
        `rebase_buffer`."""
        check(buffer)
        if bytes(buffer[:1]) == b"P":
            raise _errors.Error(PATCHSET, _changecap.errstr(PATCHSET))
        self._buffers += bytes(buffer)

    def rebase(self, changeset: Blob, key_flags: int = KEYS_PLACES) -> bytes:
        """The changeset over the buffers. It has all that the copy has changed since it was as the other one: several
        are concatenated first. Of an error, `blob` is 0 for the changeset and 1 for the buffers."""
        return _changecap.rebase(changeset, self._buffers, key_flags)


_changecap.set_up(_errors.error_of, Row, RowId, Change, Sequence, Mapping)
