"""A table server, and what is made of one: sessions, captures, snapshots and transactions."""
from __future__ import annotations

import threading
import weakref
from collections import deque
from collections.abc import Callable, Iterable, Iterator, Mapping, Sequence
from dataclasses import dataclass, field
from itertools import islice
from types import TracebackType
from typing import Literal, NamedTuple, TypeVar, Union

from . import _changecap
from ._blobs import Blob, Change, Given, Row, RowId, Value, iterate
from ._errors import Conflict, Error, NoFilter, Refused, refused_reply
from ._numbers import ABORT, CLIENTS, DIRECT, KEYS_ONES, KEYS_PLACES, MISUSE, PATCHSET

Key = Union[Sequence[Given], RowId]
"""How a row is named: by its key, or by its id where it has none."""
Operation = Union[
    tuple[Literal["insert"], str, Sequence[Given]], tuple[Literal["insert"], str, Sequence[Given], int],
    tuple[Literal["update"], str, Key, Mapping[int, Given]],
    tuple[Literal["update"], str, Key, Mapping[int, Given], int],
    tuple[Literal["delete"], str, Key], tuple[Literal["delete"], str, Key, int],
]
"""An operation of `Server.commit`."""
Decide = Callable[[int, Change, Union[tuple[Value, ...], None]], Union[int, Sequence[Given]]]
"""What decides a conflict: of its kind (DATA, NOTFOUND or CONFLICT), the change, and the values of the row that is there,
or None. It answers OMIT, REPLACE or ABORT, or the values of the row that shall stand there instead."""
_Result = TypeVar("_Result")
_ALL = 2**64 - 1


def _flag(value: bool, what: str = "a flag") -> bool:
    """Whether a flag is set, that is True or False, or 1 or 0."""
    if not isinstance(value, int):
        raise TypeError(f"{what} is True or False, not {type(value).__name__}")
    if value not in (0, 1):
        raise ValueError(f"{what} is True or False, not {int(value)}")
    return bool(value)


def _key_flags(number: int) -> int:
    """The number of key flags."""
    if not isinstance(number, int):
        raise TypeError(f"key flags are an int, not {type(number).__name__}")
    if not 0 <= number < 2**32:
        raise ValueError(f"{int(number)} is not a number of 32 bits")
    if number not in (KEYS_ONES, KEYS_PLACES):
        raise Error(MISUSE, _changecap.errstr(MISUSE))
    return number


def _filter_text(blob: bytes, accepts: str | Callable[[str], bool] | None) -> str:
    """The text of a filter; of a function one that accepts the tables of the blob for which it answers True."""
    if accepts is None:
        return "all"
    if isinstance(accepts, str):
        if not accepts:
            raise NoFilter(12, 0)
        return accepts
    tables = dict.fromkeys(change.table for change in iterate(blob))
    names = (name.replace("'", "''") for name in tables if accepts(name))
    return "or(" + ",".join(f"is '{name}'" for name in names) + ")"


def _answer_each(application: _changecap.Application, blob: bytes, decide: Decide) -> None:
    """Answers each conflict of an application as a function decides."""
    changes, passed = iterate(blob), 0
    while (met := application.step()) is not None:
        kind, number, row = met
        change = next(islice(changes, number - passed, None))
        passed = number + 1
        answer = decide(kind, change, row)
        try:
            if isinstance(answer, int):
                application.answer(answer)
            else:
                application.answer_row(answer)
        except Refused as refused:
            at = number if refused.at is None else refused.at
            raise Refused(refused.kind, at, change=change) from None


class Passed(NamedTuple):
    """How many groups of a blob were passed over, since a filter does not accept their tables, and their changes.

    >>> import changecap
    >>> with Server() as server:
    ...     server.apply(changecap.EXAMPLE, filter="not is t").passed
    Passed(groups=1, changes=1)
    """

    groups: int
    changes: int


@dataclass
class Report:
    """What became of an applied blob: the new version, the changes that were applied, those that replaced a row among
    them, that met a conflict and that were omitted because of one, and the groups that were skipped; and what was
    `passed` over, or None where a function decided the conflicts.

    >>> import changecap
    >>> with Server() as server:
    ...     server.apply(changecap.EXAMPLE)
    Report(version=1, applied=0, conflicts=0, omitted=0, skipped=1)
    """

    version: int
    applied: int
    conflicts: int
    omitted: int
    skipped: int
    passed: Passed | None = field(default=None, repr=False, compare=False)
    _changes: _changecap.Changes | _changecap.Application | None = field(default=None, repr=False, compare=False)

    def buffer(self) -> bytes:
        """The rebase buffer of an application with `rebase`, for `Rebaser.configure`: the changes that met a conflict,
        each with its answer. Where there is no memory for it, it may be asked for again.

        >>> import changecap
        >>> with Server() as server:
        ...     server.create_table("t", [True, False])
        ...     server.apply(changecap.EXAMPLE, rebase=True).buffer()
        ...     len(server.apply(changecap.EXAMPLE, conflict=changecap.OMIT, rebase=True).buffer())
        1
        b''
        20
        """
        if self._changes is None:
            raise ValueError("the blob was applied without rebase=True")
        return self._changes.buffer()


class Server:
    """A table server in memory. Any thread may call it: each gets a client of the one history, which is given back
    when the thread ends. There are 64; further threads share them, and wait for each other.

    >>> with Server() as server:
    ...     server.create_table("t", [True, False])
    ...     server.commit(("insert", "t", (1, "x")))
    ...     server.get("t", (1,)).values
    1
    2
    (1, 'x')
    """

    def __init__(self) -> None:
        self._lock, self._own, self._turn, self._is_closed = threading.Lock(), threading.local(), 0, False
        # The first client stays for the others to join by. Each of the others is kept by the threads that have it.
        self._first = self._own.client = _changecap.Client()
        self._clients = weakref.WeakSet((self._first,))
        # Sessions that nobody refers to any more and that could not be ended for want of memory.
        self._unused: deque[int] = deque()

    def _client(self) -> _changecap.Client:
        """The client of this thread."""
        try:
            return self._own.client  # type: ignore[no-any-return]
        except AttributeError:
            return self._join()

    def _join(self) -> _changecap.Client:
        """A client for this thread: a further one, or one of another thread where there are 64."""
        with self._lock:
            if self._is_closed:
                raise ValueError("the server is closed")
            try:
                client = self._first.join()
                self._clients.add(client)
            except Error as error:
                if error.status != CLIENTS:
                    raise
                others = list(self._clients)
                self._turn += 1
                client = others[self._turn % len(others)]
        self._own.client = client
        return client

    def call(self, command: str) -> str:
        """The text of the reply to one command of the workload language (docs/manual/formats.md).

        >>> with Server() as server:
        ...     server.call("create t kv")
        'ok version 1'
        """
        is_refused, reply = self._client().call(command)
        if is_refused:
            raise refused_reply(reply)
        return reply

    def create_table(self, table: str, key: Iterable[bool]) -> int:
        """Creates a table and answers the new version. `key` has True or False for each column, from the first on:
        whether it is in the primary key. Columns have no names."""
        return self._client().create(table, bytes(_flag(it, "whether a column is in the key") for it in key))

    def commit(self, *operations: Operation, base: int | None = None) -> int:
        """Makes operations together or not at all, on the version `base` alone where it is given, and answers the
        new version. Each is a tuple: ("insert", table, values), ("update", table, row, {column: value}) or
        ("delete", table, row), and CASCADE behind it where a trigger or a foreign key action is its cause. A row
        is a tuple, its key, or a `RowId` where it has no key. Of a `Refused`, `at` is the number of the operation,
        from 0.

        >>> with Server() as server:
        ...     version = server.create_table("t", [True, False])
        ...     server.commit(("insert", "t", (1, "x")), ("update", "t", (1,), {1: "y"}), base=version)
        ...     server.scan("t")
        2
        [Row(id=None, values=(1, 'y'))]
        """
        return self._client().commit(operations, base, None)[0]

    def commit_many(self, table: str, rows: Iterable[Sequence[Given]], base: int | None = None) -> int:
        """Inserts rows together or not at all, and answers the new version. A commit has at most 10,000.

        >>> with Server() as server:
        ...     server.create_table("t", [True, False])
        ...     server.commit_many("t", ((number, None) for number in range(100)))
        1
        2
        """
        return self._client().commit_many(table, rows, base, None)[0]

    def commit_captured(self, session: Session, *operations: Operation, base: int | None = None) -> Capture:
        """Commits, and captures by restarting a session, without a call of another thread between. Where each commit
        under a session is made so, each capture has the changes of its commit alone.

        >>> with Server() as server, server.session() as session:
        ...     server.create_table("t", [True, False])
        ...     session.attach()
        ...     capture = server.commit_captured(session, ("insert", "t", (1, "x")))
        ...     capture.version, len(capture.changeset())
        1
        (2, 20)
        """
        return _capture_of(self._client().commit(operations, base, session.number)[1])

    def snapshot(self) -> Snapshot:
        """The tables as they are now."""
        return Snapshot(self._client().snapshot())

    def get(self, table: str, row: Key) -> Row | None:
        """The row with this key, a tuple, or with this `RowId`; or None."""
        return self._client().snapshot().get(table, row)

    def scan(self, table: str) -> list[Row]:
        """All rows of a table: those with a key in the order of their keys, and then the others by their ids."""
        return self._client().snapshot().scan(table)

    def transaction(self, session: Session | None = None) -> Transaction:
        """Begins a transaction, which is captured with its commit where a session is given."""
        return Transaction(self, session)

    def run(self, function: Callable[[Transaction], _Result], tries: int = 100,
            session: Session | None = None) -> _Result:
        """Calls a function with a transaction, which is committed then, and answers what it answers. The function is
        called again where the commit is refused by a `Conflict`, as often as `tries` says in all.

        >>> def add(transaction):
        ...     balance, = transaction.get("t", (1,)).values[1:]
        ...     transaction.update("t", (1,), {1: balance + 5})
        ...     return balance + 5
        >>> with Server() as server:
        ...     server.create_table("t", [True, False])
        ...     server.commit(("insert", "t", (1, 10)))
        ...     server.run(add)
        1
        2
        15
        """
        while True:
            transaction = self.transaction(session)
            try:
                result = function(transaction)
            except BaseException:
                transaction.rollback()
                raise
            try:
                if not transaction._has_ended:
                    transaction.commit()
                return result
            except Conflict:
                tries -= 1
                if tries <= 0:
                    raise

    def save(self, database: str) -> None:
        """Saves the tables under a name, for `Session.diff`."""
        self._client().save(database)

    def load(self, blob: Blob) -> Report:
        """Creates the tables of a blob, and applies it to them: what `Snapshot.dump` wrote of one server and is loaded
        into another gives the same tables. Refused where one of its tables is there already, or a change is no insert
        of a new row, and then nothing is made.

        >>> with Server() as server, Server() as copy:
        ...     server.create_table("t", [True, False])
        ...     server.commit(("insert", "t", (1, "x")))
        ...     copy.load(server.snapshot().dump("t")).applied
        ...     copy.get("t", (1,)).values
        ...     copy.snapshot().dump("t") == server.snapshot().dump("t")
        1
        2
        1
        (1, 'x')
        True
        """
        try:
            return Report(*self._client().load(blob))
        except Refused as refused:
            if refused.at is None:
                raise
            change = next(islice(iterate(blob), refused.at, None), None)
            raise Refused(refused.kind, refused.at, change=change) from None

    def apply(self, blob: Blob, data: int = ABORT, notfound: int = ABORT, conflict: int | Decide = ABORT,
              rebase: bool = False, filter: str | Callable[[str], bool] | None = None, tries: int = 100,
              quiet: Iterable[Session] = ()) -> Report:
        """Applies a changeset or a patchset, with an answer where a row differs, where it is missing, and where its
        key is in use. With `rebase` it is a changeset, and the report has its rebase buffer. Of a `Refused`, `change`
        is the change that is refused and `at` its number, from 0.

        A `filter` is a text or a function of the name of a table. Groups of tables that it does not accept are passed
        over: they are not looked at, and are none of those that are skipped. The `quiet` sessions record none of the
        changes, and each other session does. They go with answers that are numbers.

        Where `conflict` is a function (`Decide`) it answers each conflict: of its kind, the change and the values of
        the row that is there. Then the blob is applied to a snapshot and committed as a transaction that looked at each
        row that a change names: no call of another thread comes between. It is applied again where one of those has
        changed, as often as `tries` says in all.

        >>> import changecap
        >>> with Server() as server:
        ...     server.create_table("t", [True, False])
        ...     server.apply(changecap.EXAMPLE).applied
        ...     try:
        ...         server.apply(changecap.EXAMPLE)
        ...     except changecap.Refused as refused:
        ...         print(refused)
        1
        1
        refused at 0: E15 Aborted: insert of t (1,)

        >>> def longest(kind, change, row):
        ...     return changecap.REPLACE if len(change.new[1]) > len(row[1]) else (row[0], row[1] + "!")
        >>> with Server() as server:
        ...     server.create_table("t", [True, False])
        ...     server.commit(("insert", "t", (1, "longer")))
        ...     server.apply(changecap.EXAMPLE, conflict=longest).omitted
        ...     server.apply(changecap.EXAMPLE, filter=lambda table: table != "t").applied
        ...     server.get("t", (1,)).values
        1
        2
        1
        0
        (1, 'longer!')

        >>> with Server() as server, server.session() as own, server.session() as other:
        ...     server.create_table("t", [True, False])
        ...     own.attach()
        ...     other.attach()
        ...     server.apply(changecap.EXAMPLE, quiet=[own]).applied
        ...     own.is_empty(), other.is_empty()
        ...     server.apply(changecap.EXAMPLE, filter="not is t").passed
        1
        1
        (True, False)
        Passed(groups=1, changes=1)
        """
        numbers = tuple(self._number(session) for session in quiet)
        if callable(conflict):
            if numbers:
                raise ValueError("quiet sessions go with answers that are numbers")
            return self._decided(blob, conflict, rebase, filter, tries)
        if filter is not None:
            blob = bytes(blob)
        text = "" if filter is None else _filter_text(blob, filter)
        changes = _changecap.Changes(blob) if rebase else None
        try:
            if changes is None:
                report, passed = self._client().apply(blob, data, notfound, conflict, text, numbers)
            else:
                changes.buffer()  # A patchset has none, and is not applied.
                report, passed = self._client().apply_changes(changes, data, notfound, conflict, text, numbers)
            return Report(*report, Passed(*passed), changes)
        except Refused as refused:
            if refused.at is None:
                raise
            change = next(islice(iterate(blob), refused.at, None), None)
            raise Refused(refused.kind, refused.at, change=change) from None

    def _decided(self, blob: Blob, decide: Decide, rebase: bool, accepts: str | Callable[[str], bool] | None,
                 tries: int) -> Report:
        """An application whose conflicts a function decides."""
        content = bytes(blob)
        if rebase and content[:1] == b"P":
            raise Error(PATCHSET, _changecap.errstr(PATCHSET))
        text = _filter_text(content, accepts)
        while True:
            application = self._client().snapshot().apply(content, text)
            _answer_each(application, content, decide)
            try:
                return Report(*self._client().apply_finish(application), None, application if rebase else None)
            except Conflict:
                tries -= 1
                if tries <= 0:
                    raise

    def session(self) -> Session:
        """Makes a session, which ends when nobody refers to it any more."""
        for number in [self._unused.popleft() for _ in range(len(self._unused))]:
            self._end_session(number)
        return Session(self)

    def _number(self, session: Session) -> int:
        """The number of a session of this server."""
        if session._server is not self:
            raise ValueError("a session of another server")
        return session.number

    def _end_session(self, number: int) -> None:
        """Ends a session that nobody refers to. It takes no lock of this object, since the collector runs at any
        time."""
        try:
            self._first.session_drop(number)
        except MemoryError:
            self._unused.append(number)
        except (ValueError, Error):
            pass

    def close(self) -> None:
        """Ends the server and its sessions. What was captured or read stays. Closing it again does nothing."""
        with self._lock:
            self._is_closed = True
            for client in list(self._clients):
                if client is not self._first:
                    client.close()
            # The first one ends the sessions that nobody refers to, as long as there is another.
            self._first.close()

    def __enter__(self) -> Server:
        return self

    def __exit__(self, kind: type[BaseException] | None, error: BaseException | None,
                 trace: TracebackType | None) -> None:
        self.close()


class Session:
    """A session of a server. It ends at the end of its block, by `drop`, or when nobody refers to it any more.

    >>> with Server() as server, server.session() as session:
    ...     server.create_table("t", [True, False])
    ...     session.attach("t")
    ...     server.commit(("insert", "t", (1, "x")))
    ...     session.changeset().hex()
    1
    2
    '5402010074001200010000000000000001030178'
    """

    def __init__(self, server: Server) -> None:
        self._server, self._is_ended = server, True
        # What a restart has captured where there was no memory for its bytes.
        self._kept: deque[Capture] = deque()
        self.number = server._client().session_new()
        self._is_ended = False

    def __del__(self) -> None:
        if not self._is_ended:
            self._server._end_session(self.number)

    def attach(self, table: str | None = None) -> None:
        """Attaches a table, or each table of which a row changes from now on."""
        self._server._client().session_attach(self.number, table)

    def filter(self, text: str) -> None:
        """Attaches from now on each table of which a row changes and whose name the filter accepts."""
        self._server._client().session_filter(self.number, text)

    def diff(self, database: str, table: str) -> None:
        """Records how a table differs from the one of the same name in a saved database."""
        self._server._client().session_diff(self.number, database, table)

    def enable(self, value: bool | None = None) -> bool:
        """Whether the session is enabled, after it was set so where a value is given."""
        return self._server._client().session_enable(self.number, None if value is None else _flag(value))

    def indirect(self, value: bool | None = None) -> bool:
        """Whether touches are indirect, after that was set where a value is given."""
        return self._server._client().session_indirect(self.number, None if value is None else _flag(value))

    def is_empty(self) -> bool:
        """Whether the session has no records."""
        return self._server._client().session_isempty(self.number)

    def changeset(self, key_flags: int = KEYS_PLACES) -> bytes:
        """The changeset of what the session has captured."""
        return self.capture().changeset(_key_flags(key_flags))

    def patchset(self, key_flags: int = KEYS_PLACES) -> bytes:
        """The patchset of what the session has captured."""
        return self.capture().patchset(_key_flags(key_flags))

    def capture(self) -> Capture:
        """What the session has captured."""
        return Capture(self._server._client().session_capture(self.number))

    def _restarted(self) -> Capture:
        """What a restart has captured: the first that was kept, or now."""
        try:
            return self._kept.popleft()
        except IndexError:
            return Capture(self._server._client().session_restart(self.number))

    def restart(self, key_flags: int = KEYS_PLACES) -> bytes:
        """The changeset. The session goes on without its records; its flags and tables stay. Where there is no memory
        for the bytes, the next restart answers them."""
        _key_flags(key_flags)
        capture = self._restarted()
        try:
            return capture.changeset(key_flags)
        except BaseException:
            self._kept.appendleft(capture)
            raise

    def captures(self) -> Iterator[Capture]:
        """Captures, each by a restart, until the session has no records. No change is lost between two of them, and
        none is in both. Each begins at the version at which the one before it ends.

        >>> with Server() as server, server.session() as session:
        ...     server.create_table("t", [True, False])
        ...     session.attach()
        ...     for number in 1, 2:
        ...         version = server.commit(("insert", "t", (number, "x")))
        ...         [capture.version for capture in session.captures()]
        ...     list(session.captures())
        1
        [2]
        [3]
        []
        """
        while self._kept or not self.is_empty():
            yield self._restarted()

    def drop(self) -> None:
        """Ends the session. It has ended already where the server is closed; ending it again does nothing."""
        if self._is_ended:
            return
        self._is_ended = True
        try:
            self._server._client().session_drop(self.number)
        except MemoryError:
            self._is_ended = False
            raise
        except ValueError:
            pass

    def __enter__(self) -> Session:
        return self

    def __exit__(self, kind: type[BaseException] | None, error: BaseException | None,
                 trace: TracebackType | None) -> None:
        self.drop()


class Capture:
    """What a session had captured at one moment. It stays as it is, whatever is committed or closed.

    >>> with Server() as server, server.session() as session:
    ...     server.create_table("t", [True, False])
    ...     session.attach()
    ...     capture = session.capture()
    1
    >>> capture.version, capture.changeset()
    (1, b'')
    """

    def __init__(self, handle: _changecap.Capture) -> None:
        self._handle = handle

    @property
    def version(self) -> int:
        """The version of the tables at that moment: what is committed later has a greater one."""
        return self._handle.version()

    def changeset(self, key_flags: int = KEYS_PLACES) -> bytes:
        """It as a changeset."""
        return self._handle.changeset(key_flags)

    def patchset(self, key_flags: int = KEYS_PLACES) -> bytes:
        """It as a patchset."""
        return self._handle.patchset(key_flags)


def _capture_of(handle: _changecap.Capture | None) -> Capture:
    if handle is None:
        raise AssertionError("a commit under a session has a capture")
    return Capture(handle)


class Snapshot:
    """The tables at one moment. Any threads may read it, and it stays as it is, whatever is committed or closed.

    >>> with Server() as server:
    ...     server.create_table("t", [True, False])
    ...     server.commit_many("t", [(1, "x"), (2, "y")])
    ...     snapshot = server.snapshot()
    ...     server.commit(("delete", "t", (1,)))
    1
    2
    3
    >>> snapshot.version, [row.values for row in snapshot.scan("t")]
    (2, [(1, 'x'), (2, 'y')])
    >>> [row.values for row in snapshot.scan_from("t", (2,), 10)]
    [(2, 'y')]
    """

    def __init__(self, handle: _changecap.Snapshot) -> None:
        self._handle = handle

    @property
    def version(self) -> int:
        """The version of the tables."""
        return self._handle.version()

    def get(self, table: str, row: Key) -> Row | None:
        """The row with this key, a tuple, or with this `RowId`; or None."""
        return self._handle.get(table, row)

    def scan(self, table: str) -> list[Row]:
        """All rows of a table: those with a key in the order of their keys, and then the others by their ids."""
        return self._handle.scan(table)

    def scan_from(self, table: str, key: Sequence[Given], limit: int = _ALL) -> list[Row]:
        """The rows with a key that is not below the given one, at most `limit` of them."""
        return self._handle.scan_from(table, key, limit)

    def dump(self, *tables: str, key_flags: int = KEYS_PLACES) -> bytes:
        """These tables as one changeset, with an insert for each row that has a key, for `Server.load`. A table
        without rows is in it; a table without key columns and a row without a key are not."""
        flags = _key_flags(key_flags)
        return b"".join(self._handle.dump(table, flags) for table in tables)

    def close(self) -> None:
        """Frees what the snapshot alone has. Closing it again does nothing."""
        self._handle.close()

    def __enter__(self) -> Snapshot:
        return self

    def __exit__(self, kind: type[BaseException] | None, error: BaseException | None,
                 trace: TracebackType | None) -> None:
        self.close()


class Transaction:
    """A transaction reads a snapshot as its operations have left it, without waiting. It is committed at the end of
    its block, or rolled back where that raises. The commit is refused by a `Conflict` where something that the
    transaction looked at has changed; `Server.run` begins again then.

    >>> with Server() as server:
    ...     server.create_table("t", [True, False])
    ...     with server.transaction() as transaction:
    ...         transaction.insert("t", (1, "x"))
    ...         mark = transaction.savepoint()
    ...         transaction.delete("t", (1,))
    ...         transaction.rollback_to(mark)
    ...     transaction.version, server.get("t", (1,)).values
    1
    (2, (1, 'x'))
    """

    version: int | None = None
    """The version of its commit."""
    capture: Capture | None = None
    """What its session has captured with its commit."""

    def __init__(self, server: Server, session: Session | None = None) -> None:
        self._server, self._session, self._has_ended = server, session, False
        self._handle = server._client().snapshot().begin()

    def get(self, table: str, row: Key) -> Row | None:
        """The row with this key, a tuple, or with this `RowId`; or None. The commit looks whether it has changed."""
        return self._handle.get(table, row)

    def scan(self, table: str) -> list[Row]:
        """All rows of a table. The commit looks whether any has changed."""
        return self._handle.scan(table)

    def insert(self, table: str, values: Sequence[Given], cause: int = DIRECT) -> None:
        """Inserts a row."""
        self._handle.make(("insert", table, values, cause))

    def insert_many(self, table: str, rows: Iterable[Sequence[Given]]) -> None:
        """Inserts rows, up to the first that is refused; `at` is its number, from 0."""
        self._handle.insert_many(table, rows)

    def update(self, table: str, row: Key, values: Mapping[int, Given], cause: int = DIRECT) -> None:
        """Sets columns of a row, as in {1: "x"}."""
        self._handle.make(("update", table, row, values, cause))

    def delete(self, table: str, row: Key, cause: int = DIRECT) -> None:
        """Deletes a row."""
        self._handle.make(("delete", table, row, cause))

    def savepoint(self) -> int:
        """Makes a savepoint, and answers its mark."""
        return self._handle.savepoint()

    def rollback_to(self, mark: int) -> None:
        """Undoes all operations since a savepoint, later savepoints too. The savepoint itself stays."""
        self._handle.rollback_to(mark)

    def commit(self) -> int:
        """Commits and answers the new version. The transaction has ended then, also where it is refused."""
        self._has_ended = True
        try:
            session = None if self._session is None else self._session.number
            self.version, capture = self._server._client().commit_transaction(self._handle, session)
        finally:
            self._handle.rollback()
        self.capture = None if capture is None else Capture(capture)
        return self.version

    def rollback(self) -> None:
        """Ends the transaction, of which nothing is left."""
        self._has_ended = True
        self._handle.rollback()

    def __enter__(self) -> Transaction:
        return self

    def __exit__(self, kind: type[BaseException] | None, error: BaseException | None,
                 trace: TracebackType | None) -> None:
        if kind is not None:
            self.rollback()
        elif not self._has_ended:
            self.commit()
