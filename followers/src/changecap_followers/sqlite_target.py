"""A follower's tables in a database of SQLite."""
from __future__ import annotations

from collections.abc import Callable, Iterator
from contextlib import contextmanager

from .broker import Poisoned, Unavailable
from .entry import Place, Snapshot
from .sqlite_library import BUSY, LOCKED, Conflict, Database, SqliteError
from .tables import PLACE_TABLE, Key, tables_of

_CREATE = (f"CREATE TABLE IF NOT EXISTS {PLACE_TABLE}(stream TEXT PRIMARY KEY, number INTEGER NOT NULL, "
           "version INTEGER NOT NULL, digest TEXT NOT NULL, tables BLOB NOT NULL)")
_BEGIN = f"INSERT OR IGNORE INTO {PLACE_TABLE} VALUES(?, 0, 0, '', x'')"
_PLACE = f"SELECT number, version, digest, tables FROM {PLACE_TABLE} WHERE stream = ?"
_MOVE = (f"UPDATE {PLACE_TABLE} SET number = ?, version = ?, digest = ?, tables = ? "
         "WHERE stream = ? AND digest = ?")


def quoted(name: str) -> str:
    """A name in SQL."""
    return '"' + name.replace('"', '""') + '"'


class SqliteTarget:
    """A database in a file that has the leader's tables, and in the table changecap_place its place, which
    moves in the transaction that changes the tables. Readers have the database in WAL mode, and wait for no
    follower."""

    def __init__(self, path: str, stream: str = "changecap") -> None:
        self.stream = stream
        with _failures():
            self._database = Database(path)
            try:
                self._database.execute("PRAGMA journal_mode = WAL")
                # What a crash of the machine takes back is read from the stream again: the place goes with
                # the tables.
                self._database.execute("PRAGMA synchronous = NORMAL")
                self._database.execute(_CREATE)
                self._database.execute(_BEGIN, stream)
                self._place, self._tables = self._read_place()
            except BaseException:
                self._database.close()
                raise

    def _read_place(self) -> tuple[Place, bytes]:
        number, version, digest, tables = self._database.execute(_PLACE, self.stream)[0]
        if not (isinstance(number, int) and isinstance(version, int) and isinstance(tables, bytes)):
            raise Poisoned(f"the table {PLACE_TABLE} has no place in its row of the stream {self.stream}")
        return Place(number, version, str(digest)), tables

    def place(self) -> Place:
        return self._place

    def apply(self, changeset: bytes, tables: bytes, place: Place) -> None:
        def change() -> None:
            if tables != self._tables:
                self._make_tables(tables)
            self._database.apply(changeset)

        self._in_transaction(change, tables, place)

    def replace(self, snapshot: Snapshot) -> None:
        def change() -> None:
            for table in tables_of(self._tables):
                self._database.execute(f"DELETE FROM {quoted(table)}")
            self._make_tables(snapshot.tables)
            self._database.apply(snapshot.changeset)

        self._in_transaction(change, snapshot.tables, snapshot.place)

    def _in_transaction(self, change: Callable[[], None], tables: bytes, place: Place) -> None:
        """Makes a change and moves the place in one transaction."""
        with _failures():
            self._database.execute("BEGIN IMMEDIATE")
            try:
                change()
                self._database.execute(_MOVE, place.number, place.version, place.digest, tables, self.stream,
                                       self._place.digest)
                if self._database.changed_rows() != 1:
                    raise Poisoned(f"another follower of the stream {self.stream} writes into this database")
                self._database.execute("COMMIT")
            except BaseException:
                self._roll_back()
                raise
        self._place, self._tables = place, tables

    def _roll_back(self) -> None:
        """Ends the transaction, unless SQLite has ended it already."""
        try:
            self._database.execute("ROLLBACK")
        except SqliteError:
            pass

    def _make_tables(self, tables: bytes) -> None:
        """Creates the tables that are not there, and looks whether the others fit: SQLite would pass over the
        changes of one that does not, and say nothing."""
        for table, key in tables_of(tables).items():
            found = self._database.execute("SELECT name FROM sqlite_schema WHERE type = 'table' AND "
                                           "name = ? COLLATE NOCASE", table)
            if not found:
                self._database.execute(_definition(table, key))
            elif found != [(table,)]:
                raise Poisoned(f"the database has the table {found[0][0]!r}, which is {table} in SQLite")
            elif self._key_of(table) != _positions(key):
                raise Poisoned(f"the table {table} of the database has other columns or another key than the "
                               "leader's")

    def _key_of(self, table: str) -> list[int]:
        """The position of each column within the primary key, or 0."""
        rows = self._database.execute(f"PRAGMA table_info({quoted(table)})")
        return [int(row[5] or 0) for row in rows]

    def close(self) -> None:
        self._database.close()


def _positions(key: Key) -> list[int]:
    """The position of each column within the key, from 1 on, or 0."""
    return [sum(key[:column + 1]) if is_key else 0 for column, is_key in enumerate(key)]


def _definition(table: str, key: Key) -> str:
    """The table without types, so that SQLite stores each value as it is. Its columns are named as in
    JSON."""
    columns = [f"c{column}" for column in range(len(key))]
    keys = [column for column, is_key in zip(columns, key) if is_key]
    return f"CREATE TABLE {quoted(table)}({', '.join(columns)}, PRIMARY KEY({', '.join(keys)}))"


@contextmanager
def _failures() -> Iterator[None]:
    """Turns the errors of SQLite into those of a target."""
    try:
        yield
    except Conflict as error:
        raise Poisoned(str(error)) from None
    except SqliteError as error:
        if error.code & 255 in (BUSY, LOCKED):
            raise Unavailable(f"the database: {error}") from None
        raise
