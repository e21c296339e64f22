"""A follower's tables in a changecap server."""
from __future__ import annotations

import changecap

from .broker import Poisoned
from .entry import START, Place, Snapshot
from .tables import PLACE_TABLE, Key, insert, tables_of, update

# The stream, and the place: its number, its version and its digest.
_PLACE_KEY = True, False, False, False


class ServerTarget:
    """A server that has the leader's tables, and its place in the table changecap_place: a snapshot of the
    server has both as they were at one moment. `server` is another one where the follower had to begin with a
    snapshot again, so ask for it anew before each read."""

    def __init__(self, stream: str = "changecap") -> None:
        self.stream, self.tables = stream, dict[str, Key]()
        self.server, self._place = self._fresh()

    def _fresh(self) -> tuple[changecap.Server, Place]:
        server = changecap.Server()
        server.create_table(PLACE_TABLE, _PLACE_KEY)
        server.apply(insert(PLACE_TABLE, _PLACE_KEY, self._row(START)))
        return server, START

    def _row(self, place: Place) -> tuple[str, int, int, str]:
        return self.stream, place.number, place.version, place.digest

    def place(self) -> Place:
        return self._place

    def apply(self, changeset: bytes, tables: bytes, place: Place) -> None:
        made = self._made(self.server, self.tables, tables)
        self._apply(self.server, changeset, self._place, place)
        self.tables, self._place = made, place

    def replace(self, snapshot: Snapshot) -> None:
        server, start = self._fresh()
        made = self._made(server, {}, snapshot.tables)
        self._apply(server, snapshot.changeset, start, snapshot.place)
        self.server, self.tables, self._place = server, made, snapshot.place

    def _apply(self, server: changecap.Server, changeset: bytes, old: Place, new: Place) -> None:
        """Applies a changeset, and the change of the place behind it, as one changeset."""
        change = update(PLACE_TABLE, _PLACE_KEY, self._row(old), self._row(new))
        try:
            report = server.apply(changeset + change)
        except changecap.Error as error:
            raise Poisoned(str(error)) from None
        if report.skipped:
            raise AssertionError("a group of changes is for a table that is not among those of its entry")

    @staticmethod
    def _made(server: changecap.Server, has: dict[str, Key], tables: bytes) -> dict[str, Key]:
        """The tables, after those that the server has not yet were created."""
        wanted = tables_of(tables)
        for table, key in wanted.items():
            if has.get(table, key) != key:
                raise Poisoned(f"the table {table} has another key than before")
            if table not in has:
                try:
                    server.create_table(table, key)
                except changecap.Error as error:
                    raise Poisoned(f"the table {table}: {error}") from None
        return wanted

    def close(self) -> None:
        self.server.close()
