"""What a broker has to do, and how it fails."""
from __future__ import annotations

from typing import Protocol

from .entry import Entry, Place, Snapshot


class Unavailable(Exception):
    """The broker, or a database, does not answer now. What was asked may have been done: ask again."""


class Overtaken(Exception):
    """Another publisher has written into the stream, or the stream has lost entries: this one may not go
    on."""


class Poisoned(Exception):
    """What the stream has cannot be applied: bytes were turned, or a change meets a conflict. Nothing has
    changed."""


class Broker(Protocol):
    """A stream of entries, and the newest snapshot. Every call may raise Unavailable."""

    def head(self) -> Place:
        """The place behind the last entry, though that may be trimmed."""

    def publish(self, entry: Entry) -> None:
        """Appends an entry, where the stream is at the place before it; this look and the appending are one
        step. It returns when the broker has the entry as safely as it is told to keep it. An entry that is
        the last one already is not appended again. Where the stream is at another place, Overtaken is
        raised."""

    def read(self, number: int, count: int, seconds: float = 0) -> list[Entry]:
        """At most `count` entries behind that of a number, in their order, each once. Where there is none, it
        waits so long for one. Poisoned is raised where an entry cannot be read."""

    def trim(self, number: int) -> None:
        """Removes the entries up to that of a number."""

    def publish_snapshot(self, snapshot: Snapshot) -> None:
        """Puts a snapshot in place of an older one, in one step."""

    def snapshot(self) -> Snapshot | None:
        """The newest snapshot."""

    def close(self) -> None:
        """Ends the connection."""
