"""Places of a stream, its entries, and its snapshots."""
from __future__ import annotations

import hashlib
from dataclasses import dataclass


def digest_of(*parts: bytes | str | int) -> str:
    """The digest of parts, each behind its length: BLAKE2b of 16 bytes, in hex."""
    digest = hashlib.blake2b(digest_size=16)
    for part in parts:
        content = part if isinstance(part, bytes) else str(part).encode()
        digest.update(b"%d:" % len(content))
        digest.update(content)
    return digest.hexdigest()


@dataclass(frozen=True)
class Place:
    """Where a stream is behind an entry: the number of the entry, from 1 on, the version of the tables to
    which it leads, and its digest. The digest covers that of the entry before, so it names all of the stream
    up to there."""

    number: int = 0
    version: int = 0
    digest: str = ""

    def __str__(self) -> str:
        return f"entry {self.number}, version {self.version}"


START = Place()
"""The place of a stream without entries."""


@dataclass(frozen=True)
class Entry:
    """An entry of a stream: the changes from the tables at one place to those at the next. `tables` has a
    header for each table that is published (tables.py), `time` the milliseconds of the leader's clock at the
    capture."""

    before: Place
    version: int
    time: int
    publisher: str
    tables: bytes
    changeset: bytes
    digest: str

    @classmethod
    def made(cls, before: Place, version: int, time: int, publisher: str, tables: bytes,
             changeset: bytes) -> Entry:
        """An entry with its digest."""
        entry = cls(before, version, time, publisher, tables, changeset, "")
        return cls(before, version, time, publisher, tables, changeset, entry.own_digest())

    @property
    def after(self) -> Place:
        """The place behind the entry."""
        return Place(self.before.number + 1, self.version, self.digest)

    def own_digest(self) -> str:
        """The digest that the entry should have."""
        return digest_of(self.before.number, self.before.version, self.before.digest, self.version, self.time,
                         self.publisher, self.tables, self.changeset)

    def is_whole(self) -> bool:
        """Whether every byte is as it was when the entry was made."""
        return self.digest == self.own_digest()


@dataclass(frozen=True)
class Snapshot:
    """The tables at a place, as one changeset of INSERTs."""

    place: Place
    tables: bytes
    changeset: bytes
    digest: str

    @classmethod
    def made(cls, place: Place, tables: bytes, changeset: bytes) -> Snapshot:
        """A snapshot with its digest."""
        return cls(place, tables, changeset, cls(place, tables, changeset, "").own_digest())

    def own_digest(self) -> str:
        """The digest that the snapshot should have."""
        return digest_of(self.place.number, self.place.version, self.place.digest, self.tables,
                         self.changeset)

    def is_whole(self) -> bool:
        """Whether every byte is as it was when the snapshot was made."""
        return self.digest == self.own_digest()


EMPTY = Snapshot.made(START, b"", b"")
"""The snapshot of a stream without entries."""
