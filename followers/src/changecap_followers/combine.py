"""Several changesets as one, and the snapshot of a stream.

Both stand on the law of the crate cap_captures: captures in a row, each by a restart of the session, have a
concatenation, and that is the one capture over all of them. So what several entries change together is their
concatenation; and the concatenation of all entries from the first on is the capture since there were no rows,
which inserts every row that there is now.
"""
from __future__ import annotations

from collections.abc import Sequence

import changecap

from .broker import Broker, Poisoned
from .entry import EMPTY, Entry, Place, Snapshot

# How many entries are read at once for a snapshot.
_COUNT = 256


def concatenation(changesets: Sequence[bytes]) -> bytes:
    """The concatenation of changesets. Neighbours are concatenated in pairs, and their results in pairs
    again, so that each change is read as often as the number has binary digits."""
    level = [changeset for changeset in changesets if changeset]
    while len(level) > 1:
        pairs = [changecap.concat(one, two) for one, two in zip(level[::2], level[1::2])]
        level = pairs + level[len(pairs) * 2:]
    return level[0] if level else b""


def snapshot_at_head(broker: Broker, size: int = 64 * 1024 * 1024) -> Snapshot:
    """The tables at what is now the last entry of the stream, or at a later one: the newest snapshot,
    concatenated with the entries behind it. No server is asked, so that nobody waits. `size` bounds the bytes
    of entries that are concatenated at once."""
    head, snapshot = broker.head(), broker.snapshot() or EMPTY
    while snapshot.place.number < head.number:
        entries = entries_behind(broker, snapshot.place, head, size)
        changes = concatenation([entry.changeset for entry in entries])
        changeset = changecap.concat(snapshot.changeset, changes)
        snapshot = Snapshot.made(entries[-1].after, entries[-1].tables, changeset)
    return snapshot


def entries_behind(broker: Broker, place: Place, head: Place, size: int) -> list[Entry]:
    """The entries behind a place, up to the head or to one with which they have so many bytes."""
    found, total = list[Entry](), 0
    while place.number < head.number and total < size:
        entries = broker.read(place.number, _COUNT)
        if not entries:
            raise Poisoned(f"the entries behind {place} are missing")
        for entry in entries:
            if entry.before != place or not entry.is_whole():
                number = entry.after.number
                raise Poisoned(f"entry {number} does not follow {place}, or its bytes were turned")
            place = entry.after
            total += len(entry.changeset)
        found += entries
    return found
