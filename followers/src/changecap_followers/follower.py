"""A follower: applies the entries of a stream to its target."""
from __future__ import annotations

import logging
from collections.abc import Callable, Sequence

from .broker import Broker, Poisoned
from .entry import EMPTY, Entry, Place
from .retry import Retry
from .target import Target

log = logging.getLogger(__name__)
# How many entries are read at once, at most, and how many bytes a read should have.
_COUNT, _BYTES = 1024, 4 * 1024 * 1024
# How long a read waits for an entry.
WAIT_SECONDS = 0.5


class Follower:
    """Brings the tables of a target on from place to place of a stream, and shows no others. Entries that
    wait are applied together; with `one_by_one` each is applied by itself. `shown` is called with the place
    behind each step. `together` makes one changeset of several: one behind the other, so that their changes
    are made in order. To concatenate them is as right, and takes longer than to apply them."""

    def __init__(self, broker: Broker, target: Target, one_by_one: bool = False,
                 shown: Callable[[Place], None] | None = None,
                 together: Callable[[Sequence[bytes]], bytes] = b"".join) -> None:
        self.broker, self.target, self.one_by_one, self.shown = broker, target, one_by_one, shown
        self.together = together
        self.applied = 0
        """How many entries were applied."""
        self._count = 1

    @property
    def place(self) -> Place:
        """The place of the tables."""
        return self.target.place()

    def step(self, seconds: float = 0) -> bool:
        """Applies what waits, at most so many entries as are read at once, or begins with the snapshot again
        where entries are missing. Where nothing waits, it waits so long for an entry. Answers whether
        anything was done. Poisoned is raised where an entry cannot be applied: all before it is."""
        found = self._read(seconds)
        # An entry may come twice.
        entries = [entry for entry in found if entry.after.number > self.place.number]
        if not entries:
            return self._look_at_head()
        self._choose_count(entries)
        whole = self._that_follow(entries)
        if whole:
            self._apply(whole)
        elif not entries[0].is_whole():
            raise Poisoned(f"{entries[0].after}: its bytes are not those that were published; the tables "
                           f"stay at {self.place}")
        else:
            self._begin_again(f"entry {entries[0].after.number} does not follow {self.place}")
        return True

    def catch_up(self, retry: Retry | None = None) -> Place:
        """Applies all that waits, and answers the place: that of the stream's head at a moment since the
        call."""
        retry = retry or Retry()
        while retry.until_done(self.step):
            pass
        return self.place

    def run(self, retry: Retry) -> None:
        """Follows until it is told to stop."""
        while not retry.stop.is_set():
            retry.until_done(lambda: self.step(WAIT_SECONDS))

    def _read(self, seconds: float) -> list[Entry]:
        """The entries that wait. Where one of them cannot be read, the one that is first alone."""
        try:
            return self.broker.read(self.place.number, self._count, seconds)
        except Poisoned:
            if self._count == 1:
                raise
            self._count = 1
            return self.broker.read(self.place.number, self._count)

    def _choose_count(self, entries: list[Entry]) -> None:
        """Reads more at once while entries are small, and fewer where they are large."""
        size = sum(len(entry.changeset) for entry in entries)
        if size > _BYTES:
            self._count = max(1, self._count // 2)
        elif len(entries) == self._count and size < _BYTES // 4:
            self._count = min(_COUNT, self._count * 2)

    def _that_follow(self, entries: list[Entry]) -> list[Entry]:
        """The first entries, as long as each is whole and follows the one before it, and the first the
        tables. Each has the tables of the one before it, and may have more."""
        place, found = self.place, list[Entry]()
        for entry in entries:
            has_tables = not found or entry.tables.startswith(found[-1].tables)
            if entry.before != place or not entry.is_whole() or not has_tables:
                break
            found.append(entry)
            place = entry.after
        return found

    def _apply(self, entries: list[Entry]) -> None:
        """Applies entries together. Where they cannot be, each is applied by itself, up to the one that
        cannot."""
        steps = [[entry] for entry in entries] if self.one_by_one else [entries]
        try:
            for step in steps:
                self._apply_step(step)
        except Poisoned:
            if len(entries) == 1 or self.one_by_one:
                raise
            for entry in entries:
                self._apply_step([entry])

    def _apply_step(self, entries: list[Entry]) -> None:
        last = entries[-1]
        try:
            changeset = self.together([entry.changeset for entry in entries])
            self.target.apply(changeset, last.tables, last.after)
        except Poisoned as error:
            raise Poisoned(f"{entries[0].after}: {error}; the tables stay at {self.place}") from None
        self.applied += len(entries)
        self._show()

    def _show(self) -> None:
        if self.shown:
            self.shown(self.place)

    def _look_at_head(self) -> bool:
        """Where nothing waits, sees whether that is so because entries are gone."""
        head = self.broker.head()
        if head == self.place:
            return False
        if head.number > self.place.number and self.broker.read(self.place.number, 1):
            return True  # an entry has come since
        self._begin_again(f"the stream is at {head}, and {self.place} is not on the way to it")
        return True

    def _begin_again(self, why: str) -> None:
        """Begins with the newest snapshot, or without rows where there is none yet."""
        snapshot = self.broker.snapshot() or EMPTY
        if snapshot.place == self.place:
            raise Poisoned(f"{why}, and the snapshot is no newer")
        if not snapshot.is_whole():
            raise Poisoned(f"the snapshot of {snapshot.place}: its bytes are not those that were published; "
                           f"the tables stay at {self.place}")
        level = logging.INFO if self.place == EMPTY.place else logging.WARNING
        log.log(level, "begins with the snapshot of %s: %s", snapshot.place, why)
        self.target.replace(snapshot)
        self._show()
