"""A publisher: what a source captures becomes the entries of a stream."""
from __future__ import annotations

import logging
import secrets
import threading
import time
from collections.abc import Callable
from typing import NamedTuple, Protocol

from .broker import Broker, Overtaken
from .entry import Entry, Place
from .retry import Retry, Stopped

log = logging.getLogger(__name__)
# How long it waits where there is no memory.
_MEMORY_SECONDS = 1


class Captured(NamedTuple):
    """What has changed since the last capture, and the version of the tables at this one."""

    version: int
    changeset: bytes
    tables: bytes


class Source(Protocol):
    """Where changes come from."""

    def has_changes(self) -> bool:
        """Whether anything has changed since the last capture."""

    def capture(self) -> Captured:
        """What has changed since the last capture, in one step with the version. It is not in the next
        one."""


class Publisher:
    """Captures, publishes and waits for the broker, in turn: what is committed meanwhile is one entry.
    `acknowledged` is the version up to which the broker has all changes. It looks for changes every
    `interval` seconds. `failed` is called where it may not go on."""

    def __init__(self, broker: Broker, source: Source, place: Place, interval: float = 0.001,
                 name: str | None = None, failed: Callable[[], None] | None = None) -> None:
        self.broker, self.source, self.place, self.interval = broker, source, place, interval
        self.name, self._failed = name or secrets.token_hex(8), failed
        self.acknowledged = place.version
        self.entries = self.bytes = 0
        self.error: BaseException | None = None
        self._waiting: Entry | None = None
        self._wanted, self._changed, self._hurry = 0, threading.Condition(), threading.Event()

    def step(self, retry: Retry) -> bool:
        """Publishes what has changed. Answers whether anything had."""
        entry = self._waiting
        if entry is None:
            if not (self.source.has_changes() or self._wanted > self.acknowledged):
                return False
            captured = self.source.capture()
            entry = Entry.made(self.place, captured.version, int(1000 * time.time()), self.name,
                               captured.tables, captured.changeset)
            # From here on it may have been written, and no other one takes its place.
            self._waiting = entry
        whole = entry
        retry.until_done(lambda: self.broker.publish(whole))
        self._waiting, self.place = None, entry.after
        self.entries, self.bytes = self.entries + 1, self.bytes + len(entry.changeset)
        with self._changed:
            self.acknowledged = entry.version
            self._changed.notify_all()
        return True

    def run(self, retry: Retry) -> None:
        """Publishes until it is told to stop, or may not go on; `error` says why then."""
        try:
            while not retry.stop.is_set():
                if not self._step_if_memory(retry):
                    self._hurry.wait(self.interval)
                    self._hurry.clear()
        except Stopped:
            pass
        except BaseException as error:  # noqa: BLE001 - whatever it is, those that wait get it
            log.error("%s", error)
            with self._changed:
                self.error = error
                self._changed.notify_all()
            if self._failed:
                self._failed()

    def _step_if_memory(self, retry: Retry) -> bool:
        """A step, which is tried again later where there is no memory for it."""
        try:
            return self.step(retry)
        except MemoryError:
            log.warning("waits: out of memory")
            retry.stop.wait(_MEMORY_SECONDS)
            return True

    def wait(self, version: int, seconds: float | None = None) -> bool:
        """Waits until the broker has all changes up to a version that is committed, at most so long. Answers
        whether it has. Raises what has ended the publisher, Overtaken above all."""
        with self._changed:
            self._wanted = max(self._wanted, version)
            self._hurry.set()
            self._changed.wait_for(lambda: self.acknowledged >= version or self.error is not None, seconds)
            if self.acknowledged >= version:
                return True
            if isinstance(self.error, Overtaken):
                raise Overtaken(str(self.error))
            if self.error is not None:
                raise RuntimeError("the publisher has ended") from self.error
            return False
