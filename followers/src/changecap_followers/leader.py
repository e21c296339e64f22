"""A leader: a changecap server whose changes are published."""
from __future__ import annotations

import logging
import threading
from collections.abc import Callable, Iterable
from types import TracebackType

import changecap

from .broker import Broker
from .follower import Follower
from .publisher import Captured, Publisher
from .retry import Retry
from .server_target import ServerTarget
from .snapshots import Snapshots
from .tables import PLACE_TABLE, headers

log = logging.getLogger(__name__)


class Leader:
    """A server that has what the stream has, and whose changes are published from then on. Only the tables
    that `ensure_table` has made are.

    `target` is that of a follower that is to lead now and follows no more, else a fresh one. It waits for the
    broker at first, as `retry` says. `failed` is called where the publisher may not go on. Any thread may
    call the server and `wait`.
    """

    def __init__(self, broker: Broker, target: ServerTarget | None = None, interval: float = 0.001,
                 name: str | None = None, snapshots: Snapshots | None = None, retry: Retry | None = None,
                 failed: Callable[[], None] | None = None) -> None:
        target = target or ServerTarget()
        place = Follower(broker, target).catch_up(retry)
        self.server, self.tables = target.server, dict(target.tables)
        self._session, self._lock = self.server.session(), threading.Lock()
        self._offset = place.version - self.server.snapshot().version
        self._has_new_tables = False
        self._capture: changecap.Capture | None = None
        for table in self.tables:
            self._session.attach(table)
        self.publisher = Publisher(broker, self, place, interval, name, failed)
        self._retry = Retry()
        works = [self.publisher.run, *([snapshots.run] if snapshots else [])]
        self._threads = [threading.Thread(target=it, args=(self._retry,), daemon=True) for it in works]
        for thread in self._threads:
            thread.start()

    def ensure_table(self, table: str, key: Iterable[bool]) -> int:
        """Creates a table that is published, unless it is there, and answers the version. Call it before
        others write into the table."""
        key = tuple(bool(is_key) for is_key in key)
        with self._lock:
            if table in self.tables:
                if self.tables[table] != key:
                    raise ValueError(f"the table {table} is there with another key")
                return self.server.snapshot().version
            if table == PLACE_TABLE or not any(key):
                raise ValueError(f"{PLACE_TABLE} is the table of a follower's place" if any(key) else
                                 f"the table {table} has no key, so that its changes cannot be captured")
            self._session.attach(table)  # before there is a row in it
            version = self.server.create_table(table, key)
            self.tables = {**self.tables, table: key}
            self._has_new_tables = True
            return version

    def wait(self, version: int, seconds: float | None = None) -> bool:
        """Waits until the broker has all that was committed up to a version of the server, as `commit`
        answers it, at most so long. Answers whether it has. Call it before a client is told that its commit
        is done. Overtaken is raised where another publisher has written: this leader's commits since its last
        entry are lost. A version that is not committed yet is a ValueError."""
        if version > self.server.snapshot().version:
            raise ValueError(f"version {version} is not committed yet")
        return self.publisher.wait(version + self._offset, seconds)

    def stream_version(self, version: int) -> int:
        """The version in the stream of a version of the server. That of a leader goes on where the one before
        ended."""
        return version + self._offset

    def has_changes(self) -> bool:
        return self._has_new_tables or not self._session.is_empty()

    def capture(self) -> Captured:
        if self._capture is None:
            self._has_new_tables = False
            self._capture = self._restarted()
        capture = self._capture
        changeset = capture.changeset()  # where there is no memory for it, the next call has the capture
        self._capture = None
        # A table that has rows in the capture is among these, since it was noted before.
        return Captured(capture.version + self._offset, changeset, headers(self.tables))

    def _restarted(self) -> changecap.Capture:
        """A capture by a restart; where the session has no records, one without changes."""
        while True:
            for capture in self._session.captures():
                return capture
            capture = self._session.capture()
            if not capture.changeset():
                return capture

    def close(self, seconds: float = 10) -> bool:
        """Waits at most so long until all is published, and stops publishing. Answers whether all is. The
        server stays open."""
        try:
            is_published = self.wait(self.server.snapshot().version, seconds)
        finally:
            self.stop()
        if not is_published:
            log.error("ended before all was published: version %d is the last that is",
                      self.publisher.acknowledged)
        return is_published

    def stop(self) -> None:
        """Stops publishing at once. The server stays open."""
        self._retry.stop.set()
        for thread in self._threads:
            thread.join()

    def __enter__(self) -> Leader:
        return self

    def __exit__(self, kind: type[BaseException] | None, error: BaseException | None,
                 trace: TracebackType | None) -> None:
        self.close()
