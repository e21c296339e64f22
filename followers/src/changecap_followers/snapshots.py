"""Snapshots of a stream, made now and then, and the trimming of the entries behind them."""
from __future__ import annotations

import logging

import changecap

from .broker import Broker, Poisoned
from .combine import snapshot_at_head
from .entry import Snapshot
from .retry import Retry, Stopped

log = logging.getLogger(__name__)
_LOOK_SECONDS = 0.2


class Snapshots:
    """Makes a snapshot behind every `every` entries, and keeps the last `keep` entries before it, for
    followers that are not far behind."""

    def __init__(self, broker: Broker, every: int = 10_000, keep: int = 1_000) -> None:
        self.broker, self.every, self.keep = broker, every, keep

    def run(self, retry: Retry) -> None:
        """Looks at the stream until it is told to stop."""
        try:
            shown = retry.until_done(self.broker.snapshot)
            last = shown.place.number if shown else 0
            while not retry.stop.wait(_LOOK_SECONDS):
                number = retry.until_done(self.broker.head).number
                if number - last >= self.every:
                    retry.until_done(self._make_or_log)
                    last = number
        except Stopped:
            pass

    def _make_or_log(self) -> None:
        """Makes a snapshot. Where that fails, the stream stays as it is, and the next one is tried in its
        turn."""
        try:
            self.make()
        except (Poisoned, changecap.Error, MemoryError) as error:
            log.error("no snapshot: %s", error)

    def make(self) -> Snapshot:
        """Makes a snapshot and trims the stream."""
        snapshot = snapshot_at_head(self.broker)
        self.broker.publish_snapshot(snapshot)
        self.broker.trim(snapshot.place.number - self.keep)
        log.info("snapshot of %s: %d bytes", snapshot.place, len(snapshot.changeset))
        return snapshot
