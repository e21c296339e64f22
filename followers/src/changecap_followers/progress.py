"""A line of progress, now and then."""
from __future__ import annotations

import logging
import threading
import time
from collections.abc import Callable

from .broker import Broker, Poisoned, Unavailable
from .follower import Follower
from .leader import Leader

log = logging.getLogger(__name__)


class Progress(threading.Thread):
    """Logs a line every so many seconds until it is told to stop. The line is made by a function of the
    seconds since the one before."""

    def __init__(self, line: Callable[[float], str], seconds: float, stop: threading.Event) -> None:
        super().__init__(name="progress", daemon=True)
        self._line, self._seconds, self._stop_event = line, seconds, stop

    def run(self) -> None:
        last = time.monotonic()
        while not self._stop_event.wait(self._seconds):
            now = time.monotonic()
            log.info("%s", self._line(now - last))
            last = now


def lag(broker: Broker, number: int) -> tuple[int, float]:
    """How many entries are behind that of a number, and for how many seconds the first of them has been
    there, by the clocks of both machines."""
    entries = broker.head().number - number
    waiting = broker.read(number, 1) if entries > 0 else []
    return entries, max(0.0, time.time() - waiting[0].time / 1000) if waiting else 0.0


def follower_line(follower: Follower) -> Callable[[float], str]:
    """The line of a follower: its version, how far it is behind, and how fast it applies."""
    before = follower.applied

    def line(seconds: float) -> str:
        nonlocal before
        rate, before = (follower.applied - before) / seconds, follower.applied
        try:
            entries, behind = lag(follower.broker, follower.place.number)
            late = f"lag {entries} entries, {behind:.1f} s"
        except Unavailable:
            late = "lag unknown, the broker is away"
        except Poisoned as error:
            late = f"lag unknown, {error}"
        return f"version {follower.place.version}, {late}, {rate:.1f} entries/s"

    return line


def leader_line(leader: Leader) -> Callable[[float], str]:
    """The line of a leader: its version, how much of it the broker does not have yet, and how fast it
    publishes."""
    publisher = leader.publisher
    before = publisher.entries, publisher.bytes

    def line(seconds: float) -> str:
        nonlocal before
        entries, size = publisher.entries - before[0], publisher.bytes - before[1]
        before = publisher.entries, publisher.bytes
        version, published = leader.stream_version(leader.server.snapshot().version), publisher.acknowledged
        return (f"version {version}, published {published}, lag {version - published} versions, "
                f"{entries / seconds:.1f} entries/s, {size / seconds / 1000:.1f} kB/s")

    return line
