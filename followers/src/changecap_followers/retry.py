"""Waiting for a broker that is away."""
from __future__ import annotations

import logging
import threading
from collections.abc import Callable
from typing import TypeVar

from .broker import Unavailable

log = logging.getLogger(__name__)
_Result = TypeVar("_Result")
_FIRST_SECONDS, _LAST_SECONDS = 0.05, 1.0


class Stopped(Exception):
    """It was told to stop while it waited."""


class Retry:
    """Makes calls again while they raise Unavailable, until it is told to stop."""

    def __init__(self, stop: threading.Event | None = None) -> None:
        self.stop = stop or threading.Event()

    def until_done(self, call: Callable[[], _Result]) -> _Result:
        """What a call answers. It is made again, after a wait that grows to a second."""
        seconds, tries = _FIRST_SECONDS, 0
        while True:
            try:
                result = call()
            except Unavailable as error:
                tries += 1
                if tries == 1:
                    log.warning("waits: %s", error)
                if self.stop.wait(seconds):
                    raise Stopped from None
                seconds = min(_LAST_SECONDS, seconds * 2)
            else:
                if tries:
                    log.warning("goes on after %d tries", tries)
                return result
