"""What the two commands have in common: options, exit statuses, signals and standard input."""
from __future__ import annotations

import argparse
import logging
import os
import select
import signal
import sys
import threading
from collections.abc import Callable, Iterator
from types import FrameType

from .broker import Overtaken, Poisoned
from .redis_broker import RedisBroker
from .retry import Stopped

DONE, FAILED, USAGE, OVERTAKEN, POISONED, UNPUBLISHED = 0, 1, 2, 3, 4, 5
_LEVELS = "DEBUG", "INFO", "WARNING", "ERROR"
_READ = 65536


def parser(name: str, about: str, statuses: str) -> argparse.ArgumentParser:
    """A parser with the options of both commands."""
    made = argparse.ArgumentParser(prog=name, description=about, epilog=f"exit status: {statuses}",
                                   formatter_class=argparse.RawDescriptionHelpFormatter)
    made.add_argument("url", metavar="URL", help="the broker, as redis://localhost:6379/0")
    made.add_argument("--stream", metavar="NAME", default="changecap",
                      help="the name of the stream (changecap)")
    made.add_argument("--progress", metavar="SECONDS", type=float, default=10,
                      help="how often a line of progress is logged, or 0 (10)")
    made.add_argument("--log-level", metavar="LEVEL", default="INFO", choices=_LEVELS,
                      help="DEBUG, INFO, WARNING or ERROR (INFO)")
    return made


def broker_of(arguments: argparse.Namespace, options: argparse.ArgumentParser) -> RedisBroker:
    """The broker of a URL."""
    try:
        return RedisBroker(arguments.url, arguments.stream)
    except ValueError as error:
        options.error(f"URL: {error}")


def set_up_log(arguments: argparse.Namespace) -> None:
    """Logs to standard error, a line each."""
    logging.basicConfig(level=arguments.log_level, format="%(asctime)s %(levelname)s %(message)s",
                        stream=sys.stderr)


class Ending:
    """What ends a command: SIGTERM or SIGINT, or a call of `end`. `stop` is set then, and `lines` has no
    more."""

    def __init__(self) -> None:
        self.stop = threading.Event()
        self._woken, self._waking = os.pipe()
        for number in (signal.SIGTERM, signal.SIGINT):
            signal.signal(number, self._on_signal)

    def _on_signal(self, number: int, _frame: FrameType | None) -> None:
        self.end()

    def end(self) -> None:
        """Ends the command. Any thread may call it."""
        self.stop.set()
        os.write(self._waking, b"x")

    def lines(self) -> Iterator[str]:
        """The lines of standard input, each as soon as it is there."""
        kept = b""
        while not self.stop.is_set():
            ready, _, _ = select.select([0, self._woken], [], [])
            if self._woken in ready:
                return
            piece = os.read(0, _READ)
            *lines, kept = (kept + piece).split(b"\n") if piece else (kept, b"")
            for line in lines:
                if self.stop.is_set():
                    return
                if line.strip() and not line.startswith(b"#"):
                    yield line.decode(errors="replace")
            if not piece:
                return


def status_of(work: Callable[[], int]) -> int:
    """The exit status of a command, of what it answers or raises."""
    try:
        return work()
    except Stopped:
        return DONE
    except Overtaken as error:
        logging.error("%s", error)
        return OVERTAKEN
    except Poisoned as error:
        logging.error("%s", error)
        return POISONED
    except Exception as error:  # noqa: BLE001 - the one place where any failure becomes a status
        is_detailed = logging.getLogger().isEnabledFor(logging.DEBUG)
        logging.error("%s: %s", type(error).__name__, error, exc_info=is_detailed)
        return FAILED
