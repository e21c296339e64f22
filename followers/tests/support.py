"""What the tests have in common: a Redis of their own on the loopback, and sums over tables."""
from __future__ import annotations

import hashlib
import os
import signal
import socket
import subprocess
import sys
import time
from collections.abc import Iterable

sys.dont_write_bytecode = True
HERE = os.path.dirname(os.path.abspath(__file__))
SOURCES = os.path.join(os.path.dirname(HERE), "src")
sys.path.insert(0, SOURCES)
# All tables that any test makes: the name of each, and its key.
TABLES = {"t": (True, False), "u": (True, True, False), "w": (False, True, False, False)}
# Ports below those that the system hands out.
PORTS = range(17100, 17900)
_MASK = 2**64 - 1


def row_sum(table: str, row: Iterable[object]) -> int:
    """A number for a row. The sum over rows does not depend on their order."""
    content = repr((table, tuple(row))).encode()
    return int.from_bytes(hashlib.blake2b(content, digest_size=8).digest(), "big")


def table_sum(rows: Iterable[tuple[str, Iterable[object]]]) -> int:
    """The sum over rows, each with its table."""
    return sum(row_sum(table, row) for table, row in rows) & _MASK


def is_free(port: int) -> bool:
    """Whether nobody listens on a port."""
    with socket.socket() as it:
        return it.connect_ex(("127.0.0.1", port)) != 0


def free_port(first: int = PORTS.start) -> int:
    """A port on which nobody listens."""
    return next(port for port in range(first, PORTS.stop) if is_free(port))


def environment() -> dict[str, str]:
    """That of a process with the package on its path."""
    paths = [SOURCES, *filter(None, [os.environ.get("PYTHONPATH")])]
    return {**os.environ, "PYTHONPATH": os.pathsep.join(paths), "PYTHONDONTWRITEBYTECODE": "1"}


class RedisServer:
    """A Redis with its files in a folder, which keeps each entry before it acknowledges it."""

    def __init__(self, folder: str, port: int | None = None, fsync: str = "always") -> None:
        self.folder, self.port, self.fsync = folder, port or free_port(), fsync
        self.url = f"redis://127.0.0.1:{self.port}/0"
        self.process: subprocess.Popen[bytes] | None = None

    def start(self) -> None:
        """Starts it, and waits until it listens."""
        words = ["redis-server", "--port", self.port, "--bind", "127.0.0.1", "--dir", self.folder,
                 "--save", "", "--appendonly", "yes", "--appendfsync", self.fsync]
        self.process = subprocess.Popen([str(word) for word in words], stdout=subprocess.DEVNULL)
        until(lambda: not is_free(self.port), 20)

    def kill(self) -> None:
        """Kills it."""
        if self.process:
            self.process.send_signal(signal.SIGKILL)
            self.process.wait()
            self.process = None

    def __enter__(self) -> RedisServer:
        self.start()
        return self

    def __exit__(self, *_: object) -> None:
        self.kill()


def until(is_so, seconds: float, pause: float = 0.01) -> None:
    """Waits until something is so. AssertionError where it is not after so long."""
    end = time.monotonic() + seconds
    while not is_so():
        if time.monotonic() > end:
            raise AssertionError(f"not so after {seconds} seconds: {is_so}")
        time.sleep(pause)
