"""A broker: Redis, with a stream for the entries.

The keys of the stream NAME, whose braces keep them in one slot of a cluster:

  {NAME}:entries              the stream; the id of an entry is its number and a zero
  {NAME}:head                 a hash: the place behind the last entry
  {NAME}:snapshot             a hash: the place of the newest snapshot, and the key that has its bytes
  {NAME}:snapshot:TOKEN       a list: the bytes of a snapshot in pieces
"""
from __future__ import annotations

import logging
import secrets
from collections.abc import Iterator
from contextlib import contextmanager
from typing import Any

import redis

from .broker import Overtaken, Poisoned, Unavailable
from .entry import Entry, Place, Snapshot

log = logging.getLogger(__name__)
PIECE = 32 * 1024 * 1024
# What Redis takes as one string, unless its proto-max-bulk-len says otherwise.
LIMIT = 512 * 1024 * 1024
# How long the pieces of a snapshot stay that is not finished.
UNFINISHED_SECONDS = 3600
# Refusals that end by themselves, or once someone has seen to the broker.
PASSING = ("OOM", "LOADING", "READONLY", "MISCONF", "BUSY", "MASTERDOWN", "CLUSTERDOWN", "TRYAGAIN",
           "NOREPLICAS")

# Appends an entry behind the place that it is made for. It answers nothing, or the place of the head where
# that is neither this place nor the one behind the entry.
PUBLISH = """
local head = redis.call('HMGET', KEYS[2], 'number', 'version', 'digest')
local place = {head[1] or '0', head[2] or '0', head[3] or ''}
local function is_at(first)
    return place[1] == ARGV[first] and place[2] == ARGV[first + 1] and place[3] == ARGV[first + 2]
end
if is_at(4) then return {} end
if not is_at(1) then return place end
redis.call('XADD', KEYS[1], ARGV[4] .. '-0', 'before_version', ARGV[2], 'before_digest', ARGV[3],
    'version', ARGV[5], 'digest', ARGV[6], 'time', ARGV[7], 'publisher', ARGV[8],
    'tables', ARGV[9], 'changeset', ARGV[10])
redis.call('HSET', KEYS[2], 'number', ARGV[4], 'version', ARGV[5], 'digest', ARGV[6])
return {}
"""

# Shows a snapshot whose pieces are written, unless there is one of the same entry or of a later one.
SHOW_SNAPSHOT = """
local shown = redis.call('HMGET', KEYS[1], 'number', 'pieces')
if shown[1] and tonumber(shown[1]) >= tonumber(ARGV[1]) then return redis.call('DEL', KEYS[2]) end
redis.call('PERSIST', KEYS[2])
redis.call('DEL', KEYS[1])
redis.call('HSET', KEYS[1], 'number', ARGV[1], 'version', ARGV[2], 'place_digest', ARGV[3], 'tables', ARGV[4],
    'digest', ARGV[5], 'pieces', KEYS[2])
if shown[2] then redis.call('UNLINK', shown[2]) end
"""


@contextmanager
def _failures() -> Iterator[None]:
    """Turns the errors of a broker that does not answer now into Unavailable."""
    try:
        yield
    except (redis.ConnectionError, redis.TimeoutError, OSError) as error:
        raise Unavailable(str(error)) from None
    except redis.ResponseError as error:
        if str(error).startswith(PASSING) or isinstance(error, redis.exceptions.ReadOnlyError):
            raise Unavailable(str(error)) from None
        raise


class RedisBroker:
    """A stream of Redis: its URL, as redis://localhost:6379/0, and its name."""

    def __init__(self, url: str, name: str = "changecap", timeout: float = 5) -> None:
        self.name, self._timeout = name, timeout
        self._redis = redis.Redis.from_url(url, socket_timeout=timeout, socket_connect_timeout=timeout)
        self._entries, self._head = f"{{{name}}}:entries", f"{{{name}}}:head"
        self._shown = f"{{{name}}}:snapshot"
        self._publish = self._redis.register_script(PUBLISH)
        self._show_snapshot = self._redis.register_script(SHOW_SNAPSHOT)

    def keeps_all(self) -> bool:
        """Whether an acknowledged entry is on the broker's disk. A broker that does not say so is taken not
        to."""
        with _failures():
            try:
                told = self._redis.config_get("append*")
            except redis.ResponseError:
                return False
        return bool(told.get("appendonly") == "yes" and told.get("appendfsync") == "always")

    def head(self) -> Place:
        with _failures():
            number, version, digest = self._redis.hmget(self._head, "number", "version", "digest")
        return Place(int(number), int(version), digest.decode()) if number else Place()

    def publish(self, entry: Entry) -> None:
        before, after = entry.before, entry.after
        if len(entry.changeset) > LIMIT:
            size = len(entry.changeset)
            raise ValueError(f"entry {after.number} has {size} bytes, and Redis takes {LIMIT}")
        with _failures():
            at = self._publish(
                keys=[self._entries, self._head],
                args=[before.number, before.version, before.digest, after.number, after.version, after.digest,
                      entry.time, entry.publisher, entry.tables, entry.changeset])
        if at:
            number, version, _ = (it.decode() for it in at)
            raise Overtaken(f"the stream {self.name} is at entry {number}, version {version}, which is not "
                            f"{before} of this publisher: another one has written, or entries are lost")

    def read(self, number: int, count: int, seconds: float = 0) -> list[Entry]:
        # The connection waits no longer for an answer than its timeout.
        block = int(1000 * min(seconds, self._timeout / 2)) or None
        with _failures():
            found = self._redis.xread({self._entries: f"{number}-0"}, count=count, block=block)
        return [_entry_of(at, fields) for _, entries in found for at, fields in entries]

    def trim(self, number: int) -> None:
        with _failures():
            self._redis.xtrim(self._entries, minid=f"{number + 1}-0", approximate=False)

    def publish_snapshot(self, snapshot: Snapshot) -> None:
        key, place = f"{self._shown}:{secrets.token_hex(8)}", snapshot.place
        with _failures():
            for at in range(0, len(snapshot.changeset) or 1, PIECE):
                self._redis.rpush(key, snapshot.changeset[at:at + PIECE])
                self._redis.expire(key, UNFINISHED_SECONDS)
            self._show_snapshot(
                keys=[self._shown, key],
                args=[place.number, place.version, place.digest, snapshot.tables, snapshot.digest])

    def snapshot(self) -> Snapshot | None:
        while True:
            with _failures():
                shown = self._redis.hgetall(self._shown)
                if not shown:
                    return None
                key = shown[b"pieces"].decode()
                pieces = [self._redis.lindex(key, at) for at in range(self._redis.llen(key))]
                # Where a newer snapshot has come meanwhile, the pieces may be gone.
                if self._redis.hget(self._shown, "pieces") == shown[b"pieces"]:
                    return _snapshot_of(shown, pieces)

    def close(self) -> None:
        self._redis.close()


def _entry_of(at: bytes, fields: dict[bytes, bytes]) -> Entry:
    """The entry of an id and its fields."""
    try:
        number = int(at.partition(b"-")[0])
        before = Place(number - 1, int(fields[b"before_version"]), fields[b"before_digest"].decode())
        return Entry(before, int(fields[b"version"]), int(fields[b"time"]), fields[b"publisher"].decode(),
                     fields[b"tables"], fields[b"changeset"], fields[b"digest"].decode())
    except (KeyError, ValueError) as error:
        raise Poisoned(f"entry {at.decode()} has not the fields of an entry: {error!r}") from None


def _snapshot_of(shown: dict[bytes, bytes], pieces: list[Any]) -> Snapshot:
    """The snapshot of its fields and pieces."""
    try:
        place = Place(int(shown[b"number"]), int(shown[b"version"]), shown[b"place_digest"].decode())
        return Snapshot(place, shown[b"tables"], b"".join(pieces), shown[b"digest"].decode())
    except (KeyError, ValueError, TypeError) as error:
        raise Poisoned(f"the snapshot has not the fields of one: {error!r}") from None
