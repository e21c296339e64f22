"""A test with a stream of its own on a Redis that the tests share."""
from __future__ import annotations

import atexit
import shutil
import tempfile
import unittest

from support import RedisServer
from changecap_followers import Leader, RedisBroker

_shared: list[RedisServer] = []


def shared_redis() -> RedisServer:
    """The Redis that the tests share, which ends with them."""
    if not _shared:
        folder = tempfile.mkdtemp(prefix="followers-")
        server = RedisServer(folder)
        server.start()
        _shared.append(server)
        atexit.register(lambda: (server.kill(), shutil.rmtree(folder)))
    return _shared[0]


class StreamCase(unittest.TestCase):
    """Has `broker`, a stream that is empty, and `folder`."""

    def setUp(self) -> None:
        self.url = shared_redis().url
        self.broker = RedisBroker(self.url, self.id())
        self.addCleanup(self.broker.close)
        self.folder = tempfile.mkdtemp(prefix="followers-")
        self.addCleanup(shutil.rmtree, self.folder)

    def lead(self, **how) -> Leader:
        """A leader with the table t, which is entry 1 and version 1 of a stream that was empty."""
        leader = Leader(self.broker, **how)
        self.addCleanup(leader.stop)
        self.assertTrue(leader.wait(leader.ensure_table("t", [True, False]), 10))
        return leader

    def publish(self, leader: Leader, *operations) -> None:
        """Makes a commit an entry of its own."""
        self.assertTrue(leader.wait(leader.server.commit(*operations), 10))
