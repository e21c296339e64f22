"""Followers of a changecap server: its changes become the entries of a stream, and copies elsewhere apply
them.

    from changecap_followers import Follower, Leader, RedisBroker, ServerTarget

    with Leader(RedisBroker("redis://localhost")) as leader:
        leader.ensure_table("t", [True, False])
        version = leader.server.commit(("insert", "t", (1, "x")))
        leader.wait(version)  # the broker has it

    target = ServerTarget()
    Follower(RedisBroker("redis://localhost"), target).catch_up()
    print(target.server.scan("t"))
"""
import logging

from .broker import Broker, Overtaken, Poisoned, Unavailable
from .entry import START, Entry, Place, Snapshot
from .follower import Follower
from .leader import Leader
from .publisher import Captured, Publisher, Source
from .redis_broker import RedisBroker
from .retry import Retry, Stopped
from .server_target import ServerTarget
from .snapshots import Snapshots
from .sqlite_target import SqliteTarget
from .tables import PLACE_TABLE
from .target import Target

__all__ = [
    "PLACE_TABLE", "START", "Broker", "Captured", "Entry", "Follower", "Leader", "Overtaken", "Place",
    "Poisoned", "Publisher", "RedisBroker", "Retry", "ServerTarget", "Snapshot", "Snapshots", "Source",
    "SqliteTarget", "Stopped", "Target", "Unavailable",
]

logging.getLogger(__name__).addHandler(logging.NullHandler())
