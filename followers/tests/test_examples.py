"""The examples of docs/manual/followers.md."""
import threading
import unittest

import support  # noqa: F401 - the path of the package
from stream_case import StreamCase
from changecap_followers import (PLACE_TABLE, Follower, Leader, Overtaken, RedisBroker, Retry, ServerTarget,
                                 Snapshots, SqliteTarget, Stopped)


class Examples(StreamCase):
    def setUp(self):
        super().setUp()
        self.broker._redis.flushall()
        self.path = f"{self.folder}/copy.db"

    def test_leader(self):
        url, answered = self.url, []
        broker = RedisBroker(url)
        with Leader(broker, snapshots=Snapshots(broker, every=10_000, keep=1_000)) as leader:
            leader.ensure_table("t", [True, False])
            version = leader.server.commit(("insert", "t", (1, "x")))
            leader.wait(version)  # the broker has it: now the client may be answered
            answered.append("done")
        self.assertEqual((answered, self.broker.__class__(url).head().version > 0), (["done"], True))

    def test_followers(self):
        url, path = self.url, self.path
        with Leader(RedisBroker(url)) as leader:
            leader.ensure_table("t", [True, False])
            leader.wait(leader.server.commit(("insert", "t", (1, "x"))))
        target = ServerTarget()
        follower = Follower(RedisBroker(url), target)
        follower.catch_up()
        rows = target.server.scan("t")

        copy = Follower(RedisBroker(url), SqliteTarget(path))
        retry = Retry()
        thread = threading.Thread(target=copy.run, args=(retry,))
        thread.start()
        support.until(lambda: copy.place == follower.place, 10)
        retry.stop.set()
        thread.join()
        self.assertEqual([row.values for row in rows], [(1, "x")])

    def test_moment(self):
        with Leader(RedisBroker(self.url)) as leader:
            leader.ensure_table("t", [True, False])
            leader.wait(leader.server.commit(("insert", "t", (1, "x"))))
        target = ServerTarget()
        Follower(RedisBroker(self.url), target).catch_up()
        snapshot = target.server.snapshot()
        stream, number, version, digest = snapshot.get(PLACE_TABLE, ("changecap",)).values
        rows = snapshot.scan("t")
        self.assertEqual((number > 0, version > 0, len(rows)), (True, True, 1))

    def test_standby(self):
        url = self.url
        first = Leader(RedisBroker(url))
        first.ensure_table("t", [True, False])
        first.wait(first.server.commit(("insert", "t", (1, "x"))))
        refused = []

        standby = ServerTarget()
        Follower(RedisBroker(url), standby).catch_up()
        with Leader(RedisBroker(url), standby) as leader:
            leader.wait(leader.server.commit(("insert", "t", (2, "y"))))
        try:
            first.wait(first.server.commit(("insert", "t", (2, "z"))))
        except Overtaken:
            first.stop()  # what it has committed since its last entry is lost
            refused.append(first)
        self.assertEqual(refused, [first])

    def test_stopping(self):
        retry = Retry()
        retry.stop.set()
        with self.assertRaises(Stopped):
            Follower(RedisBroker(f"redis://127.0.0.1:{support.free_port()}"), ServerTarget()).catch_up(retry)


if __name__ == "__main__":
    unittest.main()
