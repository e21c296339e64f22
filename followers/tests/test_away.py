"""A broker that is away for a minute, or for as many seconds as the environment variable FOLLOWERS_AWAY
has."""
import os
import threading
import time
import unittest

import support
from stream_case import StreamCase
from changecap_followers import Follower, Leader, RedisBroker, Retry, ServerTarget, SqliteTarget, Stopped

SECONDS = float(os.environ.get("FOLLOWERS_AWAY", "60"))
ROWS = 1000
# What memory may grow by while the broker is away. The rows of the table are some hundred kB.
GROWTH = 16 * 1024 * 1024


def memory() -> int:
    """The bytes of memory that this process has."""
    with open("/proc/self/statm", encoding="ascii") as file:
        return int(file.read().split()[1]) * os.sysconf("SC_PAGE_SIZE")


class Away(StreamCase):
    def setUp(self):
        super().setUp()
        self.redis = support.RedisServer(self.folder)
        self.redis.start()
        self.addCleanup(self.redis.kill)

    def commit_for(self, leader: Leader, seconds: float) -> int:
        """Changes the same rows for so long, and answers how often."""
        end, count = time.monotonic() + seconds, 0
        while time.monotonic() < end:
            for row in range(ROWS):
                leader.server.commit(("update", "t", (row,), {1: count}))
                count += 1
            time.sleep(0.01)
        return count

    def test_it_is_waited_for_and_memory_stays(self):
        leader = Leader(RedisBroker(self.redis.url, timeout=1))
        self.addCleanup(leader.stop)
        leader.ensure_table("t", [True, False])
        leader.server.commit(*(("insert", "t", (row, 0)) for row in range(ROWS)))
        retry = Retry()
        followers = [Follower(RedisBroker(self.redis.url, timeout=1), target)
                     for target in (ServerTarget(), SqliteTarget(f"{self.folder}/f.db"))]
        threads = [threading.Thread(target=self.follow, args=(it, retry)) for it in followers]
        for thread in threads:
            thread.start()
        try:
            self.commit_for(leader, min(3, SECONDS / 3))
            self.redis.kill()
            first = min(5, SECONDS / 3)
            self.commit_for(leader, first)
            before, published = memory(), leader.publisher.acknowledged
            count = self.commit_for(leader, SECONDS - first)
            grown = memory() - before
            self.assertEqual(leader.publisher.acknowledged, published)
            self.assertLess(grown, GROWTH, f"{count} commits while the broker was away")
            self.redis.start()
            self.assertTrue(leader.close(30))
            entries = leader.publisher.entries
            support.until(lambda: all(it.place == leader.publisher.place for it in followers), 30)
            # All that was committed meanwhile is one entry, or the one that was on its way and another.
            found = [row.values for row in leader.server.scan("t")]
            self.assertEqual([row.values for row in followers[0].target.server.scan("t")], found)
            self.assertEqual(followers[1].target._database.execute("SELECT * FROM t ORDER BY c0"), found)
            print(f"\nthe broker was away for {SECONDS:.0f} s: {count} commits, "
                  f"memory grew by {grown // 1024} kB, {entries} entries in all")
        finally:
            retry.stop.set()
            for thread in threads:
                thread.join()
            for it in followers:
                it.target.close()

    @staticmethod
    def follow(follower: Follower, retry: Retry) -> None:
        try:
            follower.run(retry)
        except Stopped:
            pass

    def test_a_broker_that_stands_still(self):
        """It keeps its connections and answers nothing, as one that is cut off."""
        import signal
        leader = Leader(RedisBroker(self.redis.url, timeout=0.5))
        self.addCleanup(leader.stop)
        leader.ensure_table("t", [True, False])
        self.assertTrue(leader.wait(leader.server.commit(("insert", "t", (1, 0))), 10))
        self.redis.process.send_signal(signal.SIGSTOP)
        self.addCleanup(self.redis.process.send_signal, signal.SIGCONT)
        version = leader.server.commit(("insert", "t", (2, 0)))
        self.assertFalse(leader.wait(version, 3))
        self.redis.process.send_signal(signal.SIGCONT)
        # What it was sent while it stood still may be appended by then: the entry is there once.
        self.assertTrue(leader.close(10))
        target = ServerTarget()
        Follower(RedisBroker(self.redis.url), target).catch_up()
        self.assertEqual(len(target.server.scan("t")), 2)


if __name__ == "__main__":
    unittest.main()
