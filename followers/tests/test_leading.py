"""Leaders: what is published, acknowledged, recovered and refused."""
import threading
import time
import unittest
from unittest import mock

import support  # noqa: F401 - the path of the package
import changecap
from stream_case import StreamCase
from changecap_followers import (Captured, Follower, Leader, Overtaken, Publisher, Retry, ServerTarget,
                                 Snapshots, Stopped, Unavailable)
from changecap_followers.combine import concatenation, snapshot_at_head
from changecap_followers.entry import START


class Leading(StreamCase):
    def test_a_version_that_is_waited_for_is_published(self):
        leader = self.lead()
        for number in range(5):
            version = leader.server.commit(("insert", "t", (number, "x")))
            self.assertTrue(leader.wait(version, 5))
            self.assertEqual(self.broker.head().version, leader.stream_version(version))
        self.assertTrue(leader.wait(version, 0))

    def test_what_changes_nothing_may_be_waited_for(self):
        leader = self.lead()
        version = leader.server.create_table("unpublished", [True])
        self.assertTrue(leader.wait(version, 5))
        self.assertEqual(self.broker.head().version, leader.stream_version(version))
        version = leader.server.commit(("insert", "t", (1, "x")), ("delete", "t", (1,)))
        self.assertTrue(leader.wait(version, 5))
        self.assertEqual(self.broker.read(0, 10)[-1].changeset, b"")

    def test_what_is_not_committed_cannot_be_waited_for(self):
        leader = self.lead()
        with self.assertRaises(ValueError):
            leader.wait(leader.server.snapshot().version + 1, 0.1)

    def test_only_its_own_tables_are_published(self):
        leader = self.lead()
        leader.server.create_table("unpublished", [True])
        self.publish(leader, ("insert", "unpublished", (1,)), ("insert", "t", (1, "x")))
        target = ServerTarget()
        Follower(self.broker, target).catch_up()
        self.assertEqual(len(target.server.scan("t")), 1)
        self.assertNotIn("unpublished", target.tables)

    def test_tables_that_it_does_not_make(self):
        leader = self.lead()
        version = leader.server.snapshot().version
        self.assertEqual(leader.ensure_table("t", [True, False]), version)
        for table, key in (("t", [True, True]), ("changecap_place", [True]), ("u", [False]), ("u", [])):
            with self.assertRaises(ValueError):
                leader.ensure_table(table, key)
        self.assertEqual(leader.server.snapshot().version, version)

    def test_it_begins_with_what_the_stream_has(self):
        for number in range(5):
            leader = self.lead()
            self.assertEqual(len(leader.server.scan("t")), number)
            self.publish(leader, ("insert", "t", (number, "x")))
            self.assertTrue(leader.close())
            if number % 2:
                Snapshots(self.broker, keep=0).make()
        self.assertEqual(self.broker.head().version, 6)

    def test_commits_while_an_entry_is_on_its_way_are_one_entry(self):
        leader, go = self.lead(), threading.Event()
        publish = self.broker.publish

        def slow(entry):
            go.wait(10)
            publish(entry)

        with mock.patch.object(self.broker, "publish", slow):
            for number in range(100):
                version = leader.server.commit(("insert", "t", (number, "x")))
                time.sleep(0.001)
            go.set()
            self.assertTrue(leader.wait(version, 10))
        self.assertLessEqual(self.broker.head().number, 3)

    def test_a_second_publisher_is_refused(self):
        one, two = self.lead(), self.lead()
        self.publish(one, ("insert", "t", (1, "of one")))
        with self.assertRaises(Overtaken):
            two.wait(two.server.commit(("insert", "t", (1, "of two"))), 10)
        with self.assertRaises(Overtaken):
            two.close()
        self.publish(one, ("insert", "t", (2, "of one")))
        target = ServerTarget()
        Follower(self.broker, target).catch_up()
        self.assertEqual([row.values for row in target.server.scan("t")], [(1, "of one"), (2, "of one")])

    def test_one_that_stood_still_is_refused(self):
        """The first leader is cut off with a commit that it has not published; another one leads
        meanwhile."""
        one = self.lead()
        with mock.patch.object(self.broker, "publish", side_effect=Unavailable("cut off")):
            version = one.server.commit(("insert", "t", (1, "of one")))
            self.assertFalse(one.wait(version, 0.2))
        # Its next try may come before the other leader, which then begins with that commit, or after it.
        two = self.lead()
        self.publish(two, ("insert", "t", (2, "of two")))
        try:
            self.assertTrue(one.wait(version, 10))
            self.assertEqual(len(two.server.scan("t")), 2)
        except Overtaken:
            self.assertEqual(len(two.server.scan("t")), 1)

    def test_an_entry_that_may_have_been_written_stays_as_it_is(self):
        leader, sent = self.lead(), []
        publish = self.broker.publish

        def lossy(entry):
            """Every other call appends, and its answer is lost."""
            sent.append(entry)
            if len(sent) % 4 == 2:
                publish(entry)
            if len(sent) % 4:
                raise Unavailable("the answer is lost")
            publish(entry)

        with mock.patch.object(self.broker, "publish", lossy):
            for number in range(3):
                self.publish(leader, ("insert", "t", (number, "x")))
        self.assertEqual(len(self.broker.read(0, 10)), 4)
        self.assertEqual([sent.count(entry) for entry in self.broker.read(1, 10)], [4, 4, 4])

    def test_a_follower_becomes_the_leader(self):
        one, standby = self.lead(), ServerTarget()
        self.publish(one, ("insert", "t", (1, "x")))
        Follower(self.broker, standby).catch_up()
        self.publish(one, ("insert", "t", (2, "x")))
        one.stop()
        two = Leader(self.broker, standby)
        self.addCleanup(two.stop)
        self.assertEqual(len(two.server.scan("t")), 2)
        self.publish(two, ("update", "t", (1,), {1: "y"}))
        self.assertEqual(self.broker.head().version, two.stream_version(two.server.snapshot().version))
        target = ServerTarget()
        Follower(self.broker, target).catch_up()
        self.assertEqual([row.values for row in target.server.scan("t")], [(1, "y"), (2, "x")])

    def test_waiting_for_the_broker_is_told_to_stop(self):
        retry = Retry()
        threading.Timer(0.2, retry.stop.set).start()
        with mock.patch.object(self.broker, "read", side_effect=Unavailable("away")), \
                self.assertRaises(Stopped):
            Leader(self.broker, retry=retry)

    def test_out_of_memory(self):
        class Source:
            failures = 1

            def has_changes(self):
                return True

            def capture(self):
                if self.failures:
                    self.failures -= 1
                    raise MemoryError
                return Captured(1, b"", b"")

        with mock.patch("changecap_followers.publisher._MEMORY_SECONDS", 0.01):
            publisher, retry = Publisher(self.broker, Source(), START), Retry()
            thread = threading.Thread(target=publisher.run, args=(retry,))
            thread.start()
            self.assertTrue(publisher.wait(1, 5))
            retry.stop.set()
            thread.join()

    def test_out_of_memory_while_an_entry_is_sent(self):
        leader, publish = self.lead(), self.broker.publish
        answers = [MemoryError, Unavailable("away"), mock.DEFAULT]
        with mock.patch("changecap_followers.publisher._MEMORY_SECONDS", 0.01), \
                mock.patch.object(self.broker, "publish", side_effect=answers, wraps=publish):
            self.publish(leader, ("insert", "t", (1, "x")))
        target = ServerTarget()
        Follower(self.broker, target).catch_up()
        self.assertEqual(len(target.server.scan("t")), 1)

    def test_what_ends_the_publisher_is_told(self):
        source = mock.Mock(has_changes=lambda: True, capture=mock.Mock(side_effect=changecap.Error))
        told = threading.Event()
        publisher = Publisher(self.broker, source, START, failed=told.set)
        with self.assertLogs(level="ERROR"):
            publisher.run(Retry())
        self.assertTrue(told.is_set())
        with self.assertRaises(RuntimeError):
            publisher.wait(1)


class MakingSnapshots(StreamCase):
    def test_a_snapshot_is_the_tables(self):
        leader = self.lead()
        leader.ensure_table("u", [True, True, False])
        for number in range(20):
            self.publish(leader, ("insert", "t", (number, "x")), ("insert", "u", (1, number, b"y")))
            if number % 3 == 0:
                self.publish(leader, ("delete", "t", (number,)), ("update", "u", (1, number), {2: None}))
            if number % 7 == 0:
                snapshot = snapshot_at_head(self.broker)
                self.assertEqual(snapshot.place, self.broker.head())
                copy = changecap.Server()
                copy.create_table("t", [True, False])
                copy.create_table("u", [True, True, False])
                copy.apply(snapshot.changeset)
                for table in "tu":
                    self.assertEqual(copy.scan(table), leader.server.scan(table))
            if number == 10:
                Snapshots(self.broker, keep=3).make()
                self.assertEqual(len(self.broker.read(0, 100)), 3)
        small = snapshot_at_head(self.broker, size=1)
        self.assertEqual(small, snapshot_at_head(self.broker))

    def test_snapshots_are_made_now_and_then(self):
        with mock.patch("changecap_followers.snapshots._LOOK_SECONDS", 0.01):
            leader = self.lead(snapshots=Snapshots(self.broker, every=5, keep=2))
            for number in range(20):
                self.publish(leader, ("insert", "t", (number, "x")))
            support.until(lambda: (it := self.broker.snapshot()) and it.place.number >= 15, 5)
            support.until(lambda: len(self.broker.read(0, 100)) <= 8, 5)
            self.assertTrue(leader.close())
        again = ServerTarget()
        Follower(self.broker, again).catch_up()
        self.assertEqual(len(again.server.scan("t")), 20)

    def test_entries_that_do_not_follow(self):
        leader = self.lead(snapshots=Snapshots(self.broker, every=5, keep=0))
        for number in range(3):
            self.publish(leader, ("insert", "t", (number, "x")))
        self.broker.trim(2)
        with self.assertLogs(level="ERROR") as logged:
            for number in range(3, 6):
                self.publish(leader, ("insert", "t", (number, "x")))
            support.until(lambda: logged.output, 5)
        self.assertIn("no snapshot", logged.output[0])
        self.assertEqual(len(self.broker.read(0, 100)), 5)

    def test_concatenation(self):
        self.assertEqual(concatenation([]), b"")
        self.assertEqual(concatenation([b"", b"T", b""]), b"T")
        leader = self.lead()
        for number in range(7):
            self.publish(leader, ("insert", "t", (1, number)))
            self.publish(leader, ("delete", "t", (1,)))
        parts = [entry.changeset for entry in self.broker.read(0, 100)]
        self.assertEqual(concatenation(parts), b"")
        self.assertEqual(concatenation(parts[:-1]), parts[-2])


if __name__ == "__main__":
    unittest.main()
