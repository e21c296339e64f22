"""Followers: a server in memory and a database of SQLite."""
import dataclasses
import os
import sqlite3
import unittest
from unittest import mock

import support  # noqa: F401 - the path of the package
from stream_case import StreamCase
from changecap_followers import (START, Entry, Follower, Place, Poisoned, ServerTarget, Snapshot, Snapshots,
                                 SqliteTarget)
from changecap_followers.sqlite_library import Database

FIELDS = (b"tables", b"changeset", b"digest", b"version", b"time", b"publisher", b"before_version",
          b"before_digest")


class OfBoth(StreamCase):
    """Makes followers of each kind, and reads their tables."""

    kind = "server"

    def target(self):
        if self.kind == "server":
            made = ServerTarget()
        else:
            made = SqliteTarget(f"{self.folder}/f.db")
        self.addCleanup(made.close)
        return made

    def rows(self, target, table="t"):
        if self.kind == "server":
            return [row.values for row in target.server.scan(table)]
        connection = sqlite3.connect(f"{self.folder}/f.db")
        try:
            return connection.execute(f'SELECT * FROM "{table}" ORDER BY 1').fetchall()
        finally:
            connection.close()

    def kept_place(self, target):
        """The place in the tables."""
        row = self.rows(target, "changecap_place")[0]
        return Place(*row[1:4])


class Following:
    def test_entries_are_applied_in_order(self):
        leader, target = self.lead(), self.target()
        follower = Follower(self.broker, target)
        self.publish(leader, ("insert", "t", (1, "x")), ("insert", "t", (2, None)))
        self.assertEqual(follower.catch_up(), self.broker.head())
        self.assertEqual(self.rows(target), [(1, "x"), (2, None)])
        self.publish(leader, ("update", "t", (1,), {1: b"\0"}))
        self.publish(leader, ("delete", "t", (2,)), ("insert", "t", (3, -5)))
        follower.catch_up()
        self.assertEqual(self.rows(target), [(1, b"\0"), (3, -5)])
        self.assertEqual(self.kept_place(target), self.broker.head())
        self.assertFalse(follower.step())

    def test_together_is_one_by_one(self):
        leader, shown = self.lead(), []
        for number in range(40):
            self.publish(leader, ("insert", "t", (number, "x")))
            if number % 3:
                self.publish(leader, ("delete", "t", (number - 1,)))
        target = self.target()
        follower = Follower(self.broker, target, shown=shown.append)
        follower.catch_up()
        together = self.rows(target)
        self.assertLess(len(shown), 10)
        self.assertEqual(follower.applied, self.broker.head().number)
        if self.kind == "sqlite":
            os.rename(f"{self.folder}/f.db", f"{self.folder}/together.db")
        shown.clear()
        target = self.target()
        Follower(self.broker, target, one_by_one=True, shown=shown.append).catch_up()
        self.assertEqual(self.rows(target), together)
        self.assertEqual(shown, [it.after for it in self.broker.read(0, 1000)])

    def test_a_table_without_rows(self):
        leader, target = self.lead(), self.target()
        self.assertTrue(leader.wait(leader.ensure_table("empty", [False, True]), 5))
        Follower(self.broker, target).catch_up()
        self.assertEqual(self.rows(target, "empty"), [])

    def test_an_entry_that_comes_again_is_passed_over(self):
        leader, target = self.lead(), self.target()
        for number in range(5):
            self.publish(leader, ("insert", "t", (number, "x")))
        read = self.broker.read
        twice = mock.Mock(wraps=self.broker)
        twice.read = lambda number, count, seconds=0: read(max(0, number - 2), 2) + read(number, count)
        Follower(twice, target).catch_up()
        self.assertEqual(len(self.rows(target)), 5)

    def test_where_entries_are_missing_it_begins_with_the_snapshot(self):
        leader, target = self.lead(), self.target()
        follower = Follower(self.broker, target)
        self.publish(leader, ("insert", "t", (1, "old")), ("insert", "t", (2, "old")))
        follower.catch_up()
        self.publish(leader, ("update", "t", (1,), {1: "new"}), ("delete", "t", (2,)))
        self.publish(leader, ("insert", "t", (3, "new")))
        Snapshots(self.broker, keep=0).make()
        self.assertEqual(self.broker.read(0, 10), [])
        follower.catch_up()
        self.assertEqual(self.rows(target), [(1, "new"), (3, "new")])
        self.publish(leader, ("insert", "t", (4, "later")))
        follower.catch_up()
        self.assertEqual(len(self.rows(target)), 3)
        self.assertEqual(self.kept_place(target), self.broker.head())

    def test_one_that_is_not_far_behind_needs_no_snapshot(self):
        leader, target = self.lead(), self.target()
        follower = Follower(self.broker, target)
        for number in range(10):
            self.publish(leader, ("insert", "t", (number, "x")))
            if number == 4:
                follower.catch_up()
        Snapshots(self.broker, keep=5).make()
        with mock.patch.object(target, "replace", side_effect=AssertionError):
            follower.catch_up()
        self.assertEqual(len(self.rows(target)), 10)

    def test_another_stream_in_its_place(self):
        """The broker has lost what it had, and another leader has begun."""
        leader, target = self.lead(), self.target()
        follower = Follower(self.broker, target)
        for number in range(3):
            self.publish(leader, ("insert", "t", (number, "x")))
        follower.catch_up()
        leader.stop()
        self.broker._redis.delete(self.broker._entries, self.broker._head)
        for number in range(5):
            other = self.lead()
            self.publish(other, ("insert", "t", (100 + number, "y")))
            other.stop()
            follower.catch_up()
            self.assertEqual(self.rows(target), [(100 + it, "y") for it in range(number + 1)])
        self.assertEqual(self.kept_place(target), self.broker.head())

    def test_turned_bytes(self):
        leader, target = self.lead(), self.target()
        for number in range(3):
            self.publish(leader, ("insert", "t", (number, "x")))
        redis, entries = self.broker._redis, self.broker._entries
        all_entries = redis.xrange(entries)
        third, right = all_entries[2]
        for name in FIELDS:
            wrong = dict(right)
            wrong[name] = right[name][:-1] + bytes([right[name][-1] ^ 1])
            redis.delete(entries)
            for other, fields in [*all_entries[:2], (third, wrong), all_entries[3]]:
                redis.xadd(entries, fields, other)
            with mock.patch.object(target, "replace", side_effect=AssertionError), \
                    self.assertRaises(Poisoned) as raised:
                Follower(self.broker, target).catch_up()
            at = "entry 3, version 3" if name != b"version" else "entry 3"
            self.assertIn(at, str(raised.exception), name)
            self.assertIn("the tables stay at entry 2, version 2", str(raised.exception), name)
            self.assertEqual(self.rows(target), [(0, "x")])
            self.assertEqual(self.kept_place(target), Place(2, 2, all_entries[1][1][b"digest"].decode()))
        # Once it is mended, the follower goes on.
        redis.delete(entries)
        for other, fields in all_entries:
            redis.xadd(entries, fields, other)
        Follower(self.broker, target).catch_up()
        self.assertEqual(len(self.rows(target)), 3)

    def test_what_is_no_entry(self):
        leader, target = self.lead(), self.target()
        self.publish(leader, ("insert", "t", (1, "x")))
        self.broker._redis.xadd(self.broker._entries, {"some": "fields"}, "3-0")
        with self.assertRaisesRegex(Poisoned, "entry 3-0"):
            Follower(self.broker, target).catch_up()
        self.assertEqual(len(self.rows(target)), 1)

    def test_a_turned_snapshot(self):
        leader, target = self.lead(), self.target()
        self.publish(leader, ("insert", "t", (1, "x")))
        snapshot = Snapshots(self.broker, keep=0).make()
        turned = dataclasses.replace(snapshot, changeset=snapshot.changeset[:-1] + b"y")
        with mock.patch.object(self.broker, "snapshot", lambda: turned), \
                self.assertRaisesRegex(Poisoned, "the snapshot of entry 2, version 2"):
            Follower(self.broker, target).catch_up()
        self.assertEqual(self.kept_place(target), START)

    def test_entries_missing_behind_the_snapshot(self):
        leader, target = self.lead(), self.target()
        for number in range(3):
            self.publish(leader, ("insert", "t", (number, "x")))
            if number == 0:
                Snapshots(self.broker, keep=0).make()
        self.broker.trim(3)
        with self.assertRaisesRegex(Poisoned, "the snapshot is no newer"):
            Follower(self.broker, target).catch_up()

    def test_a_conflict_stops_it_and_changes_nothing(self):
        leader, target = self.lead(), self.target()
        follower = Follower(self.broker, target)
        self.publish(leader, ("insert", "t", (1, "x")), ("insert", "t", (2, "x")))
        follower.catch_up()
        self.change_by_another(target)
        before = self.kept_place(target)
        self.publish(leader, ("insert", "t", (3, "x")))
        self.publish(leader, ("insert", "t", (4, "x")), ("delete", "t", (1,)))
        with self.assertRaisesRegex(Poisoned, "entry 4, version 4: .*; the tables stay at entry 3,"):
            follower.catch_up()
        # The entry before it is applied.
        self.assertEqual([row[0] for row in self.rows(target)], [1, 2, 3])
        self.assertEqual(self.kept_place(target).number, before.number + 1)

    def test_a_table_with_another_key(self):
        leader, target = self.lead(), self.target()
        self.publish(leader, ("insert", "t", (1, "x")))
        at = self.broker.head()
        self.broker.publish(Entry.made(at, 9, 0, "b", b"T\x01\x01t\0", b""))
        with self.assertRaisesRegex(Poisoned, "entry 3, version 9: the table t"):
            Follower(self.broker, target).catch_up()
        self.assertEqual(self.kept_place(target), at)


class OfServer(Following, OfBoth):
    def change_by_another(self, target):
        target.server.commit(("update", "t", (1,), {1: "by another"}))

    def test_tables_and_place_are_one_snapshot(self):
        leader, target = self.lead(), self.target()
        self.publish(leader, ("insert", "t", (1, "x")))
        Follower(self.broker, target).catch_up()
        before = target.server.snapshot()
        self.publish(leader, ("insert", "t", (2, "x")))
        Follower(self.broker, target).catch_up()
        self.assertEqual(len(before.scan("t")), 1)
        self.assertEqual(before.get("changecap_place", ("changecap",)).values[1:3], (2, 2))

    def test_a_reader_keeps_the_server_that_it_has(self):
        leader, target = self.lead(), self.target()
        self.publish(leader, ("insert", "t", (1, "x")))
        Follower(self.broker, target).catch_up()
        before = target.server
        target.replace(Snapshot.made(Place(9, 9, "d"), b"", b""))
        self.assertEqual(len(before.scan("t")), 1)
        self.assertIsNot(target.server, before)


class OfSqlite(Following, OfBoth):
    kind = "sqlite"

    def change_by_another(self, target):
        with sqlite3.connect(f"{self.folder}/f.db") as connection:
            connection.execute("UPDATE t SET c1 = 'by another' WHERE c0 = 1")
        connection.close()

    def make(self, sql):
        connection = sqlite3.connect(f"{self.folder}/f.db")
        connection.executescript(sql)
        connection.close()

    def test_it_goes_on_from_its_file(self):
        leader = self.lead()
        for number in range(3):
            self.publish(leader, ("insert", "t", (number, "x")))
            target = self.target()
            self.assertEqual(target.place().number, number and number + 1)
            Follower(self.broker, target).catch_up()
            target.close()
        self.assertEqual(len(self.rows(None)), 3)

    def test_tables_of_ones_own(self):
        self.make("CREATE TABLE t(id INTEGER PRIMARY KEY, name TEXT); CREATE INDEX i ON t(name);"
                  "CREATE TABLE mine(a); INSERT INTO mine VALUES(1);")
        leader, target = self.lead(), self.target()
        self.publish(leader, ("insert", "t", (1, "x")))
        Follower(self.broker, target).catch_up()
        self.assertEqual(self.rows(target), [(1, "x")])
        target.replace(Snapshot.made(Place(9, 9, "d"), b"", b""))
        self.assertEqual(self.rows(target), [])
        self.assertEqual(self.rows(target, "mine"), [(1,)])

    def test_tables_that_do_not_fit(self):
        for table in ("t(a, b)", "t(a, b, c, PRIMARY KEY(a))", "T(a PRIMARY KEY, b)", "t(a, b PRIMARY KEY)",
                      "t(a, b, PRIMARY KEY(b, a))"):
            self.make(f"DROP TABLE IF EXISTS t; CREATE TABLE {table}")
            broker = mock.Mock(wraps=self.broker)
            target = self.target()
            if self.broker.head() == START:
                self.publish(self.lead(), ("insert", "t", (1, "x")))
            with self.assertRaisesRegex(Poisoned, "entry 1, version 1: the (table|database)"):
                Follower(broker, target).catch_up()
            target.close()

    def test_names_and_wide_keys(self):
        leader, target = self.lead(), self.target()
        leader.ensure_table('a "name"', [True, False, True])
        leader.ensure_table("w", [True] * 130)
        wide = tuple(range(130))
        self.publish(leader, ("insert", 'a "name"', (1, None, "k")), ("insert", "w", wide))
        self.publish(leader, ("update", 'a "name"', (1, "k"), {1: "y"}), ("delete", "w", wide))
        Follower(self.broker, target, one_by_one=True).catch_up()
        self.assertEqual(self.rows(target, 'a ""name""'), [(1, "y", "k")])
        self.assertEqual(self.rows(target, "w"), [])

    def test_two_followers_of_one_file(self):
        leader = self.lead()
        one, two = self.target(), self.target()
        self.publish(leader, ("insert", "t", (1, "x")))
        Follower(self.broker, one).catch_up()
        with self.assertRaisesRegex(Poisoned, "another follower|conflict"):
            Follower(self.broker, two).catch_up()
        self.assertEqual(len(self.rows(one)), 1)
        self.assertEqual(self.kept_place(one), self.broker.head())

    def test_two_streams_in_one_file(self):
        leader, one, two = self.lead(), self.target(), SqliteTarget(f"{self.folder}/f.db", "other")
        self.addCleanup(two.close)
        self.publish(leader, ("insert", "t", (1, "x")))
        Follower(self.broker, one).catch_up()
        self.assertEqual(two.place(), START)

    def test_a_busy_database_is_waited_for(self):
        from changecap_followers import Unavailable
        leader, target = self.lead(), self.target()
        self.publish(leader, ("insert", "t", (1, "x")))
        target._database._calls.sqlite3_busy_timeout(target._database._at, 10)
        other = Database(f"{self.folder}/f.db")
        other.execute("BEGIN IMMEDIATE")
        with self.assertRaises(Unavailable):
            Follower(self.broker, target).step()
        other.execute("ROLLBACK")
        other.close()
        self.assertEqual(Follower(self.broker, target).catch_up(), self.broker.head())


if __name__ == "__main__":
    unittest.main()
