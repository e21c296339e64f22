"""Entries, places, and what Redis does with them."""
import dataclasses
import threading
import time
import unittest
from unittest import mock

import support  # noqa: F401 - the path of the package
from stream_case import StreamCase
from changecap_followers import START, Entry, Overtaken, Place, Poisoned, RedisBroker, Snapshot, Unavailable
from changecap_followers.tables import headers, tables_of, varint


def entry(before: Place = START, version: int = 1, changeset: bytes = b"changes",
          publisher: str = "a") -> Entry:
    return Entry.made(before, version, 1000, publisher, b"tables", changeset)


class Entries(unittest.TestCase):
    def test_every_byte_is_in_the_digest(self):
        one = entry()
        self.assertTrue(one.is_whole())
        others = {"before": Place(0, 1, ""), "version": 2, "time": 1001, "publisher": "b", "tables": b"table",
                  "changeset": b"change", "digest": "0" * 32}
        self.assertEqual(set(others), {field.name for field in dataclasses.fields(Entry)})
        for name, value in others.items():
            self.assertFalse(dataclasses.replace(one, **{name: value}).is_whole(), name)
        self.assertFalse(dataclasses.replace(one, tables=b"tablesc", changeset=b"hanges").is_whole())

    def test_a_place_names_all_before_it(self):
        one, other = entry(publisher="a"), entry(publisher="b")
        self.assertNotEqual(entry(one.after, 2).after, entry(other.after, 2).after)
        self.assertEqual(entry(one.after, 2).after.number, 2)

    def test_headers(self):
        many = tuple(column < 300 for column in range(2000))
        tables = {"t": (True, False), "ü": (False, True, True), "many": many}
        self.assertEqual(tables_of(headers(tables)), tables)
        self.assertEqual(headers({"t": (True, False)}), b"T\x02\x01\x00t\0")
        self.assertEqual([varint(number).hex() for number in (1, 127, 128, 300, 2000)],
                         ["01", "7f", "8100", "822c", "8f50"])


class Stream(StreamCase):
    def test_entries_in_order(self):
        one = entry()
        two = entry(one.after, 3, bytes(range(256)))
        self.assertEqual(self.broker.head(), START)
        self.assertEqual(self.broker.read(0, 10), [])
        for it in one, two:
            self.broker.publish(it)
            self.assertEqual(self.broker.head(), it.after)
        self.assertEqual(self.broker.read(0, 10), [one, two])
        self.assertEqual(self.broker.read(0, 1), [one])
        self.assertEqual(self.broker.read(1, 10), [two])
        self.assertEqual(self.broker.read(2, 10), [])
        self.broker.trim(1)
        self.assertEqual(self.broker.read(0, 10), [two])
        self.broker.trim(2)
        self.assertEqual(self.broker.read(0, 10), [])
        self.assertEqual(self.broker.head(), two.after)

    def test_an_entry_that_was_written_is_not_written_again(self):
        one = entry()
        self.broker.publish(one)
        self.broker.publish(one)
        self.assertEqual(self.broker.read(0, 10), [one])

    def test_another_publisher_is_refused(self):
        one = entry()
        two = entry(one.after, 2)
        for it in one, two:
            self.broker.publish(it)
        ghosts = (entry(publisher="b"), entry(START, 2), one, entry(one.after, 2, publisher="b"),
                  entry(Place(2, 2, one.digest), 3), entry(Place(2, 3, two.digest), 4),
                  entry(Place(3, 2, two.digest), 4))
        for ghost in ghosts:
            with self.assertRaises(Overtaken):
                self.broker.publish(ghost)
        self.assertEqual(self.broker.read(0, 10), [one, two])
        self.assertEqual(self.broker.head(), two.after)

    def test_of_two_publishers_one_goes_on(self):
        """Two threads, each with a connection, publish behind the same place."""
        at, refused = START, 0
        for number in range(1, 50):
            found = []

            def publish(name, at=at, number=number, found=found):
                it = entry(at, number, publisher=name)
                try:
                    RedisBroker(self.url, self.broker.name).publish(it)
                    found.append(it.after)
                except Overtaken:
                    pass

            threads = [threading.Thread(target=publish, args=(name,)) for name in "ab"]
            for thread in threads:
                thread.start()
            for thread in threads:
                thread.join()
            self.assertEqual(len(found), 1)
            at, refused = found[0], refused + 1
        self.assertEqual(self.broker.head(), at)
        self.assertEqual(refused, 49)

    def test_reading_waits(self):
        threading.Timer(0.2, lambda: self.broker.publish(entry())).start()
        began = time.monotonic()
        self.assertEqual(self.broker.read(0, 10, 0.05), [])
        self.assertEqual(self.broker.read(0, 10, 2), [entry()])
        self.assertLess(time.monotonic() - began, 1)

    def test_what_is_no_entry(self):
        self.broker._redis.xadd(self.broker._entries, {"some": "fields"}, "1-0")
        with self.assertRaisesRegex(Poisoned, "entry 1-0"):
            self.broker.read(0, 10)

    def test_snapshots(self):
        self.assertIsNone(self.broker.snapshot())
        made = [Snapshot.made(Place(number, number, "d"), b"tables", bytes([number]) * number)
                for number in range(1, 4)]
        for it in made[1], made[0], made[2], made[2]:
            self.broker.publish_snapshot(it)
            self.assertEqual(self.broker.snapshot(), made[2] if it is made[2] else made[1])
        # The older ones are gone, and one that came too late too.
        keys = self.broker._redis.keys(f"{{{self.broker.name}}}:snapshot:*")
        self.assertEqual(len(keys), 1)
        self.assertEqual(self.broker._redis.ttl(keys[0]), -1)

    def test_a_snapshot_without_rows(self):
        empty = Snapshot.made(Place(1, 1, "d"), b"", b"")
        self.broker.publish_snapshot(empty)
        self.assertEqual(self.broker.snapshot(), empty)

    def test_a_snapshot_in_pieces(self):
        from changecap_followers import redis_broker
        self.addCleanup(setattr, redis_broker, "PIECE", redis_broker.PIECE)
        redis_broker.PIECE = 10
        one = Snapshot.made(Place(1, 1, "d"), b"tables", bytes(range(95)))
        self.broker.publish_snapshot(one)
        self.assertEqual(self.broker.snapshot(), one)

    def test_how_safe_an_entry_is(self):
        self.assertTrue(self.broker.keeps_all())
        self.broker._redis.config_set("appendfsync", "everysec")
        self.addCleanup(self.broker._redis.config_set, "appendfsync", "always")
        self.assertFalse(self.broker.keeps_all())

    def test_an_entry_that_is_too_large(self):
        with mock.patch("changecap_followers.redis_broker.LIMIT", 10):
            self.broker.publish(entry(changeset=b"x" * 10))
            with self.assertRaisesRegex(ValueError, "entry 2 has 11 bytes"):
                self.broker.publish(entry(self.broker.head(), 2, b"x" * 11))

    def test_no_broker(self):
        away = RedisBroker(f"redis://127.0.0.1:{support.free_port()}", timeout=1)
        for call in (away.head, away.snapshot, lambda: away.publish(entry()), lambda: away.read(0, 1, 1),
                     lambda: away.trim(1), lambda: away.publish_snapshot(Snapshot.made(START, b"", b""))):
            with self.assertRaises(Unavailable):
                call()

    def test_a_broker_without_room(self):
        redis = self.broker._redis
        redis.config_set("maxmemory", 1)
        self.addCleanup(redis.config_set, "maxmemory", 0)
        with self.assertRaisesRegex(Unavailable, "OOM"):
            self.broker.publish(entry())


if __name__ == "__main__":
    unittest.main()
