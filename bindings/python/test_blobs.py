"""Whole blobs and their changes, beside worked values, the table of blobs that CHANGECAP_BLOBS names, and SQLite where
it is there."""
import json
import os
import random
import unittest

from test_support import DELETE, INSERT, OTHERS, TWO_KEYS, TWO_TABLES, changecap, changes_of, sqlite


def by_json(blob):
    """The changes of a blob by its JSON, each without how many columns there are."""
    made = []
    for it in json.loads(changecap.json(blob)):
        key = [int(name[1:]) for name in it["key"]]
        old, new = (fields(it.get(side, {})) for side in ("old", "new"))
        if blob[:1] == b"P" and it["op"] == "update":
            old = {column: new.pop(column) for column in key}
        made.append((it["table"], key, it["op"], it["indirect"], blob[:1] == b"P", old, new))
    return made


def fields(members):
    return {int(name[1:]): bytes.fromhex(it["blob"]) if isinstance(it, dict) else it for name, it in members.items()}


def without_columns(blob):
    """The same by the iterator."""
    return [(it.table, [column for column, is_key in enumerate(it.key) if is_key], *it[2:])
            for it in changecap.iterate(blob)]


class Blobs(unittest.TestCase):
    def test_whole_blobs(self):
        self.assertEqual(changecap.invert(INSERT), DELETE)
        self.assertEqual(changecap.patchset(INSERT), b"P" + INSERT[1:])
        self.assertEqual(changecap.invert(b""), b"")
        self.assertEqual(changecap.patchset(TWO_KEYS, changecap.KEYS_ONES), b"P" + TWO_KEYS[1:])
        self.assertEqual(changecap.invert(TWO_KEYS)[:6].hex(), "540300010274")
        for call in changecap.invert, changecap.patchset:
            with self.assertRaises(changecap.Error) as raised:
                call(b"P" + INSERT[1:])
            self.assertEqual(raised.exception.status, changecap.PATCHSET)
            with self.assertRaises(changecap.Error) as raised:
                call(INSERT, 7)
            self.assertEqual(raised.exception.status, changecap.MISUSE)
        with self.assertRaises(changecap.Malformed) as raised:
            changecap.check(b"T\x80")
        self.assertEqual((raised.exception.kind, raised.exception.at), (3, 1))

    def test_concatenations(self):
        update = bytes.fromhex("540201007400170001000000000000000103017800030179")
        both = bytes.fromhex("5402010074001200010000000000000001030179")
        self.assertEqual(changecap.concat(INSERT, update), both)
        self.assertEqual(changecap.concat(INSERT, DELETE), b"")
        self.assertEqual(changecap.concat(*map(changecap.patchset, (INSERT, update))), changecap.patchset(both))
        self.assertEqual(changecap.concat(b"", TWO_KEYS, changecap.KEYS_ONES), TWO_KEYS)
        self.assertEqual(changecap.concat(TWO_KEYS, b"")[:6].hex(), "540300010274")
        for first, second, status, blob in ((INSERT, b"P" + INSERT[1:], changecap.KIND, 1),
                                            (INSERT, TWO_KEYS, changecap.COLUMNS, 1),
                                            (b"T\x80", INSERT, changecap.MALFORMED, 0),
                                            (INSERT, b"T\x80", changecap.MALFORMED, 1)):
            with self.assertRaises(changecap.Error) as raised:
                changecap.concat(first, second)
            self.assertEqual((raised.exception.status, raised.exception.blob), (status, blob))
        with self.assertRaises(changecap.Error) as raised:
            changecap.concat(INSERT, DELETE, 7)
        self.assertEqual(raised.exception.status, changecap.MISUSE)

    def test_json(self):
        text = '[{"table":"t","op":"insert","indirect":false,"key":["c0"],"new":{"c0":1,"c1":"x"}}]\n'
        self.assertEqual(changecap.json(INSERT), text)
        self.assertEqual(changecap.json(b"P" + INSERT[1:]), text)
        self.assertEqual(changecap.json(b""), "[]\n")
        self.assertEqual(json.loads(changecap.json(TWO_TABLES)), [
            {"table": "u", "op": "update", "indirect": True, "key": ["c0"],
             "old": {"c0": 7, "c1": "-"}, "new": {"c1": "++"}},
            {"table": "b", "op": "insert", "indirect": False, "key": ["c0"],
             "new": {"c0": {"blob": "00ff"}, "c1": None, "c2": "a"}},
        ])
        with self.assertRaises(changecap.Malformed):
            changecap.json(b"T")

    def test_changes(self):
        update, insert = changecap.iterate(TWO_TABLES)
        self.assertEqual((update.table, update.key), ("u", (True, False)))
        self.assertEqual((update.operation, update.indirect), ("update", True))
        self.assertEqual((update.old, update.new), ({0: 7, 1: "-"}, {1: "++"}))
        self.assertEqual((insert.operation, insert.new), ("insert", {0: b"\0\xff", 1: None, 2: "a"}))
        self.assertEqual(list(changecap.iterate(b"")), [])
        with self.assertRaises(changecap.Malformed):
            next(changecap.iterate(b"T"))

    def test_changes_beside_json(self):
        changesets = b"", INSERT, DELETE, TWO_KEYS, TWO_TABLES
        for blob in (*changesets, *map(changecap.patchset, changesets),
                     changecap.patchset(changecap.invert(TWO_KEYS))):
            self.assertEqual(without_columns(blob), by_json(blob))
        path = os.environ.get("CHANGECAP_BLOBS")
        if path:
            with open(path, encoding="ascii") as file:
                for digits, kind, _ in (line.split(" ") for line in file):
                    if kind == "0":
                        blob = bytes.fromhex(digits)
                        self.assertEqual(without_columns(blob), by_json(blob), digits)

    def test_values_of_changes(self):
        values = ["", "c0", "blob", '"\\/\b\0\x1f\x7f\u2028\ud7ff\uffff\U0010ffff', 2**63 - 1, -2**63, 2**53 + 1, b"",
                  bytes(range(256)), None]
        with changecap.Server() as server:
            server.create_table("\u00e4\"", [True] + [False] * len(values))
            session = server.session()
            session.attach()
            server.commit(("insert", "\u00e4\"", (1, *values)))
            inserted = session.restart()
            server.commit(("update", "\u00e4\"", (1,), {len(values): 2}))
            server.commit(("update", "\u00e4\"", (1,), dict(enumerate(values[::-1], 1))))
            for blob in inserted, changecap.invert(inserted), session.changeset(), session.patchset():
                self.assertEqual(without_columns(blob), by_json(blob))
        change, = changecap.iterate(inserted)
        self.assertEqual(list(change.new.values()), [1, *values])

    def test_calls_of_an_iteration(self):
        with changecap.Server() as server:
            server.create_table("t", [True] + [False] * 19)
            session = server.session()
            session.attach()
            server.commit(*(("insert", "t", (it, *"abcdefghijklmnopqrs")) for it in range(1000)))
            blob = session.restart()
            server.commit(*(("update", "t", (it,), {5: it}) for it in range(1000)))
            for blob in blob, session.changeset(), session.patchset():
                changes, calls = changecap._changecap.Changes(blob), 0
                while some := changes.some():
                    calls += 1
                    self.assertLessEqual(len(some), 1000)
                # Many changes cross in one call.
                self.assertLessEqual(calls, 10)
                self.assertEqual((changes.some(), len(list(changecap.iterate(blob)))), ([], 1000))
                changes.close()
                self.assertRaises(ValueError, changes.some)

    def test_rows_of_changes(self):
        for blob, wanted in ((INSERT, (1,)), (DELETE, (1,)), (TWO_KEYS, (2, 1)), (changecap.invert(TWO_KEYS), (2, 1)),
                             (changecap.patchset(DELETE), (1,))):
            change, = changecap.iterate(blob)
            self.assertEqual(change.row, wanted)
        self.assertEqual([it.row for it in changecap.iterate(changecap.patchset(TWO_TABLES))], [(7,), (b"\0\xff",)])

    def test_what_is_no_blob(self):
        for other in OTHERS:
            for call in (changecap.check, changecap.invert, changecap.patchset, changecap.json,
                         lambda it: changecap.concat(it, INSERT), lambda it: changecap.concat(INSERT, it),
                         lambda it: list(changecap.iterate(it)), lambda it: list(changecap.iterate_pieces([it]))):
                self.assertRaises(TypeError, call, other)
        # The pieces of bytes are ints.
        self.assertRaises(TypeError, list, changecap.iterate_pieces(INSERT))
        for blob in bytearray(INSERT), memoryview(INSERT), memoryview(INSERT * 2)[:len(INSERT)]:
            self.assertEqual(changecap.invert(blob), DELETE)
            self.assertEqual(list(changecap.iterate_pieces([blob])), list(changecap.iterate(INSERT)))
        for call in changecap.invert, changecap.patchset, lambda it, flags: changecap.concat(it, it, flags):
            self.assertRaises(TypeError, call, INSERT, "places")
            self.assertRaises(ValueError, call, INSERT, 2**32)

    def test_pieces(self):
        for length in 1, 3, 100:
            pieces = [TWO_TABLES[at:at + length] for at in range(0, len(TWO_TABLES), length)]
            self.assertEqual(list(changecap.iterate_pieces(pieces)), list(changecap.iterate(TWO_TABLES)))
        self.assertEqual(list(changecap.iterate_pieces([])), [])
        for pieces, wanted in (([b"T", b"\x80", b"\0"], (3, 1)), ([b"T"], (1, 1))):
            with self.assertRaises(changecap.Malformed) as raised:
                list(changecap.iterate_pieces(pieces))
            self.assertEqual((raised.exception.kind, raised.exception.at), wanted)

    def test_known_faults(self):
        path = os.environ.get("CHANGECAP_BLOBS")
        if not path:
            self.skipTest("no CHANGECAP_BLOBS")
        with open(path, encoding="ascii") as file:
            for line in file:
                digits, kind, at = line.rstrip("\n").split(" ")
                try:
                    changecap.check(bytes.fromhex(digits))
                    found = (0, 0)
                except changecap.Malformed as fault:
                    found = (fault.kind, fault.at)
                self.assertEqual(found, (int(kind), int(at)), line)

    def test_beside_sqlite(self):
        if not sqlite:
            self.skipTest("no SQLite with the session extension")
        for number in range(60):
            (changeset, patchset), later = captured(random.Random(number))
            for first, second in zip((changeset, patchset), later):
                ours, theirs = changecap.concat(first, second), sqlite.concat(first, second)
                self.assertEqual(changes_of(ours), changes_of(theirs))
                self.assertEqual(len(json.loads(changecap.json(ours))), len(changes_of(ours)))
            self.assertEqual(changecap.invert(changeset), sqlite.invert(changeset))
            self.assertEqual(changecap.patchset(changeset), patchset)
            for blob in changeset, patchset:
                ours, theirs = list(changecap.iterate(blob)), list(sqlite.iterate(blob))
                self.assertEqual(len(ours), len(theirs))
                self.assertEqual(without_columns(blob), by_json(blob))
                for our, their in zip(ours, theirs):
                    self.assertEqual((our.table, our.operation, our.old, our.new),
                                     (their.table, their.operation, their.old, their.new))
                    self.assertEqual((our.key, our.indirect), (tuple(map(bool, their.key)), bool(their.indirect)))


def captured(chance):
    """Two changesets of SQLite, each with its patchset, of some random statements that come one after the other."""
    connection = sqlite.Connection()
    connection.execute("CREATE TABLE t(a, b, c, PRIMARY KEY(a, b))")
    connection.execute("CREATE TABLE u(a PRIMARY KEY, b)")
    values = [None, 0, 1, -5, 2**62, "", "x", "it's", b"", b"\0\xff", "y" * 300]

    def change():
        """One statement for each table."""
        a, b, c = chance.choice(values[1:]), chance.choice(values[1:]), chance.choice(values)
        word = chance.choice(("insert", "update", "delete"))
        if word == "insert":
            connection.execute("INSERT OR REPLACE INTO t VALUES(?, ?, ?)", (a, b, c))
            connection.execute("INSERT OR REPLACE INTO u VALUES(?, ?)", (a, c))
        elif word == "update":
            connection.execute("UPDATE t SET c = ? WHERE a = ?", (c, a))
            connection.execute("UPDATE u SET b = ? WHERE a > ?", (c, a))
        else:
            connection.execute("DELETE FROM t WHERE b = ?", (b,))
            connection.execute("DELETE FROM u WHERE a = ?", (a,))

    for _ in range(20):
        change()
    made = []
    for _ in range(2):
        session = connection.session()
        session.attach()
        for _ in range(20):
            session.indirect(chance.randrange(2))
            change()
        made.append((session.changeset(), session.patchset()))
        session.delete()
    connection.close()
    return made


if __name__ == "__main__":
    unittest.main()
