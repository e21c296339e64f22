"""Servers, sessions, snapshots and transactions on one thread, beside worked values and SQLite where it is there."""
import gc
import random
import threading
import unittest
import unittest.mock

from test_support import DELETE, INSERT, OTHERS, changecap, changes_of, sqlite


MISUSE = "an argument without a meaning"


class Servers(unittest.TestCase):
    def test_replies(self):
        with changecap.Server() as server:
            replies = [server.call(it) for it in
                       ("create t kv", "session", "attach 1 t", "commit insert t (1,'x')", "changeset 1")]
            self.assertEqual(replies, ["ok version 1", "session 1", "ok", "ok version 2", f"changeset {INSERT.hex()}"])
            with self.assertRaises(changecap.Refused) as raised:
                server.call("create t kv")
            self.assertEqual(str(raised.exception), "refused: E9 TableExists")
            with self.assertRaises(changecap.NotOneCommand) as raised:
                server.call("attach 1 ;")
            self.assertEqual((raised.exception.kind, raised.exception.at), (1, 9))
        with self.assertRaises(ValueError):
            server.call("scan t")
        server.close()

    def test_sessions(self):
        with changecap.Server() as server:
            self.assertEqual(server.create_table("t", [True, False]), 1)
            self.assertEqual(server.create_table("tt", [1, 0, 1]), 2)
            session = server.session()
            self.assertEqual(session.number, 1)
            session.attach("t")
            self.assertTrue(session.is_empty() and session.enable() and not session.indirect())
            server.call("commit insert t (1,'x') ; insert tt (1,2,3)")
            self.assertEqual((session.is_empty(), session.changeset()), (False, INSERT))
            self.assertEqual(session.patchset(changecap.KEYS_ONES), changecap.patchset(INSERT))
            self.assertFalse(session.enable(False))
            server.call("commit delete t key(1)")
            self.assertEqual((session.restart(), session.changeset()), (b"", b""))
            both = server.session()
            both.attach()
            self.assertTrue(both.indirect(True))
            server.call("commit insert t (1,'x') ; insert tt (4,5,6)")
            self.assertEqual([(it.table, it.indirect) for it in changecap.iterate(both.changeset())],
                             [("t", True), ("tt", True)])
            key_flags = [both.changeset(it)[22:25].hex() for it in (changecap.KEYS_ONES, changecap.KEYS_PLACES)]
            self.assertEqual(key_flags, ["010001", "010002"])
            both.drop()
            for call, status in ((both.is_empty, changecap.REFUSED), (both.changeset, changecap.REFUSED),
                                 (lambda: server.create_table("t", [1]), changecap.REFUSED),
                                 (lambda: server.create_table("", [1]), changecap.MISUSE),
                                 (lambda: server.create_table("u", []), changecap.MISUSE),
                                 (lambda: session.attach("a\0"), changecap.MISUSE),
                                 (lambda: session.changeset(7), changecap.MISUSE)):
                with self.assertRaises(changecap.Error) as raised:
                    call()
                self.assertEqual(raised.exception.status, status)

    def test_applications(self):
        with changecap.Server() as server:
            server.create_table("t", [True, False])
            server.call("commit insert t (1,'y')")
            self.assertEqual(server.apply(INSERT, conflict=changecap.OMIT), changecap.Report(3, 0, 1, 1, 0))
            self.assertEqual(server.apply(INSERT, conflict=changecap.REPLACE), changecap.Report(4, 1, 1, 0, 0))
            self.assertEqual(server.apply(bytes.fromhex("540201007500120001000000000000000205")),
                             changecap.Report(5, 0, 0, 0, 1))
            for blob, words, wanted in ((INSERT, {}, "refused at 0: E15 Aborted: insert of t (1,)"),
                                        (DELETE[:-1] + b"z", {}, "refused at 0: E15 Aborted: delete of t (1,)"),
                                        (b"T\x80", {}, "fault D3 at 1"), (INSERT, {"data": 3}, MISUSE)):
                with self.assertRaises(changecap.Error) as raised:
                    server.apply(blob, **words)
                self.assertEqual(str(raised.exception), wanted)

    def test_quiet_sessions(self):
        with changecap.Server() as server, changecap.Server() as other_server:
            server.create_table("t", [True, False])
            own, other, ended, foreign = server.session(), server.session(), server.session(), other_server.session()
            for session in (own, other):
                session.attach()
            ended.drop()
            with self.assertRaises(changecap.Refused) as raised:
                server.apply(INSERT, quiet=[own, ended])
            self.assertEqual((raised.exception.kind, raised.exception.at), (changecap.E_NO_SESSION, None))
            for words, error in (({"quiet": [foreign]}, ValueError), ({"quiet": [1]}, AttributeError),
                                 ({"quiet": [own], "conflict": lambda *_: changecap.OMIT}, ValueError)):
                with self.assertRaises(error):
                    server.apply(INSERT, **words)
            self.assertEqual(server.apply(INSERT, quiet=[own]), changecap.Report(2, 1, 0, 0, 0))
            self.assertEqual((own.is_empty(), other.is_empty()), (True, False))
            report = server.apply(INSERT, conflict=changecap.OMIT, rebase=True, quiet=iter([own, other]))
            self.assertEqual((report.version, report.omitted, len(report.buffer())), (3, 1, 20))
            report = server.apply(DELETE, filter="not is t", quiet=[own])
            self.assertEqual((report.version, report.passed), (4, (1, 1)))
            self.assertEqual(server.apply(DELETE, filter=lambda table: table == "t"), changecap.Report(5, 1, 0, 0, 0))
            self.assertFalse(own.is_empty())

    def test_dumps(self):
        with changecap.Server() as server, changecap.Server() as copy:
            self.assertEqual(server.snapshot().dump(), b"")
            with self.assertRaises(changecap.Error) as raised:
                server.snapshot().dump("e")
            self.assertEqual(raised.exception.status, changecap.MISUSE)
            server.create_table("e", [True, False, True])
            server.create_table("t", [True, False])
            server.create_table("u", [False])
            server.commit(("insert", "t", (1, "x")), ("insert", "t", (None, "y")), ("insert", "u", (1,)))
            dump = server.snapshot().dump("e", "t", "u")
            self.assertEqual(dump, bytes.fromhex("54030100026500") + INSERT)
            self.assertEqual(server.snapshot().dump("e", key_flags=changecap.KEYS_ONES)[:5].hex(), "5403010001")
            self.assertEqual(copy.load(dump), changecap.Report(3, 1, 0, 0, 0))
            self.assertEqual((copy.snapshot().dump("e", "t"), copy.scan("e")), (dump, []))
            self.assertEqual([row.values for row in copy.scan("t")], [(1, "x")])
        with changecap.Server() as server:
            for blob, wanted in ((DELETE, "refused at 0: E15 Aborted: delete of t (1,)"), (b"T\x80", "fault D3 at 1")):
                with self.assertRaises(changecap.Error) as raised:
                    server.load(blob)
                self.assertEqual(str(raised.exception), wanted)
            server.load(INSERT)
            with self.assertRaises(changecap.Refused) as raised:
                server.load(INSERT)
            self.assertEqual(str(raised.exception), "refused: E9 TableExists")

    def test_batches_and_rows(self):
        with changecap.Server() as server:
            server.create_table("t", [True, False])
            server.create_table("u", [False, True, True])
            session = server.session()
            session.attach()
            version = server.commit(("insert", "t", (1, "x")), ("insert", "t", (2, b"\0\xff"), changecap.CASCADE),
                                    ("insert", "u", ("x", 1, 2)), ("insert", "u", ("x", None, 1)))
            self.assertEqual(version, 3)
            self.assertEqual([(it.table, it.indirect) for it in changecap.iterate(session.changeset())],
                             [("t", False), ("t", True), ("u", False)])
            self.assertEqual(server.get("t", (2,)), changecap.Row(None, (2, b"\0\xff")))
            self.assertEqual(server.get("u", changecap.RowId(1)), changecap.Row(1, ("x", None, 1)))
            self.assertIsNone(server.get("t", (3,)))
            server.commit(("update", "u", (1, 2), {0: None}), ("update", "u", changecap.RowId(1), {1: 1, 0: 2}),
                          ("delete", "t", (2,)), base=3)
            self.assertEqual([it.values for it in server.scan("u")], [(2, 1, 1), (None, 1, 2)])
            self.assertEqual(server.scan("t"), [changecap.Row(None, (1, "x"))])
            for call, wanted in ((lambda: server.scan("v"), "refused: E8 NoTable"),
                                 (lambda: server.get("t", ()), MISUSE), (lambda: server.scan(""), MISUSE),
                                 (lambda: server.get("t", (None,)), MISUSE),
                                 (lambda: server.commit(("delete", "t", changecap.RowId(0))), MISUSE),
                                 (lambda: server.commit(("insert", "t", (1,), 2)), MISUSE),
                                 (lambda: server.commit(("delete", "t", (1,)), base=3), "refused: E11 Stale")):
                with self.assertRaises(changecap.Error) as raised:
                    call()
                self.assertEqual(str(raised.exception), wanted)
            with self.assertRaises(changecap.Refused) as raised:
                server.commit(("delete", "t", (1,)), ("insert", "t", (5,)))
            self.assertEqual((str(raised.exception), raised.exception.at), ("refused at 1: E3 WrongWidth", 1))
            self.assertEqual(len(server.scan("t")), 1)

    def test_failed_commits_leave_nothing(self):
        with changecap.Server() as server:
            server.create_table("t", [True, False])
            rows = [changecap.Row(None, (1, "x")), changecap.Row(None, (2, "y"))]
            server.commit(*(("insert", "t", it.values) for it in rows))
            for operation, error in ((("insert", "t", (3, 2**63)), OverflowError),
                                     (("insert", "t", (3, [])), TypeError),
                                     (("insert", "t", (3, "\ud800")), ValueError),
                                     (("insert", "t", (3, "z"), 2), changecap.Error),
                                     (("insert", "t\0", (3, "z")), changecap.Error),
                                     (("update", "t", (1, None), {1: "z"}), changecap.Error),
                                     (("update", "t", (1,), {1: "z", -1: "z"}), ValueError),
                                     (("delete", "t", (None,)), changecap.Error)):
                with self.assertRaises(error):
                    server.commit(("insert", "t", (4, "w")), operation)
                # Neither a value nor an operation is left behind.
                self.assertEqual([server.get("t", it.values[:1]) for it in rows], rows)
                self.assertIsNone(server.get("t", (3,)))
                server.commit()
                self.assertEqual(server.scan("t"), rows)
            with self.assertRaises(changecap.Refused):
                server.commit(("insert", "t", (4, "w")), base=1)
            self.assertEqual(server.commit(("delete", "t", (2,))), 11)
            self.assertEqual(server.scan("t"), rows[:1])

    def test_values_of_other_types(self):
        with changecap.Server() as server:
            server.create_table("t", [True, False])
            for other in (it for it in OTHERS if not isinstance(it, (int, str)) and it is not None):
                self.assertRaises(TypeError, server.commit, ("insert", "t", (1, other)))
                self.assertRaises(TypeError, server.commit, ("update", "t", (1,), {1: other}))
                self.assertRaises(TypeError, server.get, "t", (other,))
            self.assertEqual(server.scan("t"), [])
            values = [True, 7, "", b"ab", bytearray(b"ab"), memoryview(b"abc")[1:], None]
            server.commit(*(("insert", "t", row) for row in enumerate(values)))
            self.assertEqual([it.values[1] for it in server.scan("t")], [1, 7, "", b"ab", b"ab", b"bc", None])

    def test_key_flags_of_other_types(self):
        with changecap.Server() as server:
            for key, error in ((["id", "body"], TypeError), ("kv", TypeError), ([1, 2], ValueError),
                               ([True, None], TypeError), ({"id": True}, TypeError), (None, TypeError),
                               ([1.0], TypeError)):
                self.assertRaises(error, server.create_table, "z", key)
            self.assertEqual(server.create_table("z", (True, 0)), 1)
            for name in 5, b"t", None:
                self.assertRaises(TypeError, server.create_table, name, [True])
                self.assertRaises(TypeError, server.scan, name)
                self.assertRaises(TypeError, server.get, name, (1,))
                self.assertRaises(TypeError, server.save, name)
                self.assertRaises(TypeError, server.call, name)
                self.assertRaises(TypeError, server.commit, ("insert", name, (1, 2)))

    def test_names_of_rows(self):
        with changecap.Server() as server:
            server.create_table("t", [True, True, False])
            server.commit(("insert", "t", ("a", "b", 1)), ("insert", "t", ("a", None, 2)))
            keyed, loose = server.scan("t")
            for other in 7, "ab", b"ab", {"a", "b"}, {"a": 1}, iter(("a", "b")), None, 7.5:
                self.assertRaises(TypeError, server.get, "t", other)
                self.assertRaises(TypeError, server.commit, ("delete", "t", other))
                self.assertRaises(TypeError, server.commit, ("update", "t", other, {2: 3}))
            for number in -1, 2**64, 2**64 + 1:
                self.assertRaises(ValueError, server.get, "t", changecap.RowId(number))
            self.assertEqual(server.get("t", ["a", "b"]), keyed)
            self.assertEqual((server.get("t", loose.id), repr(loose.id)), (loose, "RowId(1)"))
            self.assertIsNone(server.get("t", changecap.RowId(2)))
            server.commit(("delete", "t", loose.id))
            self.assertEqual(server.scan("t"), [keyed])

    def test_what_is_no_operation(self):
        with changecap.Server() as server:
            server.create_table("t", [True, False])
            for operation, error in ((("inser", "t", (1, 2)), ValueError), ("insert", TypeError), (5, TypeError),
                                     ((), TypeError), ([("insert", "t", (1, 2))], TypeError),
                                     (("insert", "t"), ValueError), (("insert", "t", (1, 2), 0, 0), ValueError),
                                     (("update", "t", (1,)), ValueError), (("insert", "t", "ab"), TypeError),
                                     (("insert", "t", 5), TypeError), (("insert", "t", {1: 2}), TypeError),
                                     (("update", "t", (1,), [(1, 2)]), TypeError),
                                     (("update", "t", (1,), {"b": 2}), TypeError),
                                     (("update", "t", (1,), {-1: 2}), ValueError),
                                     (("update", "t", (1,), {2**64 + 1: 2}), ValueError),
                                     (("insert", "t", (1, 2), "cascade"), TypeError),
                                     (("insert", "t", (1, 2), 2**32), ValueError)):
                self.assertRaises(error, server.commit, operation)
            self.assertRaises(TypeError, server.commit, base="1")
            self.assertRaises(ValueError, server.commit, base=2**64 + 1)
            self.assertEqual((server.scan("t"), server.commit()), ([], 2))

    def test_flags_and_policies_of_other_types(self):
        with changecap.Server() as server:
            session = server.session()
            for call in session.enable, session.indirect:
                before = call()
                self.assertRaises(TypeError, call, "off")
                self.assertRaises(ValueError, call, -1)
                self.assertEqual(call(), before)
            for call in session.changeset, session.patchset, session.restart:
                self.assertRaises(TypeError, call, "places")
                self.assertRaises(ValueError, call, 2**32)
            for call in session.attach, session.filter, lambda it: session.diff(it, "t"):
                self.assertRaises(TypeError, call, 5)
            for policy in "omit", None:
                self.assertRaises(TypeError, server.apply, b"", policy)
            self.assertRaises(ValueError, server.apply, b"", 2**32)
            for other in OTHERS:
                self.assertRaises(TypeError, server.apply, other)

    def test_values_of_many_lengths(self):
        with changecap.Server() as server:
            server.create_table("t", [True, False])
            lengths = 0, 1, 127, 128, 300, 16383, 16384, 2097152
            rows = [(number, content * length) for number, (content, length) in
                    enumerate((content, length) for content in ("x", b"\xff") for length in lengths)]
            rows += [(number, number) for number in (-2**63, -1, 2**63 - 1)]
            server.commit(*(("insert", "t", row) for row in rows))
            self.assertEqual([it.values for it in server.scan("t")], sorted(rows, key=lambda row: row[0]))
            for row in rows:
                self.assertEqual(server.get("t", row[:1]), changecap.Row(None, row))
                server.commit(("update", "t", row[:1], {0: row[1]}))
                self.assertEqual(server.get("t", row[1:]), changecap.Row(None, (row[1], row[1])))
                server.commit(("delete", "t", row[1:]))
            self.assertEqual(server.scan("t"), [])

    def test_columns_that_are_not_there(self):
        with changecap.Server() as server:
            server.create_table("t", [True, False])
            server.commit(("insert", "t", (1, "x")))
            for columns in (2,), (1999,), (2000,), (2**64 - 1,), (0, 2**32, 2**33):
                with self.assertRaises(changecap.Refused) as raised:
                    server.commit(("update", "t", (1,), dict.fromkeys(columns)))
                self.assertEqual((raised.exception.kind, raised.exception.at), (4, 0))
            server.commit(("update", "t", (1,), {}))
            self.assertEqual(server.scan("t"), [changecap.Row(None, (1, "x"))])

    def test_numbers_of_refusals(self):
        second = bytes.fromhex("12000100000000000000020301")
        with changecap.Server() as server:
            server.create_table("t", [True, False])
            server.commit(("insert", "t", (2, "x")))
            for call, wanted in ((lambda: server.apply(INSERT + second + b"y"), (15, 1)),
                                 (lambda: server.apply(DELETE, notfound=changecap.REPLACE), (16, 0)),
                                 (lambda: server.commit(("delete", "t", (2,)), ("delete", "t", (2,))), (6, 1)),
                                 (lambda: server.commit(base=1), (11, None)), (lambda: server.scan("u"), (8, None)),
                                 (lambda: server.commit(*[("delete", "t", (2,))] * 10001), (10, None)),
                                 (lambda: server.call("commit delete t key(2) ; delete t key(2)"), (6, 1)),
                                 (lambda: server.call("commitat 1 delete t key(2)"), (11, None))):
                with self.assertRaises(changecap.Refused) as raised:
                    call()
                self.assertEqual((raised.exception.kind, raised.exception.at), wanted)
            self.assertEqual(len(server.scan("t")), 1)

    def test_sessions_that_nobody_refers_to(self):
        with changecap.Server() as server:
            server.create_table("t", [True, False])
            for _ in range(70):
                server.session().attach()
            session = server.session()
            for _ in range(70):
                server.session()
            self.assertTrue(session.is_empty())
            number = session.number
            # The collector may run while this thread has the lock.
            with server._lock:
                del session
            with self.assertRaises(changecap.Refused) as raised:
                server.call(f"isempty {number}")
            self.assertEqual(raised.exception.kind, changecap.E_NO_SESSION)
            cycle = [server.session()]
            cycle.append(cycle)
            number = cycle[0].number
            del cycle
            gc.collect()
            self.assertRaises(changecap.Refused, server.call, f"drop {number}")
            kept = [server.session() for _ in range(64)]
            with self.assertRaises(changecap.Refused) as raised:
                server.session()
            self.assertEqual(raised.exception.kind, changecap.E_TOO_MANY)
            kept.pop().drop()
            kept.append(server.session())
            self.assertTrue(all(it.is_empty() for it in kept))
        # The sessions of a closed server have ended.
        del kept

    def test_filters_and_differences(self):
        with changecap.Server() as server:
            for table in "ab":
                server.create_table(table, [True, False])
            session = server.session()
            session.filter("not is a")
            server.save("before")
            server.call("commit insert a (1,'x') ; insert b (2,'y')")
            self.assertEqual([it.table for it in changecap.iterate(session.restart())], ["b"])
            session.diff("before", "a")
            self.assertEqual(session.changeset().hex(), "5402010061001200010000000000000001030178")
            for call, words, wanted in ((session.filter, ("not is",), "no filter: E12 at 6"),
                                        (session.diff, ("after", "a"), "refused: E19 NoDatabase"),
                                        (session.diff, ("before", ""), MISUSE), (server.save, ("",), MISUSE)):
                with self.assertRaises(changecap.Error) as raised:
                    call(*words)
                self.assertEqual(str(raised.exception), wanted)

    @unittest.skipUnless(sqlite, "no SQLite with the session extension")
    def test_sessions_beside_sqlite(self):
        for number in range(40):
            self.recorded_beside_sqlite(random.Random(number))

    @unittest.skipUnless(sqlite, "no SQLite with the session extension")
    def test_applications_beside_sqlite(self):
        for number in range(60):
            self.applied_beside_sqlite(random.Random(number))

    def applied_beside_sqlite(self, chance):
        """A blob of random changes, applied where some rows are others, with each answer to a conflict."""
        source, target = changecap.Server(), changecap.Server()
        other = sqlite.Connection()
        other.execute("CREATE TABLE t(a INTEGER, b INTEGER, c TEXT, PRIMARY KEY(a, b))")
        for server in source, target:
            server.create_table("t", [True, True, False])
        keys = [(a, b) for a in range(4) for b in range(3)]
        for key in chance.sample(keys, 6):
            source.commit(("insert", "t", (*key, chance.choice("xyz"))))
        for key in chance.sample(keys, 6):
            row = (*key, chance.choice("xyz"))
            target.commit(("insert", "t", row))
            other.execute("INSERT INTO t VALUES(?, ?, ?)", row)
        session = source.session()
        session.attach("t")
        for key in chance.sample(keys, 8):
            if not source.get("t", key):
                source.commit(("insert", "t", (*key, chance.choice("xyz"))))
            elif chance.randrange(2):
                source.commit(("update", "t", key, {2: chance.choice("xyz")}))
            else:
                source.commit(("delete", "t", key))
        blob = chance.choice((session.changeset, session.patchset))()
        policy = {kind: chance.choice(("omit", "replace", "abort") if kind != "notfound" else ("omit", "abort"))
                  for kind in ("data", "notfound", "conflict")}
        applied = other.apply(blob, lambda kind: policy[kind])
        numbers = [("omit", "replace", "abort").index(policy[kind]) for kind in ("data", "notfound", "conflict")]
        try:
            report = target.apply(blob, *numbers)
            self.assertEqual((report.conflicts, report.omitted), (len(applied.conflicts), applied.omitted))
            self.assertEqual(applied.code, sqlite.OK)
        except changecap.Refused as refused:
            self.assertEqual((refused.kind, applied.code), (15, sqlite.ABORT))
            self.assertEqual(refused.change, list(changecap.iterate(blob))[refused.at])
        self.assertEqual([it.values for it in target.scan("t")], other.execute("SELECT * FROM t ORDER BY a, b"))
        for it in source, target, other:
            it.close()

    def recorded_beside_sqlite(self, chance):
        """A session that records random commits, while its flags are set at random."""
        connection = sqlite.Connection()
        with changecap.Server() as server:
            connection.execute("CREATE TABLE t(a INTEGER, b INTEGER, c TEXT, PRIMARY KEY(a, b))")
            server.create_table("t", [True, True, False])
            ours, theirs = server.session(), connection.session()
            ours.attach("t")
            theirs.attach("t")
            rows = {}
            for _ in range(60):
                a, b, c = chance.randrange(4), chance.randrange(3), chance.choice("xyz")
                flag = chance.randrange(4)
                if flag == 0:
                    self.assertEqual(ours.enable(a > 1), a > 1)
                    theirs.enable(int(a > 1))
                elif flag == 1:
                    self.assertEqual(ours.indirect(a > 1), a > 1)
                    theirs.indirect(int(a > 1))
                if (a, b) not in rows:
                    server.commit(("insert", "t", (a, b, c)))
                    connection.execute("INSERT INTO t VALUES(?, ?, ?)", (a, b, c))
                    rows[a, b] = c
                elif chance.randrange(2):
                    server.commit(("update", "t", (a, b), {2: c}))
                    connection.execute("UPDATE t SET c = ? WHERE a = ? AND b = ?", (c, a, b))
                else:
                    server.commit(("delete", "t", (a, b)))
                    connection.execute("DELETE FROM t WHERE a = ? AND b = ?", (a, b))
                    del rows[a, b]
                self.assertEqual(changes_of(ours.changeset()), changes_of(theirs.changeset()))
                self.assertEqual(changes_of(ours.patchset()), changes_of(theirs.patchset()))
            self.assertEqual([it.values for it in server.scan("t")],
                             connection.execute("SELECT * FROM t ORDER BY a, b"))
            theirs.delete()
        connection.close()

    def test_captures_of_which_no_record_is_lost(self):
        with changecap.Server() as server:
            server.create_table("t", [True, False])
            session = server.session()
            session.attach()
            server.commit(("insert", "t", (1, "x")))
            with self.assertRaises(changecap.Error) as raised:
                session.restart(7)
            self.assertEqual((raised.exception.status, session.changeset()), (changecap.MISUSE, INSERT))
            with unittest.mock.patch.object(changecap.Capture, "changeset", side_effect=MemoryError):
                self.assertRaises(MemoryError, session.changeset)
                self.assertRaises(MemoryError, session.restart)
                self.assertRaises(MemoryError, session.restart)
            server.commit(("insert", "t", (2, "y")))
            # The next restart answers what the one before it has captured.
            self.assertEqual(session.restart(), INSERT)
            self.assertEqual([it.new for it in changecap.iterate(session.restart())], [{0: 2, 1: "y"}])

    def test_captures_one_after_the_other(self):
        with changecap.Server() as server, server.session() as session:
            server.create_table("t", [True, False])
            session.attach()
            self.assertEqual(list(session.captures()), [])
            server.commit(("insert", "t", (1, "x")))
            capture, = session.captures()
            server.commit(("delete", "t", (1,)))
            other, = session.captures()
            self.assertEqual([(it.version, it.changeset()) for it in (capture, other)], [(2, INSERT), (3, DELETE)])
            self.assertEqual((capture.patchset(), list(session.captures())), (changecap.patchset(INSERT), []))
            # What a restart has kept comes first.
            server.commit(("insert", "t", (1, "x")))
            with unittest.mock.patch.object(changecap.Capture, "changeset", side_effect=MemoryError):
                self.assertRaises(MemoryError, session.restart)
            self.assertEqual([it.changeset() for it in session.captures()], [INSERT])

    def test_commits_with_their_capture(self):
        with changecap.Server() as server, server.session() as session:
            server.create_table("t", [True, False])
            session.attach()
            capture = server.commit_captured(session, ("insert", "t", (1, "x")))
            self.assertEqual((capture.version, capture.changeset(), session.is_empty()), (2, INSERT, True))
            for operation, base, wanted in ((("insert", "t", (1, "x")), None, (5, 0)),
                                            (("insert", "t", (2, "x")), 1, (11, None))):
                with self.assertRaises(changecap.Refused) as raised:
                    server.commit_captured(session, operation, base=base)
                self.assertEqual((raised.exception.kind, raised.exception.at), wanted)
            dropped = server.session()
            dropped.drop()
            with self.assertRaises(changecap.Refused) as raised:
                server.commit_captured(dropped, ("delete", "t", (1,)))
            self.assertEqual((raised.exception.kind, raised.exception.at), (18, None))
            # Nothing was committed.
            self.assertEqual((server.snapshot().version, session.is_empty()), (2, True))

    def test_many_rows(self):
        with changecap.Server() as server:
            server.create_table("t", [True, False])
            self.assertEqual(server.commit_many("t", ((it, "x") for it in range(10000))), 2)
            self.assertEqual(server.commit_many("t", []), 3)
            with self.assertRaises(changecap.Refused) as raised:
                server.commit_many("t", [(10000, "x"), (5, "x")])
            self.assertEqual((raised.exception.kind, raised.exception.at), (5, 1))
            with self.assertRaises(changecap.Refused) as raised:
                server.commit_many("t", ((it, "x") for it in range(20000, 30001)))
            self.assertEqual((raised.exception.kind, raised.exception.at), (10, None))

            def fails():
                yield 20000, "x"
                raise KeyError("row")

            for rows, error in ((5, TypeError), ([5], TypeError), (["ab"], TypeError), (fails(), KeyError),
                                ([(20000, 2**63)], OverflowError), ([(20000, 1.5)], TypeError)):
                self.assertRaises(error, server.commit_many, "t", rows)
            with self.assertRaises(changecap.Conflict):
                server.commit_many("t", [(20000, "x")], base=2)
            self.assertEqual([it.values for it in server.scan("t")], [(it, "x") for it in range(10000)])

    def test_snapshots(self):
        with changecap.Server() as server:
            server.create_table("t", [True, False])
            server.commit_many("t", ((it, str(it)) for it in range(5)))
            server.commit(("insert", "t", (None, "loose")))
            with server.snapshot() as snapshot:
                server.commit(("delete", "t", (3,)))
                self.assertEqual((snapshot.version, server.snapshot().version), (3, 4))
                self.assertEqual(snapshot.get("t", (3,)).values, (3, "3"))
                self.assertEqual([it.values[1] for it in snapshot.scan("t")], [*"01234", "loose"])
                self.assertEqual([it.values[0] for it in snapshot.scan_from("t", (2,), 2)], [2, 3])
                self.assertEqual([it.values[0] for it in snapshot.scan_from("t", (3,))], [3, 4])
                self.assertEqual(snapshot.scan_from("t", (3,), 0), [])
                for words in (("t", (1,), -1), ("t", (1,), 2**64)):
                    self.assertRaises(ValueError, snapshot.scan_from, *words)
                self.assertRaises(TypeError, snapshot.scan_from, "t", changecap.RowId(1))
                self.assertRaises(changecap.Refused, snapshot.scan, "u")
            self.assertRaises(ValueError, snapshot.scan, "t")


class Transactions(unittest.TestCase):
    def setUp(self):
        self.server = changecap.Server()
        self.server.create_table("t", [True, False])
        self.server.commit_many("t", [(1, "x"), (2, "y")])

    def tearDown(self):
        self.server.close()

    def rows(self):
        return [it.values for it in self.server.scan("t")]

    def test_operations(self):
        with self.server.transaction() as transaction:
            transaction.insert("t", (3, "z"))
            transaction.update("t", (1,), {1: "w"})
            transaction.delete("t", (2,))
            transaction.insert_many("t", [(None, "loose"), (4, None)])
            transaction.delete("t", changecap.RowId(1))
            self.assertEqual([it.values for it in transaction.scan("t")], [(1, "w"), (3, "z"), (4, None)])
            self.assertEqual((transaction.get("t", (1,)).values, transaction.get("t", (2,))), ((1, "w"), None))
            self.assertEqual(self.rows(), [(1, "x"), (2, "y")])
        self.assertEqual((transaction.version, transaction.capture), (3, None))
        self.assertEqual(self.rows(), [(1, "w"), (3, "z"), (4, None)])
        for call in transaction.savepoint, transaction.commit, lambda: transaction.get("t", (1,)):
            self.assertRaises(ValueError, call)

    def test_rollbacks(self):
        with self.assertRaises(KeyError), self.server.transaction() as transaction:
            transaction.delete("t", (1,))
            raise KeyError
        with self.server.transaction() as transaction:
            transaction.delete("t", (1,))
            transaction.rollback()
        self.assertEqual((self.rows(), self.server.snapshot().version), ([(1, "x"), (2, "y")], 2))
        with self.server.transaction() as transaction:
            first = transaction.savepoint()
            transaction.delete("t", (1,))
            second = transaction.savepoint()
            transaction.delete("t", (2,))
            transaction.rollback_to(second)
            self.assertEqual([it.values for it in transaction.scan("t")], [(2, "y")])
            transaction.rollback_to(first)
            with self.assertRaises(changecap.Refused) as raised:
                transaction.rollback_to(second)
            self.assertEqual((raised.exception.kind, raised.exception.name), (20, "NoMark"))
            transaction.delete("t", (2,))
        self.assertEqual(self.rows(), [(1, "x")])

    def test_refusals(self):
        with self.server.transaction() as transaction:
            for call, wanted in ((lambda: transaction.insert("t", (1, "x")), (5, None)),
                                 (lambda: transaction.update("t", (3,), {1: 2}), (6, None)),
                                 (lambda: transaction.delete("u", (1,)), (8, None)),
                                 (lambda: transaction.insert_many("t", [(3, "z"), (1, "x")]), (5, 1)),
                                 (lambda: transaction.get("u", (1,)), (8, None))):
                with self.assertRaises(changecap.Refused) as raised:
                    call()
                self.assertEqual((raised.exception.kind, raised.exception.at), wanted)
            for call, error in ((lambda: transaction.insert("t", (3, 1.5)), TypeError),
                                (lambda: transaction.update("t", (1,), {1: 2**63}), OverflowError),
                                (lambda: transaction.delete("t", 1), TypeError),
                                (lambda: transaction.insert("t", (4, 1), 2), changecap.Error)):
                self.assertRaises(error, call)
        # The rows up to the one that was refused are there.
        self.assertEqual(self.rows(), [(1, "x"), (2, "y"), (3, "z")])

    def test_conflicts(self):
        loose = ("insert", "t", (None, "loose"))
        self.server.commit(loose)
        for read, other, wanted in (
                (lambda it: it.get("t", (1,)), ("update", "t", (1,), {1: "w"}), ("t", (1,))),
                (lambda it: it.get("t", (5,)), ("insert", "t", (5, "new")), ("t", (5,))),
                (lambda it: it.scan("t"), ("delete", "t", (5,)), ("t", None)),
                (lambda it: it.get("t", changecap.RowId(1)), ("delete", "t", changecap.RowId(1)), ("t", 1)),
                (lambda it: it.insert("t", (None, "more")), loose, ("t", None))):
            with self.assertRaises(changecap.Conflict) as raised, self.server.transaction() as transaction:
                read(transaction)
                self.server.commit(other)
            conflict = raised.exception
            self.assertEqual((conflict.kind, conflict.name, conflict.at), (11, "Stale", None))
            self.assertEqual((conflict.table, conflict.row), wanted)
            self.assertRaises(ValueError, transaction.commit)
        # What nobody looked at does not count.
        with self.server.transaction() as transaction:
            transaction.get("t", (1,))
            self.server.commit(("update", "t", (2,), {1: "w"}))

    def test_runs(self):
        calls = []

        def work(transaction):
            calls.append(transaction.get("t", (1,)).values[1])
            if len(calls) < 3:
                self.server.commit(("update", "t", (1,), {1: len(calls)}))
            transaction.update("t", (1,), {1: "last"})
            return transaction

        self.assertEqual(self.server.run(work).version, 5)
        self.assertEqual((calls, self.rows()[0]), (["x", 1, 2], (1, "last")))
        for tries in 2, 1:
            calls.clear()
            self.assertRaises(changecap.Conflict, self.server.run, work, tries=tries)
            self.assertEqual(len(calls), tries)
        self.assertRaises(KeyError, self.server.run, {}.__getitem__)
        self.assertIsNone(self.server.run(changecap.Transaction.rollback))

    def test_transactions_with_their_capture(self):
        with self.server.session() as session:
            session.attach()
            with self.server.transaction(session) as transaction:
                transaction.update("t", (1,), {1: "w"})
            change, = changecap.iterate(transaction.capture.changeset())
            self.assertEqual((transaction.version, transaction.capture.version), (3, 3))
            self.assertEqual((change.old, change.new), ({0: 1, 1: "x"}, {1: "w"}))
            made = self.server.run(lambda it: it.delete("t", (1,)) or it, session=session)
            self.assertEqual([it.operation for it in changecap.iterate(made.capture.changeset())], ["delete"])
            session.drop()
            with self.assertRaises(changecap.Refused) as raised, self.server.transaction(session) as transaction:
                transaction.delete("t", (2,))
            self.assertEqual((raised.exception.kind, raised.exception.at), (18, None))


class Examples(unittest.TestCase):
    """The examples of README.md and of docs/manual/python.md."""

    def test_a_session(self):
        with changecap.Server() as server:
            server.create_table("t", [True, False])
            session = server.session()
            session.attach("t")
            server.commit(("insert", "t", (1, "x")))
            changeset = session.changeset()
        self.assertEqual((changeset, changecap.invert(changeset)), (INSERT, DELETE))

    def test_an_application_with_conflicts(self):
        with changecap.Server() as server:
            server.create_table("t", [True, False])
            for conflicts, changeset in ((0, INSERT), (1, INSERT)):
                try:
                    report = server.apply(changeset)
                except changecap.Refused as refused:
                    # Change refused.at met a conflict, and nothing was changed.
                    self.assertEqual((refused.kind, refused.at), (15, 0))
                    report = server.apply(changeset, data=changecap.REPLACE, notfound=changecap.OMIT,
                                          conflict=changecap.REPLACE)
                self.assertEqual((report.applied, report.conflicts), (1, conflicts))
            self.assertEqual(server.get("t", (1,)).values, (1, "x"))

    def test_a_rebased_changeset(self):
        with changecap.Server() as client, changecap.Server() as hub:
            own, of_hub = INSERT[:-1] + b"y", INSERT
            for server, changeset in ((client, own), (hub, of_hub)):
                server.create_table("t", [True, False])
                server.apply(changeset)
            report = client.apply(of_hub, changecap.OMIT, changecap.OMIT, changecap.OMIT, rebase=True)
            rebaser = changecap.Rebaser()
            rebaser.configure(report.buffer())
            hub.apply(rebaser.rebase(own))
            self.assertEqual(hub.scan("t"), client.scan("t"))

    def test_changes(self):
        inserted = []
        for change in changecap.iterate(INSERT):
            if change.operation == "insert":
                inserted.append((change.table, change.key, change.new))
        self.assertEqual(inserted, [("t", (True, False), {0: 1, 1: "x"})])

    def test_rows(self):
        with changecap.Server() as server:
            server.create_table("t", [True, False])
            version = server.commit(("insert", "t", (1, "x")), ("insert", "t", (None, "y")))
            server.commit(("update", "t", (1,), {1: "z"}), ("delete", "t", changecap.RowId(1)), base=version)
            rows = [row.values for row in server.scan("t")]
        self.assertEqual(rows, [(1, "z")])

    def test_a_copy_of_the_tables(self):
        with changecap.Server() as server:
            server.create_table("t", [True, False])
            server.commit(("insert", "t", (1, "x")))
            dump = server.snapshot().dump("t")
            with changecap.Server() as copy:
                copy.load(dump)
                rows = [row.values for row in copy.scan("t")]
        self.assertEqual(rows, [(1, "x")])

    def test_threads(self):
        def add(transaction):
            balance = transaction.get("t", (1,)).values[1]
            transaction.update("t", (1,), {1: balance + 1})

        with changecap.Server() as server, server.session() as session:
            server.create_table("t", [True, False])
            session.attach("t")
            server.commit(("insert", "t", (1, 0)))
            threads = [threading.Thread(target=server.run, args=(add,)) for _ in range(4)]
            for thread in threads:
                thread.start()
            for thread in threads:
                thread.join()
            changeset = session.changeset()
        self.assertEqual([change.new for change in changecap.iterate(changeset)], [{0: 1, 1: 4}])

    def test_a_transaction(self):
        with changecap.Server() as server, server.session() as session:
            server.create_table("t", [True, False])
            server.commit(("insert", "t", (1, 10)))
            session.attach()
            try:
                with server.transaction(session) as transaction:
                    balance = transaction.get("t", (1,)).values[1]
                    transaction.update("t", (1,), {1: balance - 5})
                    transaction.insert_many("t", [(2, 5), (3, 0)])
                changeset = transaction.capture.changeset()
            except changecap.Conflict as conflict:
                # Another thread has changed the row, and nothing was committed: begin again.
                print(conflict.table, conflict.row)
        self.assertEqual([change.row for change in changecap.iterate(changeset)], [(1,), (2,), (3,)])

    def test_captures(self):
        log = []
        with changecap.Server() as server, server.session() as session:
            server.create_table("t", [True, False])
            session.attach()
            for number in range(3):
                server.commit_many("t", [(2 * number, None), (2 * number + 1, None)])
                for capture in session.captures():
                    log.append((capture.version, capture.changeset()))
            rows = server.scan("t")
        with changecap.Server() as copy:
            copy.create_table("t", [True, False])
            for version, changeset in log:
                copy.apply(changeset)
            self.assertEqual((copy.scan("t"), len(log)), (rows, 3))


if __name__ == "__main__":
    unittest.main()
