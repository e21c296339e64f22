"""Rebasing, beside worked values, between servers, and between SQLite's databases where SQLite is there."""
import random
import unittest

from test_support import DELETE, INSERT, OTHERS, TWO_KEYS, changecap, sqlite

UPDATE = bytes.fromhex("540201007400170001000000000000000103017800030179")
INSERT_Y = INSERT[:-1] + b"y"
DELETE_Y = DELETE[:-1] + b"y"
UPDATE_Z = UPDATE[:-1] + b"z"


def buffer_of(changeset, answer):
    """The buffer of an application in which each change met a conflict."""
    return changecap.rebase_buffer(changeset, lambda change: answer)


def rebased(changeset, *buffers):
    """The changeset over buffers."""
    rebaser = changecap.Rebaser()
    for buffer in buffers:
        rebaser.configure(buffer)
    return rebaser.rebase(changeset)


class Rebases(unittest.TestCase):
    def test_one_change_over_another(self):
        y_to_z = UPDATE_Z.replace(b"\3\1x", b"\3\1y")
        for local, remote, answer, wanted in (
                (INSERT_Y, INSERT, changecap.OMIT, UPDATE), (INSERT, INSERT, changecap.OMIT, b""),
                (INSERT_Y, INSERT, changecap.REPLACE, b""), (UPDATE_Z, UPDATE, changecap.OMIT, y_to_z),
                (UPDATE, UPDATE, changecap.OMIT, b""), (UPDATE_Z, UPDATE, changecap.REPLACE, b""),
                (UPDATE, DELETE, changecap.OMIT, INSERT_Y), (UPDATE, DELETE, changecap.REPLACE, b""),
                (DELETE, UPDATE, changecap.OMIT, DELETE_Y), (DELETE, DELETE, changecap.OMIT, b"")):
            self.assertEqual(rebased(local, buffer_of(remote, answer)), wanted)
        self.assertEqual(rebased(UPDATE_Z, buffer_of(DELETE, changecap.OMIT), b"",
                                 buffer_of(INSERT_Y, changecap.OMIT)), y_to_z)
        self.assertEqual(rebased(UPDATE), UPDATE)
        self.assertEqual(changecap.Rebaser().rebase(TWO_KEYS, changecap.KEYS_ONES), TWO_KEYS)

    def test_answers(self):
        both = INSERT + bytes.fromhex("09000100000000000000020301") + b"y"
        for answers, wanted in (({}, b""), ({(1,): changecap.OMIT}, INSERT),
                                ({(2,): changecap.REPLACE}, both[:6] + b"\x09\1" + both[22:])):
            self.assertEqual(changecap.rebase_buffer(both, lambda change: answers.get(change.row)), wanted)
        for answer in changecap.ABORT, 255, 256, -1, "omit":
            with self.assertRaises(changecap.Error) as raised:
                buffer_of(INSERT, answer)
            self.assertEqual(raised.exception.status, changecap.MISUSE)
        with self.assertRaises(ZeroDivisionError):
            changecap.rebase_buffer(INSERT, lambda change: 1 // 0)

    def test_what_is_refused(self):
        patchset = changecap.patchset(INSERT)
        buffer = buffer_of(DELETE, changecap.OMIT)
        for call, status in ((lambda: buffer_of(patchset, changecap.OMIT), changecap.PATCHSET),
                             (lambda: rebased(INSERT, patchset), changecap.PATCHSET),
                             (lambda: rebased(INSERT, b"T"), changecap.MALFORMED),
                             (lambda: changecap.Rebaser().rebase(INSERT, 7), changecap.MISUSE)):
            with self.assertRaises(changecap.Error) as raised:
                call()
            self.assertEqual((raised.exception.status, raised.exception.blob), (status, None))
        for changeset, buffers, status, blob in (
                (patchset, [buffer], changecap.PATCHSET, 0), (b"T", [buffer], changecap.MALFORMED, 0),
                (TWO_KEYS, [buffer], changecap.COLUMNS, 0),
                (INSERT, [buffer, buffer_of(TWO_KEYS, changecap.OMIT)], changecap.COLUMNS, 0)):
            with self.assertRaises(changecap.Error) as raised:
                rebased(changeset, *buffers)
            self.assertEqual((raised.exception.status, raised.exception.blob), (status, blob))
        for other in OTHERS:
            for call in changecap.Rebaser().rebase, changecap.Rebaser().configure, lambda it: buffer_of(it, 0):
                self.assertRaises(TypeError, call, other)

    def test_applications(self):
        with changecap.Server() as server:
            server.create_table("t", [True, False])
            self.assertEqual(server.apply(INSERT, rebase=True).buffer(), b"")
            report = server.apply(INSERT_Y, conflict=changecap.REPLACE, rebase=True)
            self.assertEqual((report.conflicts, report.omitted), (1, 0))
            self.assertEqual(report.buffer(), INSERT_Y[:7] + b"\1" + INSERT_Y[8:])
            self.assertEqual(report, changecap.Report(report.version, 1, 1, 0, 0))
            self.assertRaises(ValueError, server.apply(b"").buffer)
            version = server.snapshot().version
            with self.assertRaises(changecap.Refused) as raised:
                server.apply(INSERT, rebase=True)
            self.assertEqual((raised.exception.kind, raised.exception.at, raised.exception.change.row), (15, 0, (1,)))
            with self.assertRaises(changecap.Error) as raised:
                server.apply(changecap.patchset(DELETE_Y), rebase=True)
            self.assertEqual(raised.exception.status, changecap.PATCHSET)
            with self.assertRaises(changecap.Malformed):
                server.apply(b"T", rebase=True)
            self.assertEqual(server.snapshot().version, version)
        self.assertEqual(len(report.buffer()), 20)

    def test_servers_have_the_same_rows(self):
        for number in range(40):
            chance = random.Random(number)
            with changecap.Server() as hub, changecap.Server() as copy:
                for server in hub, copy:
                    server.create_table("t", [True, False, False])
                    server.commit_many("t", [(key, "a", "b") for key in range(6)])
                theirs, ours = (changed(server, chance) for server in (hub, copy))
                answer = chance.choice((changecap.OMIT, changecap.REPLACE))
                report = copy.apply(theirs, answer, changecap.OMIT, answer, rebase=True)
                self.assertEqual(hub.apply(rebased(ours, report.buffer())).conflicts, 0)
                self.assertEqual(hub.scan("t"), copy.scan("t"))


def changed(server, chance):
    """The changeset of some random changes of a server."""
    with server.session() as session:
        session.attach()
        for _ in range(6):
            key = chance.randrange(9)
            row = server.get("t", (key,))
            if row is None:
                server.commit(("insert", "t", (key, *chance.choices("abc", k=2))))
            elif chance.randrange(3):
                server.commit(("update", "t", (key,), {chance.choice((1, 2)): chance.choice("abc")}))
            else:
                server.commit(("delete", "t", (key,)))
        return session.changeset()


class Databases(unittest.TestCase):
    """The buffer of an application by SQLite."""

    def test_an_application_by_sqlite(self):
        if not sqlite:
            self.skipTest("no SQLite with the session extension")
        changesets = []
        databases = [sqlite.Connection() for _ in range(2)]
        for connection, text in zip(databases, "xy"):
            connection.execute("CREATE TABLE t(a PRIMARY KEY, b)")
            session = connection.session()
            session.attach()
            connection.execute("INSERT INTO t VALUES(1, ?)", [text])
            changesets.append(session.changeset())
        hub, client = databases
        found = client.apply(changesets[0], lambda kind: "omit")
        self.assertEqual([kind for kind, *_ in found.conflicts], ["conflict"])
        rebased_changeset = rebased(changesets[1], buffer_of(changesets[0], changecap.OMIT))
        self.assertEqual(hub.apply(rebased_changeset, lambda kind: "abort").code, sqlite.OK)
        self.assertEqual(hub.execute("SELECT * FROM t"), [(1, "y")])
        for connection in databases:
            connection.close()


if __name__ == "__main__":
    unittest.main()
