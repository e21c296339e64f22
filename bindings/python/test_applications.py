"""Tests applications whose conflicts a function decides."""
import threading
import unittest

import changecap
from changecap import ABORT, CONFLICT, DATA, NOTFOUND, OMIT, REPLACE

INSERT = changecap.EXAMPLE
# Inserts the row under 1 twice, with another text the second time.
TWICE = INSERT + INSERT[6:-1] + b"y"
DELETE = INSERT[:6] + b"\x09" + INSERT[7:16] + b"\x02" + INSERT[17:]


def with_row(text):
    """A server with the table t and a row under 1."""
    server = changecap.Server()
    server.create_table("t", [True, False])
    server.commit(("insert", "t", (1, text)))
    return server


class Applications(unittest.TestCase):
    def test_each_conflict_with_the_row_that_is_there(self):
        seen = []

        def decide(kind, change, row):
            seen.append((kind, change.operation, change.new, row))
            return REPLACE

        with with_row("a") as server:
            self.assertEqual(server.apply(TWICE, conflict=decide), changecap.Report(3, 2, 2, 0, 0))
            self.assertEqual(server.get("t", (1,)).values, (1, "y"))
        self.assertEqual(seen, [(CONFLICT, "insert", {0: 1, 1: "x"}, (1, "a")),
                                (CONFLICT, "insert", {0: 1, 1: "y"}, (1, "x"))])

    def test_rows_in_place_of_changes(self):
        with with_row("a") as server:
            report = server.apply(INSERT, conflict=lambda kind, change, row: (*row[:1], row[1] + change.new[1]))
            self.assertEqual((report.applied, report.omitted), (0, 1))
            self.assertEqual(server.get("t", (1,)).values, (1, "ax"))
            for row, kind in (((1,), 3), ([1, 2, 3], 3)):
                with self.assertRaises(changecap.Refused) as raised:
                    server.apply(INSERT, conflict=lambda *_, row=row: row)
                self.assertEqual((raised.exception.kind, raised.exception.at), (kind, 0))
                self.assertEqual(raised.exception.change.table, "t")
            with self.assertRaises(changecap.Error) as raised:
                server.apply(INSERT, conflict=lambda *_: (2, "x"))
            self.assertEqual(raised.exception.status, changecap.MISUSE)
            for answer in (3, 2**32):
                self.assertRaises((changecap.Error, ValueError), server.apply, INSERT, conflict=lambda *_: answer)
            self.assertRaises(TypeError, server.apply, INSERT, conflict=lambda *_: None)
            self.assertEqual(server.get("t", (1,)).values, (1, "ax"))

    def test_answers_that_refuse_the_blob(self):
        with with_row("a") as server:
            with self.assertRaises(changecap.Refused) as raised:
                server.apply(TWICE, conflict=lambda kind, change, row: OMIT if change.new[1] == "x" else ABORT)
            self.assertEqual(str(raised.exception), "refused at 1: E15 Aborted: insert of t (1,)")
            with self.assertRaises(changecap.Refused) as raised:
                server.apply(DELETE, conflict=lambda kind, change, row: {(NOTFOUND, None): REPLACE}[kind, row])
            self.assertEqual((raised.exception.kind, raised.exception.at), (16, 0))
            with self.assertRaises(ZeroDivisionError):
                server.apply(INSERT, conflict=lambda *_: 1 // 0)
            self.assertEqual(server.snapshot().version, 2)

    def test_filters(self):
        def never(*_):
            raise AssertionError

        asked = []

        def accepts(table):
            asked.append(table)
            return table == "u"

        with with_row("a") as server:
            for table in ("u", "it's"):
                server.create_table(table, [True, False])
            others = [INSERT[:4] + name.encode() + b"\0" + INSERT[6:] for name in ("u", "it's")]
            self.assertEqual(server.apply(b"".join((INSERT, *others, INSERT)), conflict=never, filter=accepts).applied, 1)
            self.assertEqual(asked, ["t", "u", "it's"])
            self.assertEqual([server.scan(it) for it in ("t", "it's")], [[changecap.Row(None, (1, "a"))], []])
            self.assertEqual(server.apply(b"".join((INSERT, *others)), filter="ends 's'").applied, 1)
            self.assertEqual(server.apply(others[1], conflict=OMIT, filter=lambda it: it == "it's").omitted, 1)
            report = server.apply(INSERT + others[0], data=REPLACE, filter=lambda it: False)
            self.assertEqual((report.conflicts, report.skipped, report.passed), (0, 0, (2, 2)))
            # The refused change has its number among all changes, and the buffer those of accepted tables.
            with self.assertRaises(changecap.Refused) as raised:
                server.apply(INSERT + others[1], filter="ends 's'")
            self.assertEqual((raised.exception.at, raised.exception.change.table), (1, "it's"))
            report = server.apply(INSERT + others[1], conflict=OMIT, filter="ends 's'", rebase=True)
            self.assertEqual((report.passed, len(report.buffer())), (changecap.Passed(1, 1), len(others[1])))
            self.assertIsNone(server.apply(INSERT, conflict=lambda *_: OMIT).passed)
            for text, at in (("is", 2), ("", 0)):
                with self.assertRaises(changecap.NoFilter) as raised:
                    server.apply(INSERT, filter=text)
                self.assertEqual(raised.exception.at, at)
            self.assertRaises(changecap.Malformed, server.apply, b"T\x80", conflict=never)

    def test_a_rebase_buffer(self):
        with with_row("a") as server:
            report = server.apply(INSERT, conflict=lambda *_: OMIT, rebase=True)
            rebaser = changecap.Rebaser()
            rebaser.configure(report.buffer())
            change, = changecap.iterate(rebaser.rebase(INSERT[:-1] + b"a"))
            self.assertEqual((change.operation, change.new), ("update", {1: "a"}))
            self.assertRaises(changecap.Error, server.apply, changecap.patchset(INSERT), conflict=lambda *_: OMIT,
                              rebase=True)

    def test_a_row_that_another_one_changes_meanwhile(self):
        seen = []

        def decide(kind, change, row):
            # It is looked at, and omitted; and a commit elsewhere is in nobody's way.
            if not seen:
                server.commit(("update", "t", (1,), {1: "b"}), ("insert", "t", (2, "c")))
            else:
                server.commit(("update", "t", (2,), {1: "d"}))
            seen.append(row)
            return OMIT

        with with_row("a") as server:
            self.assertEqual(server.apply(INSERT, conflict=decide).version, 5)
            self.assertEqual(seen, [(1, "a"), (1, "b")])
            seen.clear()
            server.commit(("update", "t", (1,), {1: "a"}), ("delete", "t", (2,)))
            with self.assertRaises(changecap.Conflict) as raised:
                server.apply(INSERT, conflict=decide, tries=1)
            self.assertEqual((raised.exception.table, raised.exception.row), ("t", (1,)))

    def test_counters_that_threads_add_to(self):
        with with_row(0) as server:
            one = INSERT[:-3] + b"\x01" + (1).to_bytes(8, "big")

            def add():
                for _ in range(50):
                    server.apply(one, conflict=lambda kind, change, row: (1, row[1] + change.new[1]), tries=10_000)

            threads = [threading.Thread(target=add) for _ in range(4)]
            for thread in threads:
                thread.start()
            for thread in threads:
                thread.join()
            self.assertEqual(server.get("t", (1,)).values, (1, 200))

    def test_kinds(self):
        with with_row("a") as server:
            kinds = []
            update = changecap.invert(INSERT)
            server.apply(update, conflict=lambda kind, change, row: kinds.append((kind, row)) or OMIT)
            self.assertEqual(kinds, [(DATA, (1, "a"))])


if __name__ == "__main__":
    unittest.main()
