"""Conflicts decided one by one, beside SQLite's handler: both are given the same function, which answers by the kind of
the conflict, the change and the row that is there. What is compared is each conflict, in its order, and the tables.

This part is of the library, through the package for Python.
"""
import os
import random
import sys
import zlib
from contextlib import ExitStack

import sqlite
from rebases import SHAPES, TABLES, Copy

OUT = f"{os.path.dirname(os.path.dirname(os.path.abspath(__file__)))}/bindings/out/python"
KINDS = {1: "data", 2: "notfound", 3: "conflict"}
ANSWERS = "omit", "omit", "replace", "replace", "replace", "omit", "replace"


def package():
    """The package for Python over the built library, or none."""
    sys.path.insert(0, os.environ.get("CHANGECAP_PYTHON") or OUT)
    try:
        import changecap  # noqa: PLC0415
    except ImportError:
        return None
    finally:
        del sys.path[0]
    return changecap


class Case:
    """A blob of one database, applied to another one whose rows have changed."""

    met = 0

    def __init__(self, changecap, number):
        self.changecap, self.number, self.chance = changecap, number, random.Random(f"conflicts {number}")
        self.shapes = {table: self.chance.choice(sorted(SHAPES)) for table in TABLES}
        # In some cases some conflict ends the application, and in some a table is passed over.
        self.aborts = self.chance.random() < 0.3
        self.accepted = set(TABLES) if self.chance.random() < 0.7 else {self.chance.choice(TABLES)}

    def answer(self, kind, operation, old, new, row):
        """The answer to a conflict, which is always the same."""
        found = zlib.crc32(repr((self.number, kind, operation, sorted(old.items()), sorted(new.items()), row)).encode())
        if self.aborts and found % 3 == 0:
            return "abort"
        if kind == "notfound":
            return "replace" if self.aborts and found % 3 == 1 else "omit"
        return ANSWERS[found % len(ANSWERS)]

    def problems(self):
        """A text for each thing that is not as it should be."""
        with ExitStack() as stack:
            one, other = Copy(self.shapes), Copy(self.shapes)
            for copy in one, other:
                stack.callback(copy.close)
            one.change(self.chance, self.chance.randint(0, 36))
            other.fill(one.rows())
            one.change(self.chance, self.chance.randint(0, 36))
            content = self.captured(other)
            server = stack.enter_context(self.server(one.rows()))
            ours, theirs = self.by_changecap(server, content), self.by_sqlite(one, content)
            for what, found, wanted in zip(("conflicts", "end", "rows"), ours, theirs):
                if found != wanted:
                    yield f"{what} of {content.hex()}\n  changecap: {found}\n  SQLite:    {wanted}"

    def captured(self, copy):
        """What is captured of some changes. In some cases it is two captures, one behind the other, so that one blob
        changes a row twice."""
        is_patchset, content = self.chance.random() < 0.3, b""
        for _ in range(self.chance.choice((1, 1, 2))):
            copy.begin("own")
            copy.change(self.chance, self.chance.randint(1, 36))
            session = copy.sessions["own"]
            content += session.patchset() if is_patchset else session.changeset()
            copy.end("own")
        return content

    def server(self, rows):
        """A server with these rows."""
        server = self.changecap.Server()
        for table, shape in self.shapes.items():
            server.create_table(table, [letter == "k" for letter in shape])
            server.commit_many(table, rows[table])
        return server

    def by_changecap(self, server, content):
        """The conflicts, whether it was accepted, and the rows."""
        conflicts = []

        def decide(kind, change, row):
            answer = self.answer(KINDS[kind], change.operation, change.old, change.new, row)
            conflicts.append((KINDS[kind], change.table, change.operation, change.old, change.new, row, answer))
            return sqlite.ANSWERS[answer]

        try:
            report = server.apply(content, conflict=decide, filter=self.accepted.__contains__)
            end = "ok" if report.conflicts == len(conflicts) else f"a report of {report.conflicts} conflicts"
        except self.changecap.Refused as refused:
            end = refused.name
        return conflicts, end, {table: [row.values for row in server.scan(table)] for table in self.shapes}

    def by_sqlite(self, copy, content):
        conflicts = []

        def decide(kind, change):
            row = None if change.row is None else tuple(change.row[column] for column in range(change.width))
            answer = self.answer(kind, change.operation, change.old, change.new, row)
            conflicts.append((kind, change.table, change.operation, change.old, change.new, row, answer))
            return answer

        code, _, _ = copy.connection.apply_with_buffer(content, decide, self.accepted.__contains__)
        Case.met += len(conflicts)
        ends = {sqlite.OK: "ok", sqlite.ABORT: "Aborted", sqlite.MISUSE: "Misuse"}
        return conflicts, ends.get(code, code), copy.rows()
