"""Each request for memory of a call is refused in turn: the call raises MemoryError and has changed nothing.

It is run with refuse_memory.c before the C library, which it compiles; without cc or glibc it is left out.
"""
import ctypes
import os
import shutil
import subprocess
import sys
import tempfile
import unittest

from test_support import changecap

HERE = os.path.dirname(os.path.abspath(__file__))
REFUSING = "CHANGECAP_REFUSING"


class Memory(unittest.TestCase):
    def setUp(self):
        self.server = server = changecap.Server()
        server.create_table("t", [True, False])
        server.commit_many("t", [(number, "x" * number) for number in range(50)])
        server.save("before")
        self.session = server.session()
        self.session.attach()
        server.commit(("update", "t", (1,), {1: "z"}))
        self.capture, self.blob = self.session.capture(), self.session.changeset()
        self.refuse = ctypes.CDLL(None).refuse_memory_after

    def tearDown(self):
        self.server.close()

    def refused(self, name, call, kinds=()):
        """Makes a call with each of its requests refused, until it needs no more of them: one at least."""
        times, last = 0, -1
        while times < last + 20:
            before = self.server.snapshot().version
            try:
                self.refuse(times)
                call()
            except (MemoryError, *kinds) as error:
                self.refuse(-1)
                last = times
                if not isinstance(error, changecap.Uncaptured):
                    self.assertEqual(self.server.snapshot().version, before, name)
                else:
                    self.assertEqual(self.server.snapshot().version, error.version, name)
            finally:
                self.refuse(-1)
            times += 1
        self.assertGreaterEqual(last, 0, name)

    def transact(self):
        with self.server.transaction(self.session) as transaction:
            transaction.get("t", (2,))
            transaction.update("t", (2,), {1: "q"})
            mark = transaction.savepoint()
            transaction.delete("t", (3,))
            transaction.rollback_to(mark)

    def test_blobs(self):
        blob = self.blob
        for name, call in (("check", lambda: changecap.check(blob)), ("invert", lambda: changecap.invert(blob)),
                           ("patchset", lambda: changecap.patchset(blob)), ("json", lambda: changecap.json(blob)),
                           ("concat", lambda: changecap.concat(blob, b"")),
                           ("rebase", lambda: changecap.Rebaser().rebase(blob)),
                           ("rebase_buffer", lambda: changecap.rebase_buffer(blob, lambda change: changecap.OMIT)),
                           ("iterate", lambda: list(changecap.iterate(blob))),
                           ("pieces", lambda: list(changecap.iterate_pieces([blob[:7], blob[7:]])))):
            self.refused(name, call)

    def test_servers(self):
        server, session = self.server, self.session
        change = ("update", "t", (1,), {1: "y" * 300}), ("delete", "t", (49,)), ("insert", "t", (49, None))
        for name, call, kinds in (
                ("call", lambda: server.call("scan t"), ()), ("commit", lambda: server.commit(*change), ()),
                ("commit_captured", lambda: server.commit_captured(session, *change), (changecap.Uncaptured,)),
                ("apply", lambda: server.apply(self.blob, changecap.OMIT), ()),
                ("apply, options", lambda: server.apply(self.blob, changecap.OMIT, filter="all", quiet=[session]), ()),
                ("apply, rebase", lambda: server.apply(self.blob, changecap.OMIT, rebase=True), ()),
                ("buffer", server.apply(self.blob, changecap.OMIT, rebase=True).buffer, ()),
                ("get", lambda: server.get("t", (40,)), ()), ("save", lambda: server.save("now"), ()),
                ("scan_from", lambda: server.snapshot().scan_from("t", (45,), 3), ()),
                ("diff", lambda: session.diff("before", "t"), ()), ("restart", session.restart, ()),
                ("changeset", self.capture.changeset, ()), ("patchset", self.capture.patchset, ()),
                ("transaction", self.transact, (changecap.Uncaptured,))):
            self.refused(name, call, kinds)
        self.assertEqual(len([server.session() for _ in range(60)]), 60)


def main():
    """Runs the tests in a process of their own, with the C that refuses memory."""
    if os.environ.get(REFUSING):
        unittest.main()
    compiler = next(filter(shutil.which, (os.environ.get("CC", "cc"), "clang")), None)
    with tempfile.TemporaryDirectory() as folder:
        made = f"{folder}/refuse_memory.so"
        words = [compiler or "cc", "-O1", "-fPIC", "-shared", f"{HERE}/refuse_memory.c", "-o", made]
        if not compiler or subprocess.run(words, capture_output=True, check=False).returncode:
            print("test_memory.py: no cc, or no glibc", file=sys.stderr)
            return 0
        environment = {**os.environ, REFUSING: "1", "LD_PRELOAD": made}
        return subprocess.call([sys.executable, os.path.abspath(__file__), *sys.argv[1:]], env=environment)


if __name__ == "__main__":
    sys.exit(main())
