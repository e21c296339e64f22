"""What the tests have in common. The package is that of PYTHONPATH, else of bindings/out of these sources."""
import array
import os
import sys
import threading

sys.dont_write_bytecode = True
ROOT = os.path.dirname(os.path.dirname(os.path.dirname(os.path.abspath(__file__))))
sys.path.append(os.path.join(ROOT, "bindings", "out", "python"))
sys.path.insert(1, os.path.join(ROOT, "conformance"))
import changecap  # noqa: E402

try:
    import sqlite
    sqlite.library()
except Exception:  # noqa: BLE001 - no SQLite with the session extension, whatever the reason
    sqlite = None

INSERT = bytes.fromhex("5402010074001200010000000000000001030178")
DELETE = bytes.fromhex("5402010074000900010000000000000001030178")
TWO_KEYS = bytes.fromhex("540300010174001200030178010000000000000002010000000000000001")
TWO_TABLES = bytes.fromhex("540201007500170101000000000000000703012d0003022b2b540301000062001200040200ff05030161")


class Index:
    """What is no int, but may stand for one as an index."""

    def __index__(self):
        return 5


# What is no blob.
OTHERS = [[1, 2], Index(), array.array("i", [1]), memoryview(array.array("i", [1])), 5, 1.5, "T", None, (84,)]


def changes_of(blob):
    """The changes of a blob in an order of their own: SQLite has those of a concatenation in that of a hash table."""
    return sorted(map(repr, changecap.iterate(blob)))


def on_threads(*works):
    """Calls each function on a thread of its own, and raises what one of them has raised."""
    failed = []

    def work_of(work):
        try:
            work()
        except BaseException as error:  # noqa: BLE001 - whatever it is, the caller gets it
            failed.append(error)

    threads = [threading.Thread(target=work_of, args=(work,)) for work in works]
    for thread in threads:
        thread.start()
    for thread in threads:
        thread.join()
    if failed:
        raise failed[0]
