"""A follower of the random runs: follower_process.py URL FOLDER NAME

It follows until SIGTERM. NAME begins with sqlite or with server. A reader beside it notes in
FOLDER/NAME.follower at each moment that it looks: 'DIGEST VERSION SUM', the place and the sum of the tables
in one reading.
"""
from __future__ import annotations

import logging
import os
import signal
import sqlite3
import sys
import threading
import time

import support  # noqa: F401 - the path of the package
import changecap
from changecap_followers import Follower, RedisBroker, Retry, ServerTarget, SqliteTarget, Stopped
from leader_process import Notes
from support import TABLES, table_sum


def read_server(target: ServerTarget):
    """The place and the rows of a server, at one moment."""
    snapshot = target.server.snapshot()
    _, _, version, digest = snapshot.get("changecap_place", ("changecap",)).values
    rows = []
    for table in TABLES:
        try:
            rows += [(table, row.values) for row in snapshot.scan(table)]
        except changecap.Refused:
            pass  # it is not there yet
    return digest, version, rows


def read_sqlite(path: str):
    """The place and the rows of a database, in one transaction of a connection of its own."""
    connection = sqlite3.connect(path, timeout=10, isolation_level=None)
    try:
        connection.execute("BEGIN")
        version, digest = connection.execute("SELECT version, digest FROM changecap_place").fetchone()
        there = {name for name, in connection.execute("SELECT name FROM sqlite_schema WHERE type = 'table'")}
        rows = [(table, row) for table in TABLES if table in there
                for row in connection.execute(f'SELECT * FROM "{table}"')]
        return digest, version, rows
    finally:
        connection.close()


def note(read, notes: Notes) -> None:
    digest, version, rows = read()
    notes.write(digest or "-", version, table_sum(rows))


def main() -> int:
    url, folder, name = sys.argv[1:]
    logging.basicConfig(level="INFO", format=f"%(asctime)s {name} %(message)s")
    notes, stop = Notes(f"{folder}/{name}.follower"), threading.Event()
    signal.signal(signal.SIGTERM, lambda *_: stop.set())
    path = f"{folder}/{name}.db"
    target = SqliteTarget(path) if name.startswith("sqlite") else ServerTarget()
    read = (lambda: read_sqlite(path)) if name.startswith("sqlite") else (lambda: read_server(target))
    follower = Follower(RedisBroker(url, timeout=1), target, one_by_one=name.endswith("one"),
                        shown=lambda _: note(read, notes))
    note(read, notes)
    failed = []

    def look() -> None:
        """Looks at moments that are not those of the follower."""
        try:
            while not stop.is_set():
                note(read, notes)
                time.sleep(0.02)
        except BaseException as error:  # noqa: BLE001 - whatever it is, the process ends with it
            failed.append(error)
            stop.set()

    reader = threading.Thread(target=look)
    reader.start()
    try:
        follower.run(Retry(stop))
    except Stopped:
        pass
    finally:
        stop.set()
        reader.join()
    note(read, notes)
    if failed:
        raise failed[0]
    return 0


if __name__ == "__main__":
    os.umask(0o077)
    sys.exit(main())
