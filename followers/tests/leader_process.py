"""A leader of the random runs: leader_process.py URL FOLDER NAME SEED

It commits at random until the file FOLDER/stop is there, and notes in FOLDER/NAME.leader, before it does so:

  begin DIGEST          the place from which it leads
  state VERSION SUM     what the tables are at a version
  entry DIGEST VERSION BEFORE    an entry that it publishes, and the digest of the one before
  acked VERSION         a version that the broker has, after it was told so
"""
from __future__ import annotations

import logging
import os
import random
import sys
import threading
import time

import support  # noqa: F401 - the path of the package
from changecap_followers import Entry, Leader, Overtaken, RedisBroker, Snapshots
from support import TABLES, row_sum, table_sum

TEXTS = "", "a", "ä" * 3, "x" * 300, "it's", "\u2028"
VALUES = None, 0, 1, -(2**63), 2**63 - 1, "", "text", "ü", b"", b"\0\xff", b"y" * 200
_MASK = 2**64 - 1


class Notes:
    """A file that has each line as soon as it is written, though the process is killed."""

    def __init__(self, path: str) -> None:
        self._file = os.open(path, os.O_WRONLY | os.O_CREAT | os.O_APPEND)

    def write(self, *words: object) -> None:
        os.write(self._file, (" ".join(map(str, words)) + "\n").encode())


class NotedBroker(RedisBroker):
    """A broker that notes each entry before it is sent."""

    def __init__(self, url: str, notes: Notes) -> None:
        super().__init__(url, timeout=1)
        self.notes = notes

    def publish(self, entry: Entry) -> None:
        self.notes.write("entry", entry.digest, entry.version, entry.before.digest or "-")
        super().publish(entry)


class Writer:
    """Commits at random, and knows the sum of all rows."""

    def __init__(self, leader: Leader, notes: Notes, seed: str) -> None:
        self.leader, self.notes, self.random, self.lock = leader, notes, random.Random(seed), threading.Lock()
        self.rows = {table: {} for table in TABLES}
        for table in leader.tables:
            for row in leader.server.scan(table):
                self.rows[table][self.key_of(table, row.values)] = row.values
        self.sum = table_sum((table, row) for table, rows in self.rows.items() for row in rows.values())
        self.version = leader.server.snapshot().version
        self.note_state(self.version)

    @staticmethod
    def key_of(table, row):
        return tuple(value for value, is_key in zip(row, TABLES[table]) if is_key)

    def note_state(self, version: int) -> None:
        self.notes.write("state", self.leader.stream_version(version), self.sum)

    def row(self, table: str):
        """A row whose key is one of a few."""
        keys = iter((self.random.randrange(30), self.random.choice(TEXTS)))
        return tuple(next(keys) if is_key else self.random.choice(VALUES) for is_key in TABLES[table])

    def operation(self):
        """An operation that is not refused, made on the rows that are known."""
        table = self.random.choice(list(self.leader.tables))
        rows, row = self.rows[table], self.row(table)
        key = self.key_of(table, row)
        old = rows.get(key)
        if old is None:
            rows[key] = row
            made = "insert", table, row
        elif self.random.random() < 0.3:
            del rows[key]
            made = "delete", table, key
        else:
            column = TABLES[table].index(False, 1) if False in TABLES[table][1:] else 0
            rows[key] = old[:column] + (row[column],) + old[column + 1:]
            made = "update", table, key, {column: row[column]}
        self.sum += (row_sum(table, rows[key]) if key in rows else 0) - (row_sum(table, old) if old else 0)
        self.sum &= _MASK
        return made

    def ensure_tables(self, tables) -> None:
        """Makes tables, one after another."""
        for table in tables:
            with self.lock:
                if table not in self.leader.tables:
                    self.note_state(self.version + 1)
                    self.version = self.leader.ensure_table(table, TABLES[table])

    def commit(self) -> int:
        """Makes one commit."""
        with self.lock:
            operations = [self.operation() for _ in range(self.random.choice((1, 1, 1, 2, 5)))]
            self.note_state(self.version + 1)
            version = self.leader.server.commit(*operations)
            assert version == self.version + 1, "another one has committed"
            self.version = version
            return version


def work(writer: Writer, stop: str, number: int) -> None:
    """Commits until the file is there, in bursts, and now and then waits for the broker."""
    own = random.Random(f"{number} {time.time_ns()}")
    while not os.path.exists(stop):
        for _ in range(own.choice((1, 3, 20))):
            version = writer.commit()
        if own.random() < 0.3 and writer.leader.wait(version, 1):
            writer.notes.write("acked", writer.leader.stream_version(version))
        time.sleep(own.choice((0, 0.001, 0.01)))
        if own.random() < 0.02:
            writer.ensure_tables(["w"])


def main() -> int:
    url, folder, name, seed = sys.argv[1:]
    logging.basicConfig(level="INFO", format=f"%(asctime)s {name} %(message)s")
    notes = Notes(f"{folder}/{name}.leader")
    broker, own = NotedBroker(url, notes), random.Random(seed)
    snapshots = Snapshots(broker, every=own.choice((3, 20, 100)), keep=own.choice((0, 1, 10)))
    leader = Leader(broker, name=name, snapshots=snapshots)
    notes.write("begin", leader.publisher.place.digest or "-")
    writer = Writer(leader, notes, seed)
    failed = []

    def guarded(number: int) -> None:
        try:
            work(writer, f"{folder}/stop", number)
        except BaseException as error:  # noqa: BLE001 - whatever it is, the process ends with it
            failed.append(error)

    try:
        writer.ensure_tables(["t", "u"])
        threads = [threading.Thread(target=guarded, args=(number,)) for number in range(2)]
        for thread in threads:
            thread.start()
        for thread in threads:
            thread.join()
        if failed:
            raise failed[0]
        return 0 if leader.close(20) else 5
    except Overtaken:
        return 3
    finally:
        if leader.publisher.error or failed:
            leader.stop()


if __name__ == "__main__":
    sys.exit(main())
