"""Times the package for Python beside Python's own sqlite3, which has no session extension: python_times.py

Each line that it prints is a name and the nanoseconds of processor time that one took: a commit of an insert, a row of
a commit of 100, and a change that is read of a blob; and of the twins of each, whose names begin with 'beside_'. Those
of the first two are on a table in memory of sqlite3, without a session; that of the third is the text of JSON.
"""
import sqlite3
import time

import changecap

COMMITS, MANY, CHANGES, TIMES = 20_000, 100, 10_000, 5


def nanoseconds(count, work):
    """What one of so many takes, on the average of a call of a function."""
    begin = time.process_time_ns()
    work()
    return (time.process_time_ns() - begin) / count


def of_changecap():
    with changecap.Server() as server, server.session() as session:
        server.create_table("t", [True, False])
        session.attach()

        def commits():
            for number in range(COMMITS):
                server.commit(("insert", "t", (number, "x")))

        def many():
            for first in range(COMMITS, 2 * COMMITS, MANY):
                server.commit_many("t", [(number, "x") for number in range(first, first + MANY)])

        yield "commit", nanoseconds(COMMITS, commits)
        yield "commit_many", nanoseconds(COMMITS, many)


def of_sqlite3():
    connection = sqlite3.connect(":memory:")
    connection.execute("CREATE TABLE t(a INTEGER PRIMARY KEY, b TEXT)")
    connection.commit()

    def commits():
        for number in range(COMMITS):
            connection.execute("INSERT INTO t VALUES(?, ?)", (number, "x"))
            connection.commit()

    def many():
        for first in range(COMMITS, 2 * COMMITS, MANY):
            rows = [(number, "x") for number in range(first, first + MANY)]
            connection.executemany("INSERT INTO t VALUES(?, ?)", rows)
            connection.commit()

    yield "beside_commit", nanoseconds(COMMITS, commits)
    yield "beside_commit_many", nanoseconds(COMMITS, many)
    connection.close()


def of_blobs():
    with changecap.Server() as server, server.session() as session:
        server.create_table("t", [True, False, False, False])
        session.attach()
        server.commit_many("t", [(number, "x", number, None) for number in range(CHANGES)])
        blob = session.changeset()

    def read():
        for _ in range(TIMES):
            for _ in changecap.iterate(blob):
                pass

    def written():
        for _ in range(TIMES):
            changecap.json(blob)

    yield "iterate", nanoseconds(TIMES * CHANGES, read)
    yield "beside_iterate", nanoseconds(TIMES * CHANGES, written)


if __name__ == "__main__":
    for times in of_changecap(), of_sqlite3(), of_blobs():
        for name, each in times:
            print(name, each)
