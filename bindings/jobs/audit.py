"""Four threads commit on one server. Each commit captures its own changes, and a line of JSON for each is kept.
Replayed backwards, the lines give the rows of an earlier version."""
import json
from concurrent.futures import ThreadPoolExecutor

import changecap

THREADS, TIMES = 4, 3


def change_rows(transaction, phase, thread, i):
    """Adds to the row 0, which all threads do, and changes a row of the thread's own."""
    value = transaction.get("t", (0,)).values[1]
    transaction.update("t", (0,), {1: value + (thread if phase == 1 else 10 * thread)})
    if phase == 1:
        transaction.insert("t", (10 * thread + i, 100 * thread + i))
    elif i == 1:
        transaction.update("t", (10 * thread + 1,), {1: 0})
    elif i == 2:
        transaction.delete("t", (10 * thread + 2,))
    else:
        transaction.insert("t", (10 * thread + 4, 400 + thread))


def commit(server, session, phase, thread, i):
    """Commits, and answers the capture of this commit alone."""
    while True:
        try:
            with server.transaction(session) as transaction:
                change_rows(transaction, phase, thread, i)
            return transaction.capture
        except changecap.Conflict:
            pass  # another thread was first: begin again


def work(server, session, phase, thread, lines):
    for i in range(1, TIMES + 1):
        capture = commit(server, session, phase, thread, i)
        for change in json.loads(changecap.json(capture.changeset())):
            line = {"thread": thread, "version": capture.version, "op": change["op"],
                    "old": change.get("old"), "new": change.get("new")}
            lines.append(json.dumps(line))


def run_phase(server, session, phase, lines):
    with ThreadPoolExecutor(THREADS) as pool:
        running = [pool.submit(work, server, session, phase, thread, lines) for thread in range(1, THREADS + 1)]
        for one in running:
            one.result()  # raises what the thread has raised


def read_state(server):
    """The rows now, and their version."""
    snapshot = server.snapshot()
    return dict(row.values for row in snapshot.scan("t")), snapshot.version


def back_to(state, version, lines):
    """The rows of an earlier version, by the lines behind it."""
    state = dict(state)
    by_version = sorted((json.loads(line) for line in lines), key=lambda line: line["version"])
    for line in reversed([line for line in by_version if line["version"] > version]):
        if line["op"] == "insert":
            del state[line["new"]["c0"]]
        else:
            state[line["old"]["c0"]] = line["old"]["c1"]
    return state


def print_state(version, state):
    print("version", version)
    for number in sorted(state):
        print(number, state[number])


def main():
    lines = []
    with changecap.Server() as server, server.session() as session:
        server.create_table("t", [True, False])
        server.commit(("insert", "t", (0, 0)))
        session.attach("t")
        run_phase(server, session, 1, lines)
        then, middle = read_state(server)
        run_phase(server, session, 2, lines)
        state, version = read_state(server)
    print("lines", len(lines))
    print_state(version, state)
    state = back_to(state, middle, lines)
    print_state(middle, state)
    print("as it was then" if state == then else "another state than then")


main()
