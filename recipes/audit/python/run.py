"""A service with threads that writes an audit trail of JSON lines. ../README.md says what is in a line."""
import json
import tempfile
import threading

import changecap


class Service:
    """A server of prices. Each of its commits is a line of the trail, which is a file."""

    def __init__(self, trail):
        self.server, self.trail, self.writing = changecap.Server(), trail, threading.Lock()
        self.server.create_table("prices", [True, False])
        self.session = self.server.session()
        self.session.attach("prices")

    def commit(self, *operations):
        """Commits, and writes the line of this commit, whatever other threads commit meanwhile."""
        capture = self.server.commit_captured(self.session, *operations)
        changeset = capture.changeset()
        line = json.dumps({"version": capture.version, "thread": threading.current_thread().name,
                           "changeset": changeset.hex(), "changes": json.loads(changecap.json(changeset))})
        with self.writing:
            self.trail.write(f"{line}\n")


class Replay:
    """A copy of the prices that goes forwards and backwards over the lines of a trail."""

    def __init__(self, trail):
        lines = sorted(map(json.loads, trail), key=lambda line: line["version"])
        self.changesets, self.done = [bytes.fromhex(line["changeset"]) for line in lines], 0
        self.server = changecap.Server()
        self.server.create_table("prices", [True, False])

    def forward(self):
        self.server.apply(self.changesets[self.done])
        self.done += 1

    def back(self):
        """Undoes a line. Where the rows are not as the line left them, the server refuses it."""
        self.done -= 1
        self.server.apply(changecap.invert(self.changesets[self.done]))


# ---- A run ----

def work(service, first):
    for number in range(25):
        service.commit(("update", "prices", (number % 3,), {1: first + number}))


def run_threads(service, first):
    threads = [threading.Thread(target=work, args=(service, first + 25 * it), name=f"worker {it}") for it in range(4)]
    for thread in threads:
        thread.start()
    for thread in threads:
        thread.join()


with tempfile.TemporaryFile("w+", encoding="utf-8") as file:
    service = Service(file)
    service.commit(*(("insert", "prices", (item, 0)) for item in range(3)))
    run_threads(service, 1)
    then = service.server.scan("prices")
    run_threads(service, 101)
    file.seek(0)
    replay = Replay(file)
total = len(replay.changesets)
print(total, "lines")
while replay.done < total:
    replay.forward()
if replay.server.scan("prices") == service.server.scan("prices"):
    print("forwards: the prices of the service")
while replay.done > 101:
    replay.back()
if replay.server.scan("prices") == then:
    print("back to version 102: the prices of then")
while replay.done > 0:
    replay.back()
if not replay.server.scan("prices"):
    print("back to version 1: no prices")
