"""A search index that follows a table by captures, while threads write. ../README.md says how."""
from collections import defaultdict
import threading

import changecap


class Index:
    """The words of the texts in column 1 of a table, each with the keys of the rows that have it."""

    def __init__(self, session):
        self.session, self.rows, self.version = session, defaultdict(set), 0

    def catch_up(self):
        """Takes what was committed since the last time. The index is then that of the tables at `version`."""
        for capture in self.session.captures():
            for change in changecap.iterate(capture.changeset()):
                # Of an update that leaves the text as it is, neither side has it.
                for word in change.old.get(1, "").split():
                    self.rows[word].discard(change.row)
                for word in change.new.get(1, "").split():
                    self.rows[word].add(change.row)
            self.version = capture.version

    def search(self, word):
        return sorted(self.rows[word])


# ---- A run ----

WORDS = "red", "green", "blue", "round", "square"


def write(server, thread):
    """Inserts ten rows, changes the text of each, and another column, and deletes one."""
    for number in range(10):
        row, text = 10 * thread + number, WORDS[(thread + number) % 5]
        server.commit(("insert", "things", (row, text, 0)))
        server.commit(("update", "things", (row,), {1: f"{text} {WORDS[(2 * thread + number * 2) % 5]}"}))
        server.commit(("update", "things", (row,), {2: number}))
    server.commit(("delete", "things", (10 * thread,)))


server = changecap.Server()
server.create_table("things", [True, False, False])
session = server.session()
session.attach("things")
index = Index(session)
threads = [threading.Thread(target=write, args=(server, thread)) for thread in range(4)]
for thread in threads:
    thread.start()
while any(thread.is_alive() for thread in threads):
    index.catch_up()
for thread in threads:
    thread.join()
index.catch_up()
rows = [row.values for row in server.scan("things")]
print(len(rows), "rows")
for word in "blue", "yellow":
    print(" ".join([f"{word}:", *(str(row) for row, in index.search(word))]))
for word in WORDS:
    if index.search(word) != [values[:1] for values in rows if word in values[1].split()]:
        print(word, "is found in other rows")
