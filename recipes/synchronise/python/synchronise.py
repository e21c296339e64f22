"""Databases of SQLite that synchronise through a hub of changecap. ../README.md says how."""
import changecap
import sqlite  # SQLite's session extension by ctypes, in conformance/


class Hub:
    """A table server with a session for each client. Its methods run one at a time."""

    def __init__(self, clients):
        self.server = changecap.Server()
        self.server.create_table("t", [True, False, False])
        self.sessions = [self.server.session() for _ in range(clients)]
        for session in self.sessions:
            session.attach()

    def pull(self, number):
        """What others have changed since the client's last pull."""
        return self.sessions[number].restart()

    def push(self, number, changeset):
        """Applies what a client has changed, unless others have changed something since its last pull."""
        if not self.sessions[number].is_empty():
            return False
        self.server.apply(changeset, quiet=[self.sessions[number]])  # a conflict raises Refused
        return True


class Client:
    """A database. `pending` is what it has changed and the hub does not have yet."""

    def __init__(self, number):
        self.number, self.database, self.pending = number, sqlite.Connection(), b""
        self.database.execute("CREATE TABLE t(id INTEGER PRIMARY KEY, text, stamp)")
        self.begin_session()

    def begin_session(self):
        self.session = self.database.session()
        self.session.attach()

    def pull(self, hub):
        """Applies what others have changed, and rebases what is pending."""
        remote = hub.pull(self.number)
        self.database.execute("BEGIN IMMEDIATE")  # nobody writes between the capture and the application
        self.pending = changecap.concat(self.pending, self.session.changeset())
        self.session.delete()
        _, conflicts, _ = self.database.apply_with_buffer(remote, answer)
        self.begin_session()
        self.database.execute("COMMIT")
        noted = {(change.table, id_of(change)): sqlite.ANSWERS[answer] for change, _, answer in conflicts}
        rebaser = changecap.Rebaser()
        rebaser.configure(changecap.rebase_buffer(remote, lambda change: noted.get((change.table, *change.row))))
        self.pending = rebaser.rebase(self.pending)

    def synchronise(self, hub):
        self.pull(hub)
        while not hub.push(self.number, self.pending):
            self.pull(hub)  # others came between: what they have changed is applied, and rebased over, too
        self.pending = b""


def id_of(change):
    return (change.new if change.operation == "insert" else change.old)[0]


def answer(kind, change):
    """The newest write of a row stays, by the stamp in its last column, and a deletion in any case. Each write changes
    all columns. Of a row that is not there the hub's change cannot be made."""
    if kind == "notfound":
        return "omit"
    return "replace" if change.operation == "delete" or change.new[2] > change.row[2] else "omit"
