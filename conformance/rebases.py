"""Rebasing beside SQLite: copies that change the same rows are databases of SQLite with sessions of their own, and the
program makes buffers and rebased changesets of their blobs.

A case has a client and a hub, and compares with the rebaser of SQLite where that leaves the client's rows on the hub.
A run has three clients, which synchronise through a hub in any order.
"""
import random
from collections import defaultdict
from contextlib import ExitStack

import blob
import sqlite
from workload import row_text

SHAPES = {"kv": 2, "kvv": 3, "kkv": 3, "vkv": 3, "kvvv": 4, "kk": 2, "k": 1}
TABLES = "t", "u"
KEYS = 0, 1, 2, "a"
VALUES = None, 0, 1, "x", "y", b"\0"
NO_CONFLICT = "abort", "abort", "abort"


class Copy:
    """A database with tables of these shapes, and a session for each name."""

    def __init__(self, shapes, *names):
        self.shapes, self.connection, self.sessions = shapes, sqlite.Connection(), {}
        for table, shape in shapes.items():
            columns = [f"c{column}" for column in range(len(shape))]
            key = ", ".join(column for column, letter in zip(columns, shape) if letter == "k")
            self.connection.execute(f"CREATE TABLE {table}({', '.join(columns)}, PRIMARY KEY({key}))")
        for name in names:
            self.begin(name)

    def close(self):
        self.connection.close()

    def begin(self, name):
        """Begins a session of this name."""
        self.sessions[name] = self.connection.session()
        self.sessions[name].attach()

    def end(self, name):
        """Ends the session, and answers what it has captured."""
        session = self.sessions.pop(name)
        captured = session.changeset()
        session.delete()
        return captured

    def capture(self, name):
        """What the session has captured. It begins anew."""
        captured = self.end(name)
        self.begin(name)
        return captured

    def execute(self, *statements):
        for statement in statements:
            self.connection.execute(statement)

    def rows(self):
        """The rows of each table, in the order of their keys."""
        return {table: self.connection.execute(f"SELECT * FROM {table} ORDER BY {self.key(table)}")
                for table in self.shapes}

    def key(self, table):
        return ", ".join(f"c{column}" for column, letter in enumerate(self.shapes[table]) if letter == "k")

    def fill(self, rows):
        """Inserts rows."""
        for table, found in rows.items():
            for row in found:
                self.connection.execute(f"INSERT INTO {table} VALUES({', '.join('?' * len(row))})", row)

    def change(self, chance, count):
        """Makes some random changes."""
        for _ in range(count):
            table = chance.choice(sorted(self.shapes))
            shape = self.shapes[table]
            keys = KEYS[:2 if shape.count("k") > 1 else len(KEYS)]
            row = [chance.choice(keys if letter == "k" else VALUES) for letter in shape]
            values = [column for column, letter in enumerate(shape) if letter == "v"]
            where = " AND ".join(f"c{column} = ?" for column, letter in enumerate(shape) if letter == "k")
            key = [value for value, letter in zip(row, shape) if letter == "k"]
            word = chance.choice(("insert", "update", "update", "update", "delete"))
            if word == "delete":
                self.connection.execute(f"DELETE FROM {table} WHERE {where}", key)
            elif word == "update" and values:
                column = chance.choice(values)
                self.connection.execute(f"UPDATE {table} SET c{column} = ? WHERE {where}", [row[column], *key])
            else:
                self.connection.execute(f"INSERT OR IGNORE INTO {table} VALUES({', '.join('?' * len(row))})", row)


def answer_by(policy):
    """The answer to a conflict by a policy: the answers to DATA, NOTFOUND and CONFLICT."""
    answers = dict(zip(("data", "notfound", "conflict"), policy))
    return lambda kind, change: answers.get(kind, "abort")


def policy_of(chance):
    """A policy that refuses nothing."""
    return chance.choice(("omit", "replace")), "omit", chance.choice(("omit", "replace"))


def key_of(change):
    """The table of a change that SQLite's iterator gives, and its key."""
    side = change.new if change.operation == "insert" else change.old
    return change.table, tuple(value for column, value in side.items() if change.key[column])


def buffer_of(content, conflicts):
    """The buffer of an application of a changeset with one change of each row."""
    answers = {key_of(change): answer for change, _, answer in conflicts}
    numbered = enumerate(map(key_of, sqlite.iterate(content)))
    return blob.buffer(content, {number: answers[key] for number, key in numbered if key in answers})


def program_buffer(program, shapes, rows, content, policy):
    """The buffer that the program prints of the application to these rows."""
    lines = []
    for table, shape in shapes.items():
        lines.append(f"create {table} {shape}")
        lines += [f"commit insert {table} {row_text(row)}" for row in rows[table]]
    lines.append(f"apply x'{content.hex()}' {' '.join(policy)} buffer")
    word, digits = program.run("".join(f"{line}\n" for line in lines))[-1].split(" ")
    if word != "buffer":
        raise ValueError(f"no buffer is printed of {lines[-1]}")
    return bytes.fromhex(digits.replace("-", ""))


def program_rebase(program, changeset, buffers):
    """The changeset over buffers, by the program."""
    return program.on_blobs("rebase", changeset, *buffers)


def applied_to(shapes, rows, changeset):
    """What a changeset leaves of rows in a database of SQLite, or why it is not applied without a conflict."""
    copy = Copy(shapes)
    try:
        copy.fill(rows)
        found = copy.connection.apply(changeset, lambda kind: "omit")
        if found.code != sqlite.OK:
            return f"code {found.code}"
        return f"conflict {found.conflicts[0][0]}" if found.conflicts else copy.rows()
    finally:
        copy.close()


def converges_in_sqlite(shapes, local, conflicts):
    """Whether SQLite's rebased changeset has to leave the client's rows: each omitted UPDATE of a row that is updated
    modifies no other columns, and no omitted INSERT is into a table that has no column outside its key."""
    own = {key_of(change): change for change in sqlite.iterate(local)}
    for change, kind, answer in conflicts:
        if answer != "omit":
            continue
        if kind == "conflict" and "v" not in shapes[change.table]:
            return False
        if kind == "data" and change.operation == "update" and own[key_of(change)].operation == "update":
            if not set(change.new) <= set(own[key_of(change)].new):
                return False
    return True


class Case:
    """A client and a hub that change the same rows. `compared` counts the cases in which SQLite's rebased changeset was
    compared, too."""

    compared = 0

    def __init__(self, program, number):
        self.program, self.chance = program, random.Random(f"rebase {number}")
        self.shapes = {table: self.chance.choice(sorted(SHAPES)) for table in TABLES}

    def problems(self):
        """A text for each thing that is not as it should be."""
        with ExitStack() as stack:
            client, hub = Copy(self.shapes), Copy(self.shapes)
            for copy in client, hub:
                stack.callback(copy.close)
            client.change(self.chance, self.chance.randint(0, 24))
            hub.fill(client.rows())
            captured = []
            for copy in client, hub:
                copy.begin("own")
                copy.change(self.chance, self.chance.randint(1, 16))
                captured.append(copy.end("own"))
            yield from self.compare(client, hub, *captured)

    def compare(self, client, hub, local, remote):
        policy, before = policy_of(self.chance), client.rows()
        code, conflicts, theirs = client.connection.apply_with_buffer(remote, answer_by(policy))
        if code != sqlite.OK:
            yield f"SQLite does not apply {remote.hex()}: {code}"
            return
        ours, wanted = program_buffer(self.program, self.shapes, before, remote, policy), client.rows()
        if blob.read(blob.with_ones(ours)) != blob.read(blob.with_ones(buffer_of(remote, conflicts))):
            yield f"the buffer of {remote.hex()} under {policy} is {ours.hex()}"
        rebased = {"changecap": program_rebase(self.program, local, [ours])}
        if converges_in_sqlite(self.shapes, local, conflicts):
            Case.compared += 1
            rebased["SQLite"] = sqlite.rebase(local, [theirs])
        for whose, content in rebased.items():
            found = applied_to(self.shapes, hub.rows(), content)
            if found != wanted:
                yield (f"{local.hex()} over {remote.hex()} under {policy}, rebased by {whose}: {content.hex()}, which "
                       f"leaves {found} in place of {wanted}")


class Run:
    """Three clients that synchronise through a hub, each at any time, and with any answers."""

    CLIENTS = 3

    def __init__(self, program, number):
        self.program, self.chance = program, random.Random(f"synchronise {number}")
        self.shapes = {table: self.chance.choice(sorted(SHAPES)) for table in TABLES}
        self.hub = Copy(self.shapes)
        self.hub.change(self.chance, 8)
        self.clients = [Copy(self.shapes, "own") for _ in range(self.CLIENTS)]
        # What each client has changed and the hub does not have yet.
        self.pending = defaultdict(bytes)
        for number, client in enumerate(self.clients):
            client.end("own")
            client.fill(self.hub.rows())
            client.begin("own")
            self.hub.begin(number)

    def close(self):
        for copy in (self.hub, *self.clients):
            copy.close()

    def pull(self, number):
        """The client applies what others have changed since its last pull, and rebases what it has changed itself."""
        client, policy = self.clients[number], policy_of(self.chance)
        remote = self.hub.capture(number)
        local = sqlite.concat(self.pending[number], client.end("own"))
        before = client.rows()
        code, conflicts, _ = client.connection.apply_with_buffer(remote, answer_by(policy))
        client.begin("own")
        if code != sqlite.OK:
            raise ValueError(f"SQLite does not apply {remote.hex()}: {code}")
        buffer = b""
        if conflicts:
            buffer = program_buffer(self.program, self.shapes, before, remote, policy)
        self.pending[number] = program_rebase(self.program, local, [buffer]) if buffer else local

    def push(self, number):
        """The hub applies what a client has changed, unless others have changed it since the client's last pull."""
        if not self.hub.sessions[number].is_empty():
            return False
        self.hub.end(number)
        found = self.hub.connection.apply(self.pending[number], lambda kind: "abort")
        self.hub.begin(number)
        if found.code != sqlite.OK or found.conflicts:
            raise ValueError(f"the hub does not apply {self.pending[number].hex()}: {found.code} {found.conflicts}")
        self.pending[number] = b""
        return True

    def synchronise(self, number):
        """Others may come between the pull and the push: then the client pulls once more."""
        self.pull(number)
        while not self.push(number):
            self.pull(number)

    def step(self, number):
        self.clients[number].change(self.chance, self.chance.randint(0, 6))
        self.pull(number)
        self.clients[number].change(self.chance, self.chance.randint(0, 1))
        if self.chance.randrange(3) == 0:
            self.synchronise(self.chance.randrange(self.CLIENTS))
        self.push(number)

    def problems(self):
        """A text for each thing that is not as it should be."""
        try:
            for _ in range(self.chance.randint(4, 8)):
                self.step(self.chance.randrange(self.CLIENTS))
            for number in (*range(self.CLIENTS), *range(self.CLIENTS)):
                self.synchronise(number)
        except ValueError as error:
            yield str(error)
            return
        for number, client in enumerate(self.clients):
            if client.rows() != self.hub.rows():
                yield f"client {number} has {client.rows()}, and the hub {self.hub.rows()}"
