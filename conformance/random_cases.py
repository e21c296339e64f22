"""Random cases, each made of its number alone. SQLite runs a workload while it is made, so that rows are known."""
import random

import blob
import workload
from comparison import Case, blobs_of
from sqlite_server import SqliteServer
from workload import row_text, value_text

TABLES = ("a", "t", "u", "audit", "T_1")
SHAPES = ("kv", "kv", "kvv", "kkv", "vkv", "kvk", "kkkv", "k", "kk", "vv", "vkvkv")
KEYS = (0, 1, 2, 3, 4, 5, -1, 2**63 - 1, -2**63, "a", "b", "", "it's", "é", b"", b"\0\xff", b"a")
VALUES = KEYS + (None, 7, 10**12, "x", "y", "y" * 127, "z" * 128, "w" * 300, "日本", b"\1" * 130)
FILTERS = ("all", "nothing", "is t", "not is audit", "starts 'a'", "ends 'u'", "or(is t,is u)",
           "and(not is 'a',not starts T)", "and()", "or()")
ANSWERS = ("omit", "replace", "abort")


class Maker:
    """Makes workloads line by line, on a server of SQLite that has run the lines so far."""

    def __init__(self, number):
        self.random = random.Random(number)
        self.begin()

    def begin(self):
        """A new workload on a new server."""
        self.server, self.lines, self.blobs = SqliteServer(), [], []

    def end(self):
        """The text of the workload."""
        self.server.close()
        return "".join(f"{line}\n" for line in self.lines)

    def add(self, line):
        """Adds a line, and keeps the blob that it prints, if any, where its key flags are positions."""
        reply = self.server.answer(workload.command_of(line))
        self.lines.append(line)
        (content,) = blobs_of([reply]) or [b""]
        if content and all(group.has_positions() for group in blob.read(content)):
            self.blobs.append(content)

    def chance(self, share):
        return self.random.random() < share

    def pick(self, values):
        return self.random.choice(values)

    # Values and names

    def table(self):
        """The name of a table, mostly of one that is there."""
        there = sorted(self.server.tables)
        return self.pick(there) if there and self.chance(0.97) else self.pick(TABLES)

    def session(self):
        """The number of a session, mostly of one that is there."""
        live = sorted(self.server.sessions)
        return self.pick(live) if live and self.chance(0.96) else self.random.randint(1, 9)

    def key_value(self):
        return None if self.chance(0.05) else self.pick(KEYS[:self.pick((4, 8, len(KEYS)))])

    def row(self, name):
        """A row for the table; sometimes one that is too long or too short."""
        table = self.server.tables.get(name)
        width = table.width if table else 2
        key = table.key if table else [0]
        row = [self.key_value() if column in key else self.pick(VALUES) for column in range(width)]
        return (row[:-1] or [1, 2]) if self.chance(0.02) else row

    def row_name(self, name):
        """The name of a row, mostly of one that is there."""
        table = self.server.tables.get(name)
        if table and self.chance(0.93):
            keyed, loose = self.server.rows(name)
            names = [f"key{row_text(tuple(row[column] for column in table.key))}" for row in keyed]
            names += [f"loose {number}" for number, _ in loose]
            if names:
                return self.pick(names)
        if self.chance(0.2):
            return f"loose {self.random.randint(0, 4)}"
        width = len(table.key) if table and table.key else 1
        return f"key{row_text(tuple(self.key_value() for _ in range(width)))}"

    def has_rows(self, name):
        return any(self.server.rows(name))

    # Operations and commits

    def op(self):
        name = self.table()
        table = self.server.tables.get(name)
        cascade = "cascade " if self.chance(0.1) else ""
        actions = ("insert", "insert", "update", "update", "update", "delete")
        action = self.pick(actions if table and self.has_rows(name) or self.chance(0.05) else actions[:1])
        if action == "insert":
            return f"{cascade}insert {name} {row_text(self.row(name))}"
        if action == "delete":
            return f"{cascade}delete {name} {self.row_name(name)}"
        width = table.width if table else 2
        columns = self.random.sample(range(width), self.random.randint(1, width))
        if self.chance(0.03):
            columns.append(self.pick((width, width + 7, columns[0])))
        key = table.key if table and self.chance(0.3) else []
        values = [(column, self.key_value() if column in key else self.pick(VALUES)) for column in columns
                  if not table or column not in table.key or key] or [(columns[0], self.pick(KEYS))]
        assigned = ", ".join(f"{column} = {value_text(value)}" for column, value in values)
        return f"{cascade}update {name} {self.row_name(name)} set {assigned}"

    def ops(self):
        return " ; ".join(self.op() for _ in range(self.pick((1, 1, 1, 2, 2, 3, 5))))

    def create(self):
        self.add(f"create {self.pick(TABLES)} {self.pick(SHAPES)}")

    def commit(self):
        self.add(f"commit {self.ops()}")

    def commit_at(self):
        self.add(f"commitat {self.server.version - self.chance(0.3) if self.server.version else 0} {self.ops()}")

    def transaction(self):
        """A transaction over several lines. A few of its lines stand before it or behind it, and are refused there."""
        self.add(self.pick(("begin",) * 9 + ("savepoint",)))
        for _ in range(self.random.randint(0, 12)):
            name = self.table()
            weights = {self.op(): 12, "savepoint": 4, f"rollback to {self.random.randint(0, 4)}": 3, "begin": 0.3,
                       f"scan {name}": 1, f"get {name} {self.row_name(name)}": 2, f"isempty {self.session()}": 1}
            self.add(self.random.choices(list(weights), list(weights.values()))[0])
        self.add(self.pick(("end",) * 3 + ("rollback",)))

    # Blobs

    def record(self, group, keys):
        return [self.pick(keys) if flag else self.pick(VALUES) for flag in group.flags]

    def change(self, group):
        """A change by hand, which need not fit any row."""
        indirect, keys = int(self.chance(0.2)), KEYS[:6]
        operation = self.pick((blob.INSERT, blob.UPDATE, blob.DELETE))
        if operation == blob.UPDATE and not all(group.flags):
            modified = [not flag and self.chance(0.6) for flag in group.flags]
            modified[self.pick([column for column, flag in enumerate(group.flags) if not flag])] = True
            old = [value if flag or is_modified else blob.UNDEFINED
                   for value, flag, is_modified in zip(self.record(group, keys), group.flags, modified)]
            new = [self.pick(VALUES) if is_modified else blob.UNDEFINED for is_modified in modified]
            return blob.Change(operation, indirect, old, new)
        if operation == blob.DELETE:
            return blob.Change(operation, indirect, old=self.record(group, keys))
        return blob.Change(blob.INSERT, indirect, new=self.record(group, keys))

    def blob_by_hand(self):
        """A blob of a few groups. Some have no table, or one with more columns."""
        kind, groups = self.pick((blob.CHANGESET, blob.PATCHSET)), []
        for name in self.random.sample(TABLES, self.random.randint(1, 3)):
            table = self.server.tables.get(name)
            width = table.width if table else 2
            key = table.key if table and table.key else [0]
            width = self.random.randint(max(key) + 1, width) if self.chance(0.3) else width + self.chance(0.05)
            if self.chance(0.05):
                key = [self.random.randrange(width)]
                width = max(width, max(table.key) + 1) if table and table.key else width
            flags = bytes(key.index(column) + 1 if column in key else 0 for column in range(width))
            group = blob.Group(kind, flags, name)
            group.changes = [self.change(group) for _ in range(self.random.randint(1, 4))]
            groups.append(group)
        return blob.write(groups)

    def policy(self):
        """The answers to the three kinds of conflict."""
        return " ".join(self.pick(ANSWERS[:self.pick((1, 2, 3))]) for _ in range(3))

    def apply(self):
        content = self.pick(self.blobs) if self.blobs and self.chance(0.6) else self.blob_by_hand()
        quiet = ",".join(str(self.session()) for _ in range(self.random.randint(1, 2)))
        word = f"applyquiet {quiet}" if self.chance(0.3) else "apply"
        self.add(f"{word} x'{content.hex()}' {self.policy()}{self.pick((' report', ' buffer', ''))}{self.accepted()}")

    def accepted(self):
        """A filter at the end of an application, or none."""
        return f" filter {self.pick(FILTERS)}" if self.chance(0.2) else ""

    # Sessions

    def set_flag(self):
        self.add(f"{self.pick(('enable', 'indirect'))} {self.session()} {self.pick(('on', 'off', 'ask'))}")

    def attach(self):
        name = self.pick(TABLES) if self.chance(0.2) else self.table()
        self.add(self.pick((f"attach {self.session()} {name}",) * 4 + (f"attachall {self.session()}",)))

    def filter(self):
        self.add(f"filter {self.session()} {self.pick(FILTERS)}")

    def new_session(self):
        self.add("session")
        if self.chance(0.8):
            name = self.pick(sorted(self.server.tables))
            self.add(self.pick(("attach {} {}", "attachall {}")).format(self.server.next_session - 1, name))

    def save(self):
        self.add(f"save {self.pick(('old', 'older'))}")

    def databases(self):
        self.add(self.pick(("databases", "databases", f"dropdatabase {self.pick(('old', 'older'))}")))

    def list_or_dump(self):
        self.add(self.pick(("tables", "dump", "dump places")))

    def diff(self):
        saved = sorted(self.server.saved) if self.server.saved and self.chance(0.9) else ("old", "older")
        self.add(f"diff {self.session()} {self.pick(saved)} {self.table()}")

    def capture(self):
        word = self.pick(("changeset", "changeset", "patchset"))
        self.add(f"{word} {self.session()}{self.pick((' places', ' places', ''))}")

    def restart(self):
        self.add(f"restart {self.session()}{self.pick((' places', ''))}")

    def capture_and_restart(self):
        """The changeset with positions, which both sides apply. That of the restart has 01 throughout."""
        self.add("changeset 1 places")
        self.add("restart 1")

    def ask(self):
        self.add(f"isempty {self.session()}")

    def read(self):
        name = self.table()
        self.add(self.pick((f"scan {name}", f"get {name} {self.row_name(name)}")))

    def drop(self):
        self.add(f"drop {self.session()}")

    def step(self):
        """One line of any kind."""
        weights = {self.commit: 45, self.commit_at: 2, self.apply: 9, self.capture: 8, self.ask: 4, self.set_flag: 8,
                   self.attach: 6, self.filter: 3, self.new_session: 3, self.save: 2, self.databases: 1,
                   self.list_or_dump: 1, self.diff: 4, self.create: 3, self.restart: 3, self.read: 6, self.drop: 1}
        self.random.choices(list(weights), list(weights.values()))[0]()

    def finish(self):
        """What is there in the end."""
        for number in sorted(self.server.sessions):
            for line in (f"isempty {number}", f"changeset {number} places", f"patchset {number} places"):
                self.add(line)
        for name in sorted(self.server.tables):
            self.add(f"scan {name}")


def workload_case(number):
    """Commands of all kinds on a few tables and sessions."""
    maker = Maker(number)
    for _ in range(maker.random.randint(1, 3)):
        maker.create()
    for _ in range(maker.random.randint(0, 6)):
        maker.commit()
    if maker.chance(0.5):
        maker.save()
    maker.new_session()
    for _ in range(maker.random.randint(10, 60)):
        maker.step()
    maker.finish()
    return Case(f"random workload {number}", maker.end())


def transaction_case(number):
    """Transactions over several lines, with savepoints, of which each is committed or rolled back."""
    maker = Maker(f"transactions {number}")
    for _ in range(maker.random.randint(1, 3)):
        maker.create()
    for _ in range(maker.random.randint(0, 4)):
        maker.commit()
    maker.new_session()
    for _ in range(maker.random.randint(1, 6)):
        maker.transaction()
        maker.pick((maker.commit, maker.read, maker.capture, maker.restart))()
    maker.finish()
    return Case(f"random transactions {number}", maker.end())


def exchange_case(number):
    """What a session captures, applied to a copy of the tables that it began with, which has gone its own way."""
    maker = Maker(f"exchange {number}")
    for name in maker.random.sample(TABLES, maker.random.randint(1, 3)):
        maker.add(f"create {name} {maker.pick(SHAPES)}")
    for _ in range(maker.random.randint(0, 8)):
        maker.commit()
    first = list(maker.lines)
    for line in ("session", "attachall 1", "session", "attachall 2"):
        maker.add(line)
    for _ in range(maker.random.randint(1, 20)):
        maker.commit()
        if maker.chance(0.1):
            maker.capture_and_restart()
    maker.capture_and_restart()
    parts = sum(line.startswith("restart") for line in maker.lines)
    maker.add("changeset 2 places")
    maker.add("patchset 2 places")
    maker.finish()
    return Case(f"random exchange {number}", maker.end(), target_of(maker, first, parts))


def target_of(maker, first, parts):
    """The same tables, sometimes with one missing or wider and with commits of their own, to which the blobs are
    applied: those before each restart one after the other, or the one changeset or patchset of all that was done."""
    maker.begin()
    for line in first:
        if line.startswith("create ") and maker.chance(0.06):
            line = maker.pick((None, f"{line}v"))
        if line:
            maker.add(line)
    for _ in range(maker.pick((0, 3, 6, 12))):
        if maker.server.tables:
            maker.commit()
    blobs = maker.pick((range(1, 2 * parts, 2), [2 * parts + 1], [2 * parts + 2]))
    more = maker.pick(("report", "buffer"))
    maker.lines += ["session", "attachall 1"] + [f"apply x'{{{number}}}' {maker.policy()} {more}" for number in blobs]
    maker.lines += ["changeset 1 places"] + [f"scan {name}" for name in sorted(maker.server.tables)]
    return maker.end()
