"""A table server without threads, for drawing: what docs/manual/rules.md and applying.md say, over plain dictionaries.

Each command answers its reply, as the program prints it, and notes what it has changed. Limits of sizes and of memory
are not looked at: a run that is drawn has replies already.
"""
from dataclasses import dataclass, field

import blob
import filters
from workload import row_text

INSERT, UPDATE, DELETE = "insert", "update", "delete"
LIMITS = {"tables": 64, "saved": 16, "sessions": 64}
NAMES = {3: "WrongWidth", 4: "BadColumn", 5: "Duplicate", 6: "NoRow", 8: "NoTable", 9: "TableExists", 10: "TooMany",
         11: "Stale", 14: "Incompatible", 15: "Aborted", 16: "Misuse", 18: "NoSession", 19: "NoDatabase"}


class Refusal(Exception):
    """A command that the rules refuse. It has changed nothing."""

    def __init__(self, number, at=None, more=""):
        place = "" if at is None else f" at {at}"
        super().__init__(f"refused{place}: E{number} {NAMES[number]}{more}")
        self.number = number


@dataclass
class Table:
    """Rows by their keys, rows without one by their ids, and the next id. `flags` has for each column whether it is in
    the key."""

    flags: tuple
    rows: dict = field(default_factory=dict)
    loose: dict = field(default_factory=dict)
    next_id: int = 1

    def copy(self):
        return Table(self.flags, dict(self.rows), dict(self.loose), self.next_id)

    def key_of(self, values):
        """The key of a row, or None."""
        key = tuple(value for value, flag in zip(values, self.flags) if flag)
        return key if key and None not in key else None

    def row(self, name):
        """The values of the row of a name, ("key", values) or ("loose", id), or None."""
        kind, which = name
        return (self.rows if kind == "key" else self.loose).get(which)

    def put(self, values):
        """Stores a row that has no other one's key, and answers its key."""
        key = self.key_of(values)
        if key is None:
            self.loose[self.next_id] = values
            self.next_id += 1
        else:
            self.rows[key] = values
        return key

    def in_order(self):
        """Each row as its id, or None, and its values."""
        keyed = [(None, self.rows[key]) for key in sorted(self.rows, key=in_order)]
        return keyed + sorted(self.loose.items())


def in_order(key):
    return [blob.order(value) for value in key]


def on_off(flag):
    return "on" if flag else "off"


def quoted(name):
    return '"' + name.replace('"', '""') + '"'


def marks_of(flags, places):
    """The key flags of a group: positions within the key, or ones."""
    numbers = [sum(flags[:column + 1]) if flag else 0 for column, flag in enumerate(flags)]
    return bytes(numbers if places else map(bool, flags))


@dataclass
class Record:
    """What a session has of a key: the row before its first touch, or None, and whether all touches were indirect."""

    first: tuple
    indirect: bool


@dataclass
class Session:
    """A session. `records` has a dictionary from keys for each attached table, in the order of attaching."""

    enabled: bool = True
    indirect: bool = False
    rule: object = None
    is_filter: bool = False
    records: dict = field(default_factory=dict)

    def attach(self, table):
        self.records.setdefault(table, {})

    def touch(self, table, key, first, indirect):
        record = self.records[table].setdefault(key, Record(first, True))
        record.indirect = record.indirect and indirect


class Server:
    """The server. `changes` has of the last command (table, key, kind, cause) for each change that it has made, and
    `touched` (session, table, key) for each touch."""

    def __init__(self):
        self.version, self.tables, self.saved, self.sessions, self.numbers = 0, {}, {}, {}, 0
        self.changes, self.touched = [], []

    @classmethod
    def has(cls, command):
        """Whether it has this command. Those of transactions over several lines it has not."""
        return hasattr(cls, f"do_{command.word}")

    def make(self, command):
        """Carries out a command, and answers its reply."""
        if not self.has(command):
            raise ValueError(f"no picture has the command {command.word}")
        self.changes, self.touched = [], []
        try:
            return getattr(self, f"do_{command.word}")(*command.arguments)
        except Refusal as refusal:
            self.changes, self.touched = [], []
            return str(refusal)

    def written(self, more=""):
        self.version += 1
        return f"ok version {self.version}{more}"

    def do_create(self, name, shape):
        if name in self.tables:
            raise Refusal(9)
        if len(self.tables) == LIMITS["tables"]:
            raise Refusal(10)
        self.tables[name] = Table(tuple(letter == "k" for letter in shape))
        return self.written()

    # ---- Operations

    def do_commit(self, base, ops):
        if base not in (None, self.version):
            raise Refusal(11, more=f" base {base} now {self.version}")
        tables = {name: table.copy() for name, table in self.tables.items()}
        changes = []
        for at, op in enumerate(ops):
            table = tables.get(op.table)
            if not table:
                raise Refusal(8, at)
            cause = "cascade" if op.is_cascade else "direct"
            made = getattr(self, f"op_{op.action}")(table, op, at)
            changes += [(op.table, key, op.action, cause) for key in made]
        self.settle(tables, changes)
        return self.written()

    do_commitat = do_commit

    def op_insert(self, table, op, at):
        if len(op.values) != len(table.flags):
            raise Refusal(3, at)
        if table.key_of(op.values) in table.rows:
            raise Refusal(5, at)
        return [table.put(op.values)]

    def op_update(self, table, op, at):
        columns = [column for column, _ in op.assigned]
        if len(set(columns)) < len(columns) or max(columns) >= len(table.flags):
            raise Refusal(4, at)
        values = table.row(op.row)
        if values is None:
            raise Refusal(6, at)
        assigned = dict(op.assigned)
        new = tuple(assigned.get(column, value) for column, value in enumerate(values))
        before, after = table.key_of(values), table.key_of(new)
        if after is not None and after != before and after in table.rows:
            raise Refusal(5, at)
        if op.row[0] == "loose" and after is None:
            table.loose[op.row[1]] = new
        else:
            del (table.rows if op.row[0] == "key" else table.loose)[op.row[1]]
            table.put(new)
        return [before, after]

    def op_delete(self, table, op, at):
        values = table.row(op.row)
        if values is None:
            raise Refusal(6, at)
        del (table.rows if op.row[0] == "key" else table.loose)[op.row[1]]
        return [table.key_of(values)]

    def settle(self, tables, changes):
        """Makes the tables those of now, and lets the sessions record the changes."""
        before, self.tables, self.changes = self.tables, tables, changes
        for number, session in self.sessions.items():
            for table, key, _, cause in changes if session.enabled else ():
                if table not in session.records and session.rule and session.rule(table):
                    session.attach(table)
                if table in session.records and key is not None:
                    session.touch(table, key, before[table].rows.get(key), session.indirect or cause == "cascade")
                    self.touched.append((number, table, key))

    # ---- Reading

    def table(self, name):
        if name not in self.tables:
            raise Refusal(8)
        return self.tables[name]

    def do_get(self, name, row):
        values = self.table(name).row(row)
        return "no row" if values is None else f"row {row_text(values)}"

    def do_scan(self, name):
        rows = self.table(name).in_order()
        lines = [("" if number is None else f"loose {number} ") + row_text(values) for number, values in rows]
        return "\n".join([f"rows {len(rows)}", *lines])

    def do_tables(self):
        lines = [f"tables {len(self.tables)}"]
        for name, table in sorted(self.tables.items(), key=lambda it: it[0].encode()):
            shape = "".join("k" if flag else "v" for flag in table.flags)
            lines.append(f"{quoted(name)} {shape} keyed {len(table.rows)} loose {len(table.loose)}")
        return "\n".join(lines)

    def do_dump(self, places):
        groups = []
        for name, table in sorted(self.tables.items(), key=lambda it: it[0].encode()):
            if any(table.flags):
                inserts = [change_of(Record(None, False), table.rows[key], table.flags, INSERT)
                           for key in sorted(table.rows, key=in_order)]
                groups.append(blob.Group(blob.CHANGESET, marks_of(table.flags, places), name, inserts))
        return f"changeset {blob.write(groups).hex() or '-'}"

    def do_save(self, name):
        if name not in self.saved and len(self.saved) == LIMITS["saved"]:
            raise Refusal(10)
        self.saved[name] = {table: it.copy() for table, it in self.tables.items()}
        return "ok"

    def do_dropdatabase(self, name):
        if name not in self.saved:
            raise Refusal(19)
        del self.saved[name]
        return "ok"

    def do_databases(self):
        return "\n".join([f"databases {len(self.saved)}", *map(quoted, sorted(self.saved, key=str.encode))])

    # ---- Sessions

    def do_session(self):
        if len(self.sessions) == LIMITS["sessions"]:
            raise Refusal(10)
        self.numbers += 1
        self.sessions[self.numbers] = Session()
        return f"session {self.numbers}"

    def session(self, number):
        if number not in self.sessions:
            raise Refusal(18)
        return self.sessions[number]

    def do_drop(self, number):
        self.session(number)
        del self.sessions[number]
        return "ok"

    def do_attach(self, number, table):
        self.session(number).attach(table)
        return "ok"

    def do_attachall(self, number):
        session = self.session(number)
        if not session.is_filter:
            session.rule = filters.filter_of("all")
        return "ok"

    def do_filter(self, number, text):
        session = self.session(number)
        session.rule, session.is_filter = filters.filter_of(text), True
        return "ok"

    def do_enable(self, number, value):
        session = self.session(number)
        session.enabled = session.enabled if value == "ask" else value == "on"
        return on_off(session.enabled)

    def do_indirect(self, number, value):
        session = self.session(number)
        session.indirect = session.indirect if value == "ask" else value == "on"
        return on_off(session.indirect)

    def do_isempty(self, number):
        return "false" if any(self.session(number).records.values()) else "true"

    def do_sessions(self):
        lines = [f"sessions {len(self.sessions)}"]
        for number, session in self.sessions.items():
            flags = f"enable {on_off(session.enabled)} indirect {on_off(session.indirect)}"
            tables = map(quoted, session.records)
            lines.append(" ".join([f"{number} {flags} isempty {self.do_isempty(number)}", *tables]))
        return "\n".join(lines)

    def do_diff(self, number, database, name):
        session, now = self.session(number), self.tables.get(name)
        if now is None or not any(now.flags):
            return "ok"
        if database not in self.saved:
            raise Refusal(19)
        then = self.saved[database].get(name)
        if then is None or then.flags != now.flags:
            raise Refusal(14)
        session.attach(name)
        for key in sorted({*now.rows, *then.rows}, key=in_order):
            if now.rows.get(key) != then.rows.get(key):
                session.touch(name, key, then.rows.get(key), session.indirect)
                self.touched.append((number, name, key))
        return "ok"

    # ---- Captures

    def captured(self, number):
        """What a session captures: each table with (key, record, row now, kind or None)."""
        for name, records in self.session(number).records.items():
            rows = self.tables[name].rows if name in self.tables else {}
            yield name, [(key, records[key], rows.get(key), kind_of(records[key].first, rows.get(key)))
                         for key in sorted(records, key=in_order)]

    def capture(self, number, kind, places):
        groups = []
        for name, records in self.captured(number):
            flags = self.tables[name].flags if name in self.tables else ()
            marks = marks_of(flags, places)
            changes = [change_of(record, now, flags, what) for _, record, now, what in records if what]
            if changes:
                groups.append(blob.Group(blob.CHANGESET, marks, name, changes))
        if kind == "patchset":
            groups = blob.patches(groups)
        return f"{kind} {blob.write(groups).hex() or '-'}"

    def do_changeset(self, number, places):
        return self.capture(number, "changeset", places)

    def do_patchset(self, number, places):
        return self.capture(number, "patchset", places)

    def do_restart(self, number, places):
        reply = self.capture(number, "changeset", places)
        session = self.sessions[number]
        session.records = {table: {} for table in session.records}
        return reply

    # ---- Applying

    def do_applyquiet(self, quiet, *application):
        """The same, and these sessions record nothing of it."""
        sessions = {number: self.session(number) for number in quiet}.values()
        enabled = [session for session in sessions if session.enabled]
        for session in enabled:
            session.enabled = False
        try:
            return self.do_apply(*application)
        finally:
            for session in enabled:
                session.enabled = True

    def do_apply(self, content, data, notfound, conflict, more, accepted):
        accepts = filters.filter_of(accepted) if accepted else None
        policy = {"data": data, "notfound": notfound, "conflict": conflict}
        tables = {name: table.copy() for name, table in self.tables.items()}
        groups, changes, conflicts, answers, number = blob.read(content), [], [], {}, 0
        omitted, skipped, passed, applied = [], [], 0, 0
        for at, group in enumerate(groups):
            if accepts and not accepts(group.table):
                passed += 1
                number += len(group.changes)
                continue
            table = tables.get(group.table)
            if not fits(group, table):
                skipped.append(f"skipped {at}")
                number += len(group.changes)
                continue
            for number, change in enumerate(group.changes, number):
                found = conflict_of(table, group, change)
                answer = policy.get(found, "replace")
                if found:
                    answers[number] = answer
                    if answer == "abort":
                        raise Refusal(15, number)
                    if (found, answer) == ("notfound", "replace"):
                        raise Refusal(16, number)
                    conflicts.append(f"conflict {number} {found} {answer}")
                if answer == "omit":
                    omitted.append(f"omitted {number}")
                else:
                    applied += 1
                    changes += applied_change(table, group, change, found)
            number += bool(group.changes)
        self.settle(tables, changes)
        reply = self.written(f", applied {applied}, omitted {len(omitted)}, skipped {len(skipped)}"
                             + (f", passed {passed}" if accepts else ""))
        if more == "report":
            reply = "\n".join([reply, *conflicts, *omitted, *skipped])
        if more == "buffer":
            is_patchset = bool(groups) and groups[0].kind == blob.PATCHSET
            made = "none" if is_patchset else blob.with_ones(blob.buffer(content, answers)).hex() or "-"
            reply += f"\nbuffer {made}"
        return reply


def kind_of(first, now):
    """What has become of a row, or None."""
    if first == now:
        return None
    return INSERT if first is None else DELETE if now is None else UPDATE


def change_of(record, now, flags, kind):
    """The change of a record, as a changeset has it."""
    first, indirect = record.first, int(record.indirect)
    if kind == INSERT:
        return blob.Change(blob.INSERT, indirect, new=now)
    if kind == DELETE:
        return blob.Change(blob.DELETE, indirect, old=first)
    differs = [not flag and old != new for flag, old, new in zip(flags, first, now)]
    old = [it if flag or is_other else blob.UNDEFINED for it, flag, is_other in zip(first, flags, differs)]
    new = [it if is_other else blob.UNDEFINED for it, is_other in zip(now, differs)]
    return blob.Change(blob.UPDATE, indirect, old, new)


def fits(group, table):
    """Whether a table has the group's columns and its key."""
    flags = tuple(map(bool, group.flags))
    return bool(table) and table.flags[:len(flags)] == flags and not any(table.flags[len(flags):])


def conflict_of(table, group, change):
    """The kind of the conflict that a change meets, or None."""
    record = change.new if change.operation == blob.INSERT else change.old
    row = table.rows.get(tuple(value for value, flag in zip(record, group.flags) if flag))
    if change.operation == blob.INSERT:
        return "conflict" if row is not None and table.key_of(record) is not None else None
    if row is None:
        return "notfound"
    if group.kind == blob.PATCHSET:
        return None
    return "data" if any(old not in (blob.UNDEFINED, now) for old, now in zip(record, row)) else None


def applied_change(table, group, change, found):
    """Makes a change, and answers it as changes of rows."""
    if change.operation == blob.INSERT:
        values = (*change.new, *[None] * (len(table.flags) - len(group.flags)))
        key = table.put(tuple(values))
        return [(group.table, key, INSERT, "direct")] * (2 if found else 1)
    key = tuple(value for value, flag in zip(change.old, group.flags) if flag)
    row = table.rows[key]
    if change.operation == blob.DELETE:
        del table.rows[key]
        return [(group.table, key, DELETE, "direct")]
    new = [*change.new, *[blob.UNDEFINED] * (len(row) - len(change.new))]
    table.rows[key] = tuple(old if it is blob.UNDEFINED else it for it, old in zip(new, row))
    return [(group.table, key, UPDATE, "direct")] * 2
