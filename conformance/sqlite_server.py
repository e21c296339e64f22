"""Answers the commands of a workload by SQLite and its session extension, in the words of the program's replies.

Tables, rows, constraints, triggers, sessions, captures and conflicts are SQLite's. What SQLite has no word for is kept
here: versions, the ids of rows without a key, and numbers of sessions. Where SQLite is known to differ from the
program on purpose, the way that leaves both comparable is taken, and DIFFERENCES.md has a test of each:

- A commit and an application are first tried with all sessions disabled, since a session of SQLite keeps what a
  rolled back transaction touched.
- A diff attaches the table first, since SQLite's compares nothing of a table that is not attached.
- `changeset S` and `restart S` write 01 as the flag of each key column, and `changeset S places` and
  `restart S places` what SQLite wrote.
"""
from contextlib import contextmanager
from types import SimpleNamespace

import blob
import sqlite
from filters import filter_of
from workload import row_text, value_text

# Parts of SQLite's messages.
TABLE_EXISTS, NO_TABLE, NO_COLUMN, OTHER_WIDTH = "already exists", "no such table", "no such column", "were supplied"
CASCADES = "changecap_cascade"
FLAGS = {"on": True, "off": False, "ask": None}


class Refusal(Exception):
    """A refused command: the program's number and name of the refusal, and the place of the operation or the change."""

    def __init__(self, name, at=None, more=""):
        super().__init__(name)
        self.text = f"refused{'' if at is None else f' at {at}'}: {name}{more}"


def quoted(name):
    return '"' + name.replace('"', '""') + '"'


class Table:
    """What is known of a table beside SQLite: its columns, and the row ids of the rows without a key."""

    def __init__(self, name, shape):
        self.name, self.width = name, len(shape)
        self.columns = [f"c{column}" for column in range(self.width)]
        self.key = [column for column, letter in enumerate(shape) if letter == "k"]
        self.loose, self.next_id = {}, 1

    def sql(self, database="main"):
        """The statement that creates the table."""
        key = f", PRIMARY KEY({', '.join(self.columns[column] for column in self.key)})" if self.key else ""
        return f"CREATE TABLE {quoted(database)}.{quoted(self.name)}({', '.join(self.columns)}{key})"

    def has_key(self, row):
        return bool(self.key) and all(row[column] is not None for column in self.key)

    def ids(self):
        """What `take_back` puts back."""
        return dict(self.loose), self.next_id

    def take_back(self, ids):
        """The ids are again as they were."""
        self.loose, self.next_id = ids

    def where(self, row):
        """The condition that only the row of this name meets, and its values. That of a name of no row is 0."""
        kind, name = row
        if kind == "loose":
            return ("rowid = ?", [self.loose[name]]) if name in self.loose else ("0", [])
        if len(name) != len(self.key):
            return "0", []
        return " AND ".join(f"{self.columns[column]} = ?" for column in self.key), list(name)

    def give_id(self, rowid):
        self.loose[self.next_id] = rowid
        self.next_id += 1

    def id_of(self, rowid):
        return next((number for number, found in self.loose.items() if found == rowid), None)


class SessionState:
    """A session, and what is needed to make one like it for `restart`."""

    def __init__(self, connection):
        self.connection, self.session = connection, connection.session()
        self.attached, self.accepts, self.is_all = [], None, False

    def attach(self, table):
        self.session.attach(table)
        if table not in self.attached:
            self.attached.append(table)

    def attach_all(self):
        self.session.attach()
        self.is_all = True

    def filter(self, accepts):
        self.session.table_filter(accepts)
        self.accepts = accepts

    def note(self, tables):
        """Notes which tables SQLite has attached, since rows of these tables were changed in this order."""
        for table in tables:
            is_accepted = self.accepts(table) if self.accepts else self.is_all
            if self.session.enable() and is_accepted and table not in self.attached:
                self.attached.append(table)

    def restart(self):
        """A new session with the flags, the rule and the attach list of this one in its place."""
        is_enabled, is_indirect = self.session.enable(), self.session.indirect()
        self.session.delete()
        self.session = self.connection.session()
        for table in self.attached:
            self.session.attach(table)
        if self.is_all:
            self.session.attach()
        if self.accepts:
            self.session.table_filter(self.accepts)
        self.session.enable(is_enabled)
        self.session.indirect(is_indirect)


class SqliteServer:
    """One database with its sessions. `answer` gives the lines that are printed for a command."""

    def __init__(self):
        self.connection = sqlite.Connection()
        self.connection.execute(f"CREATE TEMP TABLE {CASCADES}(x)")
        self.tables, self.sessions, self.saved = {}, {}, {}
        self.version, self.next_session = 0, 1
        self.standing, self.marks, self.ids, self.marks_made = None, [], None, 0

    def close(self):
        self.connection.close()

    def run(self, commands):
        """The lines that are printed for each of the commands."""
        return [self.answer(command) for command in commands]

    def answer(self, command):
        """The lines that are printed for the command."""
        try:
            answered = getattr(self, f"do_{command.word}")(*command.arguments)
        except Refusal as refusal:
            answered = refusal.text
        except sqlite.SqliteError as error:
            answered = f"SQLite fails: {error}"
        return answered if isinstance(answered, list) else [answered]

    def written(self, more=""):
        """The reply to a command that makes a new version."""
        self.version += 1
        return f"ok version {self.version}{more}"

    # Tables

    def do_create(self, name, shape):
        table = Table(name, shape)
        try:
            self.connection.execute(table.sql())
        except sqlite.SqliteError as error:
            if TABLE_EXISTS in error.message:
                raise Refusal("E9 TableExists") from None
            raise
        self.tables[name] = table
        return self.written()

    def do_commit(self, base, ops):
        if base is not None and base != self.version:
            raise Refusal("E11 Stale", more=f" base {base} now {self.version}")
        self.rehearse(lambda: self.carry_out(ops))
        self.carry_out(ops)
        for state in self.sessions.values():
            state.note([op.table for op in ops])
        return self.written()

    do_commitat = do_commit

    def carry_out(self, ops):
        """The operations in one transaction, which is rolled back where one is refused."""
        with self.savepoint() as point:
            for at, op in enumerate(ops):
                self.carry_out_one(op, at)
            point.is_kept = True

    @contextmanager
    def unrecorded(self):
        """All sessions are disabled meanwhile."""
        enabled = [state for state in self.sessions.values() if state.session.enable()]
        for state in enabled:
            state.session.enable(False)
        try:
            yield
        finally:
            for state in enabled:
                state.session.enable(True)

    def rehearse(self, work):
        """Does the work with all sessions disabled, and takes it back."""
        with self.unrecorded(), self.savepoint():
            work()

    @contextmanager
    def savepoint(self):
        """A savepoint of the database and of the row ids that are kept here. It is rolled back unless it is kept."""
        point = SimpleNamespace(is_kept=False)
        ids = [(table, table.ids()) for table in self.tables.values()]
        self.connection.execute("SAVEPOINT here")
        try:
            yield point
        finally:
            if not point.is_kept:
                self.connection.execute("ROLLBACK TO here")
                for table, kept in ids:
                    table.take_back(kept)
            self.connection.execute("RELEASE here")

    def carry_out_one(self, op, at):
        """One operation. Where it is refused, the refusal has its place."""
        try:
            changed = getattr(self, f"make_{op.action}")(op)
        except sqlite.SqliteError as error:
            raise Refusal(refusal_name(error), at) from None
        except Refusal as refusal:
            raise Refusal(str(refusal), at) from None
        if not changed:
            raise Refusal("E6 NoRow", at)

    def make_insert(self, op):
        marks = ",".join("?" * len(op.values))
        changed = self.execute(op, f"INSERT INTO {quoted(op.table)} VALUES({marks})", op.values)
        table = self.tables[op.table]
        if not table.has_key(op.values):
            table.give_id(self.newest(table))
        return changed

    def make_update(self, op):
        table, where, key = self.target(op)
        columns = [column for column, _ in op.assigned]
        marks = ", ".join(f"{quoted(f'c{column}')} = ?" for column in columns)
        sql = f"UPDATE {quoted(op.table)} SET {marks} WHERE {where}"
        self.connection.try_statement(sql)
        if len(set(columns)) < len(columns):
            raise Refusal("E4 BadColumn")
        found = self.connection.execute(f"SELECT rowid FROM {quoted(op.table)} WHERE {where}", key)
        changed = self.execute(op, sql, [value for _, value in op.assigned] + key)
        for rowid, in found:
            self.update_id(table, rowid)
        return changed

    def update_id(self, table, rowid):
        """Gives an id to a row that has lost its key, and takes that of a row that has got one."""
        (row,) = self.connection.execute(f"SELECT * FROM {quoted(table.name)} WHERE rowid = ?", [rowid])
        number = table.id_of(rowid)
        if table.has_key(row) and number is not None:
            del table.loose[number]
        if not table.has_key(row) and number is None:
            table.give_id(rowid)

    def make_delete(self, op):
        table, where, key = self.target(op)
        changed = self.execute(op, f"DELETE FROM {quoted(op.table)} WHERE {where}", key)
        if changed and op.row[0] == "loose":
            del table.loose[op.row[1]]
        return changed

    def target(self, op):
        """The table of an update or a delete, the condition on its row, and the values of that. Where there is no such
        table SQLite refuses the statement."""
        table = self.tables.get(op.table)
        return table, *(table.where(op.row) if table else ("0", []))

    def execute(self, op, sql, values):
        """Runs the statement of an operation, and returns how many rows it changed. That of a cascade is run by a
        trigger, whose body has the values in its text."""
        before = self.connection.total_changes()
        if not op.is_cascade:
            self.connection.execute(sql, values)
            return self.connection.total_changes() - before
        parts = sql.split("?")
        body = parts[0] + "".join(value_text(value) + part for value, part in zip(values, parts[1:]))
        self.connection.execute(f"CREATE TEMP TRIGGER cascade_of_op AFTER INSERT ON {CASCADES} BEGIN {body}; END")
        try:
            self.connection.execute(f"INSERT INTO {CASCADES} VALUES(1)")
        finally:
            self.connection.execute("DROP TRIGGER cascade_of_op")
        return self.connection.total_changes() - before - 1

    def newest(self, table):
        """The row id of the row that was inserted last."""
        ((rowid,),) = self.connection.execute(f"SELECT max(rowid) FROM {quoted(table.name)}")
        return rowid

    # Transactions over several lines: no session records one before its end, where what stands of it is committed

    def all_ids(self):
        """What `take_all_back` puts back, as often as it is asked to."""
        return [(table, *table.ids()) for table in self.tables.values()]

    def take_all_back(self, ids):
        for table, loose, next_id in ids:
            table.take_back((dict(loose), next_id))

    def open(self):
        """The operations that stand in the transaction. The line is refused where none is open."""
        if self.standing is None:
            raise Refusal("E21 NoTransaction")
        return self.standing

    def do_begin(self):
        if self.standing is not None:
            raise Refusal("E22 InTransaction")
        self.standing, self.marks, self.ids, self.marks_made = [], [], self.all_ids(), 0
        self.connection.execute("SAVEPOINT whole")
        return "ok"

    def do_op(self, op):
        standing = self.open()
        with self.unrecorded(), self.savepoint() as point:
            self.carry_out_one(op, None)
            point.is_kept = True
        standing.append(op)
        return "ok"

    def do_savepoint(self):
        number, self.marks_made = self.marks_made, self.marks_made + 1
        self.marks.append((number, len(self.open()), self.all_ids()))
        self.connection.execute(f"SAVEPOINT mark{number}")
        return f"savepoint {number}"

    def do_rollback(self, number):
        standing = self.open()
        if number is None:
            self.undo()
            return "ok"
        found = next((place for place, mark in enumerate(self.marks) if mark[0] == number), None)
        if found is None:
            raise Refusal("E20 NoMark")
        with self.unrecorded():
            self.connection.execute(f"ROLLBACK TO mark{number}")
        del self.marks[found + 1:], standing[self.marks[found][1]:]
        self.take_all_back(self.marks[found][2])
        return "ok"

    def do_end(self):
        standing = self.open()
        self.undo()
        return self.do_commit(None, standing)

    def undo(self):
        """Ends the transaction, and leaves nothing of it."""
        with self.unrecorded():
            self.connection.execute("ROLLBACK TO whole")
        self.connection.execute("RELEASE whole")
        self.take_all_back(self.ids)
        self.standing = None

    # Reads

    def table(self, name):
        """The table of this name. The command is refused where there is none."""
        if name not in self.tables:
            raise Refusal("E8 NoTable")
        return self.tables[name]

    def do_get(self, name, row):
        where, values = self.table(name).where(row)
        rows = self.connection.execute(f"SELECT * FROM {quoted(name)} WHERE {where}", values)
        return f"row {row_text(rows[0])}" if rows else "no row"

    def rows(self, name):
        """All rows: those with a key in the order of their keys, then (id, row) of those without one."""
        table = self.table(name)
        order = ", ".join(table.columns[column] for column in table.key) or "1"
        found = self.connection.execute(f"SELECT rowid, * FROM {quoted(name)} ORDER BY {order}")
        keyed = [row[1:] for row in found if table.has_key(row[1:])]
        loose = [(table.id_of(row[0]), row[1:]) for row in found if not table.has_key(row[1:])]
        return keyed, sorted(loose, key=lambda it: it[0])

    def do_scan(self, name):
        keyed, loose = self.rows(name)
        lines = [row_text(row) for row in keyed] + [f"loose {number} {row_text(row)}" for number, row in loose]
        return [f"rows {len(lines)}"] + lines

    def do_tables(self):
        lines = [f"tables {len(self.tables)}"]
        for name, table in sorted(self.tables.items()):
            keyed, loose = self.rows(name)
            shape = "".join("k" if column in table.key else "v" for column in range(table.width))
            lines.append(f"{quoted(name)} {shape} keyed {len(keyed)} loose {len(loose)}")
        return lines

    def do_dump(self, has_places):
        """What SQLite's diff finds of each table beside one without rows."""
        self.connection.execute("ATTACH ':memory:' AS blank")
        try:
            content = b"".join(self.dumped(table) for _, table in sorted(self.tables.items()) if table.key)
        finally:
            self.connection.execute("DETACH blank")
        return self.capture("changeset", content, has_places)

    def dumped(self, table):
        """A table as a changeset. SQLite writes no group without changes: there it is the header alone."""
        self.connection.execute(table.sql("blank"))
        session = self.connection.session()
        try:
            session.attach(table.name)
            session.diff("blank", table.name)
            flags = bytes(table.key.index(column) + 1 if column in table.key else 0 for column in range(table.width))
            return session.changeset() or blob.write([blob.Group(blob.CHANGESET, flags, table.name, [])])
        finally:
            session.delete()

    def do_save(self, name):
        """The tables are copied into an attached database, which is what SQLite's diff compares with."""
        database = f"saved_{name}"
        if name in self.saved:
            self.connection.execute(f"DETACH {quoted(database)}")
        self.connection.execute(f"ATTACH ':memory:' AS {quoted(database)}")
        for table in self.tables.values():
            self.connection.execute(table.sql(database))
            self.connection.execute(
                f"INSERT INTO {quoted(database)}.{quoted(table.name)} SELECT * FROM main.{quoted(table.name)}")
        self.saved[name] = database
        return "ok"

    def do_dropdatabase(self, name):
        if name not in self.saved:
            raise Refusal("E19 NoDatabase")
        self.connection.execute(f"DETACH {quoted(self.saved.pop(name))}")
        return "ok"

    def do_databases(self):
        """The attached databases but for main and temp, in the order of the bytes of their names."""
        attached = {row[1] for row in self.connection.execute("PRAGMA database_list")}
        names = sorted(name for name, database in self.saved.items() if database in attached)
        return [f"databases {len(names)}"] + [quoted(name) for name in names]

    # Sessions

    def do_session(self):
        number = self.next_session
        self.next_session += 1
        self.sessions[number] = SessionState(self.connection)
        return f"session {number}"

    def state(self, number):
        """The session of this number. The command is refused where there is none."""
        if number not in self.sessions:
            raise Refusal("E18 NoSession")
        return self.sessions[number]

    def do_drop(self, number):
        self.state(number).session.delete()
        del self.sessions[number]
        return "ok"

    def do_attach(self, number, table):
        self.state(number).attach(table)
        return "ok"

    def do_attachall(self, number):
        self.state(number).attach_all()
        return "ok"

    def do_filter(self, number, text):
        accepts = filter_of(text)
        self.state(number).filter(accepts)
        return "ok"

    def do_enable(self, number, flag):
        return "on" if self.state(number).session.enable(FLAGS[flag]) else "off"

    def do_indirect(self, number, flag):
        return "on" if self.state(number).session.indirect(FLAGS[flag]) else "off"

    def do_isempty(self, number):
        return "true" if self.state(number).session.is_empty() else "false"

    def do_diff(self, number, database, name):
        """A session that is thrown away is asked first, since the table is attached only where there is a diff."""
        state, trial = self.state(number), self.connection.session()
        try:
            trial.attach(name)
            trial.diff(f"saved_{database}", name)
        except sqlite.SqliteError as error:
            raise Refusal("E14 Incompatible" if error.code == sqlite.SCHEMA else "E19 NoDatabase") from None
        finally:
            trial.delete()
        if name in self.tables and self.tables[name].key:
            state.attach(name)
            state.session.diff(f"saved_{database}", name)
        return "ok"

    def capture(self, word, content, has_places):
        content = content if has_places else blob.with_ones(content)
        return f"{word} {content.hex() or '-'}"

    def do_changeset(self, number, has_places):
        return self.capture("changeset", self.state(number).session.changeset(), has_places)

    def do_patchset(self, number, has_places):
        return self.capture("patchset", self.state(number).session.patchset(), has_places)

    def do_restart(self, number, has_places):
        answered = self.do_changeset(number, has_places)
        self.state(number).restart()
        return answered

    # Applying

    def do_apply(self, content, on_data, on_notfound, on_conflict, more, accepted):
        answers = {"data": on_data, "notfound": on_notfound, "conflict": on_conflict}
        accepts = filter_of(accepted) if accepted else None
        passed = [number for number, group in enumerate(blob.read(content)) if accepts and not accepts(group.table)]
        self.rehearse(lambda: self.apply(content, answers, accepts, passed))
        applied, skipped = self.apply(content, answers, accepts, passed)
        for state in self.sessions.values():
            state.note(applied.tables)
        counts = self.written(f", applied {applied.made}, omitted {applied.omitted}, skipped {len(skipped)}"
                              + (f", passed {len(passed)}" if accepts else ""))
        if more == "buffer":
            return [counts, buffer_line(content, applied.conflicts, skipped + passed)]
        return [counts, *report_lines(content, applied.conflicts, skipped, passed)] if more == "report" else counts

    def do_applyquiet(self, quiet, *application):
        """The same, with the quiet sessions disabled around it."""
        enabled = [state for state in {self.state(number) for number in quiet} if state.session.enable()]
        for state in enabled:
            state.session.enable(False)
        try:
            return self.do_apply(*application)
        finally:
            for state in enabled:
                state.session.enable(True)

    def apply(self, content, answers, accepts, passed):
        """Applies the blob, and returns what is seen of that and the numbers of the groups that SQLite skipped. Those
        that were passed over are given."""
        applied = self.connection.apply(content, answers.__getitem__, accepts)
        skipped = [number for number, group in enumerate(blob.read(content))
                   if number not in passed and group.changes and is_skipped(group, applied.warnings)]
        if applied.code in (sqlite.ABORT, sqlite.MISUSE):
            at = change_of(content, skipped + passed, applied.conflicts[-1])
            raise Refusal("E16 Misuse" if applied.code == sqlite.MISUSE else "E15 Aborted", at)
        if applied.code != sqlite.OK:
            raise sqlite.SqliteError(applied.code, "sqlite3changeset_apply")
        return applied, skipped


def is_skipped(group, warnings):
    """Whether SQLite has warned of the table of this group."""
    name = group.table
    return any(warning in (f"no such table: {name}", f"primary key mismatch for table {name}")
               or warning.startswith(f"table {name} has ") for warning in warnings)


def report_lines(content, conflicts, skipped, passed):
    """What `apply .. report` prints behind the counts."""
    numbered = [(change_of(content, skipped + passed, conflict), *conflict[:2]) for conflict in conflicts]
    return [*(f"conflict {change} {kind} {answer}" for change, kind, answer in numbered),
            *(f"omitted {change}" for change, _, answer in numbered if answer == "omit"),
            *(f"skipped {number}" for number in skipped)]


def buffer_line(content, conflicts, skipped):
    """What `apply .. buffer` prints behind the counts."""
    if content[:1] == bytes([blob.PATCHSET]):
        return "buffer none"
    answers = {change_of(content, skipped, conflict): conflict[1] for conflict in conflicts}
    return f"buffer {blob.with_ones(blob.buffer(content, answers)).hex() or '-'}"


def change_of(content, skipped, conflict):
    """The number of the change that had the conflict."""
    *_, made, omitted = conflict
    return made + omitted + changes_skipped(content, skipped, made + omitted)


def changes_skipped(content, skipped, considered):
    """How many changes are in groups that were skipped, before the change behind so many considered ones."""
    found = 0
    for number, group in enumerate(blob.read(content)):
        if number in skipped:
            found += len(group.changes)
        elif considered < len(group.changes):
            break
        else:
            considered -= len(group.changes)
    return found


def refusal_name(error):
    """The program's name for an error of a statement."""
    if error.code in (sqlite.CONSTRAINT_UNIQUE, sqlite.CONSTRAINT_PRIMARYKEY):
        return "E5 Duplicate"
    if NO_TABLE in error.message:
        return "E8 NoTable"
    if NO_COLUMN in error.message:
        return "E4 BadColumn"
    if OTHER_WIDTH in error.message:
        return "E3 WrongWidth"
    raise error
