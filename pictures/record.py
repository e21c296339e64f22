"""Records what a program in Python does with a server, as JSON lines for pictures/draw.

    recorder = Recorder(changecap.Server(), file)
    recorder.call("create t kv")
    transaction = recorder.transaction(worker=0)
    transaction.insert("t", (1, "x"))
    transaction.commit()

A call and its line are made under one lock: the lines stand in the order of the history. It is for drawings, and not
for programs in a hurry.
"""
import json
import threading

import changecap
from workload import row_text, value_text


class Recorder:
    """A server whose calls are recorded. Any thread may call it."""

    def __init__(self, server, output):
        self.server, self.output, self.lock, self.keys = server, output, threading.RLock(), {}

    def call(self, line, worker=None):
        """Carries out a line of the workload language, and answers its reply."""
        with self.lock:
            try:
                reply = self.server.call(line)
            except changecap.Refused as refused:
                reply = str(refused)
            words = line.split()
            if words[0] == "create" and reply.startswith("ok"):
                self.keys[words[1]] = [letter == "k" for letter in words[2]]
            self.note(worker=worker, line=line, reply=reply)
        return reply

    def note(self, **call):
        self.output.write(json.dumps(call, ensure_ascii=False) + "\n")

    def transaction(self, worker=None):
        """Begins a transaction on the tables as they are."""
        with self.lock:
            return Transaction(self, worker)


class Transaction:
    """A transaction that notes what it looks at, in the order of the first look."""

    def __init__(self, recorder, worker):
        self.recorder, self.worker, self.looked, self.operations = recorder, worker, {}, []
        self.base, self.own = recorder.server.snapshot().version, recorder.server.transaction()

    def look(self, *items):
        self.looked.update(dict.fromkeys(items))

    def get(self, table, key):
        self.look(f"table {table}", f"row {table} key{row_text(key)}")
        return self.own.get(table, key)

    def scan(self, table):
        self.look(f"table {table}", f"rows {table}")
        return self.own.scan(table)

    def insert(self, table, values):
        self.own.insert(table, values)
        key = [value for value, is_key in zip(values, self.recorder.keys[table]) if is_key]
        has_key = key and None not in key
        self.look(f"table {table}", f"row {table} key{row_text(key)}" if has_key else f"next id {table}")
        self.operations.append(f"insert {table} {row_text(values)}")

    def update(self, table, key, values):
        """Sets columns outside the key."""
        self.own.update(table, key, values)
        self.look(f"table {table}", f"row {table} key{row_text(key)}")
        fields = " , ".join(f"{column} = {value_text(value)}" for column, value in values.items())
        self.operations.append(f"update {table} key{row_text(key)} set {fields}")

    def delete(self, table, key):
        self.own.delete(table, key)
        self.look(f"table {table}", f"row {table} key{row_text(key)}")
        self.operations.append(f"delete {table} key{row_text(key)}")

    def commit(self):
        """Commits, and answers whether the commit was accepted."""
        looked = list(self.looked)
        with self.recorder.lock:
            try:
                reply = f"ok version {self.own.commit()}"
            except changecap.Conflict as conflict:
                item = looked.index(item_of(conflict, looked))
                now = self.recorder.server.snapshot().version
                reply = f"refused: E11 Stale base {self.base} now {now} item {item}"
            self.recorder.note(worker=self.worker, line="commit " * bool(self.operations) + " ; ".join(self.operations)
                               or "commit", reply=reply, base=self.base, looked=looked)
        return reply.startswith("ok")


def item_of(conflict, looked):
    """The item that a conflict names: the row, or what of the table is no row and was looked at last."""
    if isinstance(conflict.row, tuple):
        return f"row {conflict.table} key{row_text(conflict.row)}"
    return [it for it in looked if it.split()[-1] == conflict.table][-1]
