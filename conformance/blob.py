"""Changesets and patchsets as bytes (docs/manual/formats.md), read and written apart from both sides that are compared.

A blob is a list of groups. What SQLite leaves open, the order of the changes within a group, is taken away by
`in_key_order`, and the form of the key flags by `with_ones`.
"""
from dataclasses import dataclass, field, replace

CHANGESET, PATCHSET = 0x54, 0x50
INSERT, UPDATE, DELETE = 0x12, 0x17, 0x09
UNDEFINED = object()


@dataclass
class Change:
    """One change. A field of a record that is undefined is UNDEFINED; a record that the operation lacks is None."""

    operation: int
    indirect: int
    old: list = None
    new: list = None


@dataclass
class Group:
    """The changes of one table. `flags` has a byte for each column."""

    kind: int
    flags: bytes
    table: str
    changes: list = field(default_factory=list)

    def key_of(self, change):
        """The values of the key of a change, in a form that sorts as SQLite sorts them."""
        record = change.new if change.operation == INSERT else change.old
        return [order(value) for value, flag in zip(record, self.flags) if flag]

    def has_positions(self):
        """Whether the flag of each key column is its position within the key."""
        flags = [flag for flag in self.flags if flag]
        return flags == list(range(1, len(flags) + 1))


def order(value):
    """A value as a tuple that sorts as the value does: integers, then texts, then blobs."""
    if isinstance(value, int):
        return 1, value
    return (2, value.encode()) if isinstance(value, str) else (3, value)


class Reader:
    """Bytes that are read from a place on. ValueError where they end or have what no blob has; not all is checked."""

    def __init__(self, content):
        self.content, self.at = content, 0

    def is_done(self):
        return self.at == len(self.content)

    def byte(self):
        return self.take(1)[0]

    def take(self, count):
        found = self.content[self.at:self.at + count]
        if len(found) < count:
            raise ValueError(f"the blob ends at {len(self.content)}")
        self.at += count
        return found

    def varint(self):
        number = 0
        while True:
            byte = self.byte()
            number = number << 7 | byte & 0x7f
            if byte < 0x80:
                return number

    def value(self):
        kind = self.byte()
        if kind == 0:
            return UNDEFINED
        if kind == 1:
            return int.from_bytes(self.take(8), "big", signed=True)
        if kind == 3:
            return self.take(self.varint()).decode()
        if kind == 4:
            return self.take(self.varint())
        if kind == 5:
            return None
        raise ValueError(f"no value of type {kind} at {self.at - 1}")

    def record(self, flags):
        """A record that has the fields with a flag."""
        return [self.value() if flag else UNDEFINED for flag in flags]

    def change(self, group):
        operation, indirect = self.byte(), self.byte()
        every = b"\1" * len(group.flags)
        if operation == INSERT:
            return Change(operation, indirect, new=self.record(every))
        if operation == DELETE:
            return Change(operation, indirect, old=self.record(every if group.kind == CHANGESET else group.flags))
        if operation != UPDATE:
            raise ValueError(f"no operation {operation} at {self.at - 2}")
        if group.kind == CHANGESET:
            return Change(operation, indirect, self.record(every), self.record(every))
        both = self.record(every)
        old = [value if flag else UNDEFINED for value, flag in zip(both, group.flags)]
        new = [UNDEFINED if flag else value for value, flag in zip(both, group.flags)]
        return Change(operation, indirect, old, new)


def read(content):
    """The groups of a blob."""
    reader, groups = Reader(content), []
    while not reader.is_done():
        if content[reader.at] in (CHANGESET, PATCHSET):
            kind, width = reader.byte(), reader.varint()
            flags = reader.take(width)
            end = content.index(0, reader.at)
            groups.append(Group(kind, flags, reader.take(end - reader.at).decode()))
            reader.byte()
        else:
            groups[-1].changes.append(reader.change(groups[-1]))
    return groups


def varint(number):
    parts = [number & 0x7f]
    while number > 0x7f:
        number >>= 7
        parts.append(number & 0x7f | 0x80)
    return bytes(parts[::-1])


def value_bytes(value):
    if value is UNDEFINED:
        return b"\0"
    if value is None:
        return b"\5"
    if isinstance(value, int):
        return b"\1" + value.to_bytes(8, "big", signed=True)
    content = value.encode() if isinstance(value, str) else value
    return (b"\3" if isinstance(value, str) else b"\4") + varint(len(content)) + content


def record_bytes(record):
    return b"".join(map(value_bytes, record))


def change_bytes(group, change):
    head = bytes((change.operation, change.indirect))
    if change.operation == INSERT:
        return head + record_bytes(change.new)
    if change.operation == UPDATE and group.kind == PATCHSET:
        return head + record_bytes(old if flag else new for old, new, flag in zip(change.old, change.new, group.flags))
    if change.operation == UPDATE:
        return head + record_bytes(change.old) + record_bytes(change.new)
    if group.kind == PATCHSET:
        return head + record_bytes(value for value, flag in zip(change.old, group.flags) if flag)
    return head + record_bytes(change.old)


def group_bytes(group):
    head = bytes((group.kind,)) + varint(len(group.flags)) + group.flags + group.table.encode() + b"\0"
    return head + b"".join(change_bytes(group, change) for change in group.changes)


def write(groups):
    """The bytes of the groups."""
    return b"".join(map(group_bytes, groups))


def with_ones(content):
    """The blob with 01 as the flag of each key column."""
    return write(replace(group, flags=bytes(map(bool, group.flags))) for group in read(content))


def buffer(content, answers):
    """The buffer of an application: the changes that met a conflict, each with its answer in the place of its indirect
    flag. `answers` has their numbers in the blob."""
    groups, number = [], 0
    for group in read(content):
        changes = []
        for number, change in enumerate(group.changes, number):
            if number in answers:
                changes.append(replace(change, indirect=int(answers[number] == "replace")))
        number += bool(group.changes)
        groups += [replace(group, changes=changes)] if changes else []
    return write(groups)


def in_key_order(content):
    """The blob with the changes of each group in ascending order of their keys."""
    return write(replace(group, changes=sorted(group.changes, key=group.key_of)) for group in read(content))


def is_in_key_order(content):
    """Whether the keys of each group ascend."""
    for group in read(content):
        keys = [group.key_of(change) for change in group.changes]
        if any(first >= second for first, second in zip(keys, keys[1:])):
            return False
    return True


def patches(groups):
    """The groups of the patchset of a changeset."""
    for group in groups:
        yield replace(group, kind=PATCHSET, changes=[patch(group, change) for change in group.changes])


def patch(group, change):
    """A change with its key in place of its old record."""
    if change.operation == INSERT:
        return change
    return replace(change, old=[value if flag else UNDEFINED for value, flag in zip(change.old, group.flags)])
