"""The tables of a stream, and the bytes of changesets that are written here (docs/manual/formats.md).

A table is published with its definition: the header of a group of a changeset, without changes.
"""
from __future__ import annotations

from collections.abc import Mapping, Sequence

Key = tuple[bool, ...]
"""For each column whether it is in the primary key."""
PLACE_TABLE = "changecap_place"
"""The table in which a follower keeps its place."""


def varint(number: int) -> bytes:
    """A number below 2^35 as a varint."""
    groups = [number & 127]
    while number := number >> 7:
        groups.append(number & 127 | 128)
    return bytes(reversed(groups))


def header(table: str, key: Sequence[bool]) -> bytes:
    """The header of a table. The flag of a key column is its position within the key, as SQLite's code has
    it."""
    flags, position = bytearray(), 0
    for is_key in key:
        position += is_key
        flags.append(min(position, 255) if is_key else 0)
    return b"T" + varint(len(key)) + bytes(flags) + table.encode() + b"\0"


def headers(tables: Mapping[str, Key]) -> bytes:
    """The headers of tables."""
    return b"".join(header(table, key) for table, key in tables.items())


def tables_of(content: bytes) -> dict[str, Key]:
    """The tables of headers."""
    tables, at = {}, 0
    while at < len(content):
        at, count = at + 1, 0
        while content[at] > 127:
            count, at = count << 7 | content[at] & 127, at + 1
        count, at = count << 7 | content[at], at + 1
        end = content.index(0, at + count)
        tables[content[at + count:end].decode()] = tuple(flag != 0 for flag in content[at:at + count])
        at = end + 1
    return tables


def field(value: int | str) -> bytes:
    """A field of a record."""
    if isinstance(value, int):
        return b"\x01" + value.to_bytes(8, "big", signed=True)
    text = value.encode()
    return b"\x03" + varint(len(text)) + text


def insert(table: str, key: Sequence[bool], row: Sequence[int | str]) -> bytes:
    """A changeset that inserts a row."""
    return header(table, key) + b"\x12\0" + b"".join(map(field, row))


def update(table: str, key: Sequence[bool], old: Sequence[int | str], new: Sequence[int | str]) -> bytes:
    """A changeset that changes every column of a row but those of its key."""
    fields = [b"\0" if is_key else field(value) for is_key, value in zip(key, new)]
    return header(table, key) + b"\x17\0" + b"".join(map(field, old)) + b"".join(fields)
