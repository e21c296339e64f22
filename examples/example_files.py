"""Reads the files of the examples, for examples/check and for the tests that run the examples on something else.

The first lines of examples/check say how a table and a repeated text are written.
"""
import os
import re
import sys

REPEATED = re.compile(rb"\{(\d+) ([^{}]*)\}")
NUMBER = re.compile(rb"#(x|\+\d+)?")
ESCAPED = re.compile(rb"\\(n|t|r|x[0-9a-f]{2})")
# What is printed of an input that is refused.
FAULT = re.compile(rb"(line|blob) \d+: |fault D\d+ |not UTF-8$|not hex$|patchset$")


def contents(path, absent=b""):
    """What is in the file, where there is one."""
    if not os.path.isfile(path):
        return absent
    with open(path, "rb") as file:
        return file.read()


def numbered(text, number):
    """The repeated text with its number."""
    def spelt(found):
        how = found[1] or b"+0"
        return b"%016x" % number if how == b"x" else b"%d" % (number + int(how[1:]))
    return NUMBER.sub(spelt, text)


def expanded(text):
    """The text with each repeated text as often as it says."""
    def repeated(found):
        return b"".join(numbered(found[2], number + 1) for number in range(int(found[1])))
    return REPEATED.sub(repeated, text)


def unescaped(text):
    """One side of a table's line as bytes."""
    bytes_of = {b"n": b"\n", b"t": b"\t", b"r": b"\r"}
    text = ESCAPED.sub(lambda it: bytes_of.get(it[1]) or bytes([int(it[1][1:], 16)]), text)
    return expanded(text)


def lines_of(path):
    """Each line of a table: its number and its two sides."""
    for number, line in enumerate(contents(path).split(b"\n"), 1):
        if line and not line.startswith(b"# "):
            given, sign, printed = line.partition(b"=> ")
            if not sign:
                sys.exit(f"{path}: line {number} has no '=> '")
            yield number, unescaped(given[:-1] if given.endswith(b" ") else given), unescaped(printed)
