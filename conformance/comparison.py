"""A case, and its comparison: the program beside SQLite on the same workloads, and on the blobs of either.

A case has a source, a workload that both run. Its captures are blobs. It may have a target, a second workload in which
{1}, {2} .. stand for these blobs in their order: both run it with the program's blobs and with SQLite's.
"""
import re
from contextlib import closing
from dataclasses import dataclass

import blob
import workload
from program import Fault
from sqlite_server import SqliteServer

CAPTURE = re.compile(r"(changeset|patchset) ([0-9a-f]+|-)$")
REPORTED = re.compile(r"(conflict|omitted|skipped) \d+ ?")
BUFFER = re.compile(r"buffer (?:([0-9a-f]+)|none|-)$")
# The first line of rows or tables, with how many there are.
LISTED = re.compile(r"(?:rows|tables) ([0-9]+)")
# What may stand behind the counts of an application.
BEHIND = re.compile(f"{REPORTED.pattern}|{BUFFER.pattern}")
REFUSED = re.compile(r"refused at \d+: E1[56] \w+")


@dataclass
class Case:
    """A case with the name that reports have."""

    name: str
    source: str
    target: str = ""


def split(lines, commands):
    """The lines of each command's reply: one, for all rows of a table one more for each row, for all tables one more
    for each table, and for an application one more for each thing that is reported, or for the buffer. A text that has
    a line feed moves the replies after it, on both sides alike."""
    replies, at = [], 0
    for _ in commands:
        listed = LISTED.fullmatch(lines[at]) if at < len(lines) else None
        more = int(listed[1]) if listed else 0
        while at + 1 + more < len(lines) and BEHIND.match(lines[at + 1 + more]):
            more += 1
        replies.append(lines[at:at + 1 + more])
        at += 1 + more
    if at < len(lines):
        replies.append(lines[at:])
    return replies


def comparable(reply):
    """A reply without the order of the changes within a group, which SQLite leaves open."""
    found = CAPTURE.match(reply[0]) if reply else None
    if not found or found[2] == "-":
        return reply
    return [f"{found[1]} {blob.in_key_order(bytes.fromhex(found[2])).hex()}"]


def settled(reply):
    """A reply to the same command with a blob whose changes have another order: the numbers of changes are open."""
    lines = [REFUSED.sub("refused", line) for line in comparable(reply)]
    if reply and reply[0].startswith("ok "):
        return [lines[0], *sorted(REPORTED.sub(r"\1 ", in_order(line)) for line in lines[1:])]
    return lines


def in_order(line):
    """A line, where it is a buffer with its changes in the order of their keys."""
    found = BUFFER.match(line)
    return f"buffer {blob.in_key_order(bytes.fromhex(found[1])).hex()}" if found and found[1] else line


def blobs_of(replies):
    """The bytes of each capture among the replies."""
    found = (CAPTURE.match(reply[0]) for reply in replies if reply)
    return [bytes.fromhex(it[2].replace("-", "")) for it in found if it]


def with_blobs(text, blobs):
    """The text with the blobs in it."""
    return re.sub(r"\{(\d+)\}", lambda it: blobs[int(it[1]) - 1].hex(), text)


class Comparison:
    """The program beside SQLite on one case. `problems` has a text for each difference."""

    def __init__(self, program, case):
        self.program, self.case, self.problems = program, case, []

    def problem(self, text):
        self.problems.append(text)

    def run_both(self, text, label):
        """The replies of the program and of SQLite to a workload, which are compared."""
        commands = workload.read(text)
        try:
            ours = split(self.program.run(text), commands)
        except Fault as fault:
            ours = [[str(fault)]]
        with closing(SqliteServer()) as server:
            lines = [part for reply in server.run(commands) for line in reply for part in line.split("\n")]
        theirs = split(lines, commands)
        self.compare(commands, ours, theirs, label)
        return ours, theirs

    def compare(self, commands, ours, theirs, label):
        """Notes the first reply that differs, or the blobs whose keys do not ascend."""
        for at in range(max(len(ours), len(theirs))):
            one, other = (replies[at] if at < len(replies) else ["no reply"] for replies in (ours, theirs))
            if comparable(one) != comparable(other):
                line = commands[at].line if at < len(commands) else "the end"
                self.problem(f"{label}, {line}\n  changecap: {text_of(one)}\n  SQLite:    {text_of(other)}")
                return
        for content in blobs_of(ours):
            if not blob.is_in_key_order(content):
                self.problem(f"{label}: keys do not ascend in {content.hex()}")

    def run(self):
        """Compares all of the case, and returns the blobs of its source, the program's and SQLite's."""
        ours, theirs = self.run_both(self.case.source, "source" if self.case.target else "workload")
        blobs = blobs_of(ours), blobs_of(theirs)
        if self.case.target and not self.problems:
            both = []
            for whose, made in zip(("changecap", "SQLite"), blobs):
                both += self.run_both(with_blobs(self.case.target, made), f"target with the blobs of {whose}")
            if len(set(map(str, (list(map(settled, replies)) for replies in both)))) > 1 and not self.problems:
                self.problem("the blobs of the two sides leave different tables")
        return blobs


def text_of(reply):
    """A reply as reports have it."""
    return "\n             ".join(reply)
