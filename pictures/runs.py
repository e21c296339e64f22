"""Runs: the calls of a run in the order of its one history.

A run is read from a workload and the replies that `changecap run` has printed, as text or with --json, or from a file of
JSON lines, as record.py writes them. Whatever it is read from, it is a list of `Call`: who wants another form of runs
writes another function that answers one.
"""
import copy
import json
import re
from dataclasses import dataclass

import json_replies
import workload
from server import Server

WORKER = re.compile(r" *@([0-9]+) ")
# The first line of a reply that says how many lines follow.
COUNTED = re.compile(r"(?:rows|sessions|databases|tables) ([0-9]+)$")
MOST_STEPS = 200_000


class NoRun(Exception):
    """What was read is no run."""


@dataclass
class Call:
    """A call: the number of its worker, or None for the main thread, its line, and its reply. A commit of a transaction
    has the version of its snapshot in `base`, and the items that it looked at in `looked`, in the order of the first
    look, as `row t key(1)`, `rows t`, `next id t` or `table t`."""

    worker: int | None
    line: str
    reply: str
    base: int | None = None
    looked: tuple = ()

    @property
    def command(self):
        """The command of the line. A transaction without operations is a commit of none."""
        if self.line == "commit":
            return workload.Command("commit", (None, []), self.line)
        return workload.command_of(self.line)

    @property
    def item(self):
        """The number of the item for which the commit is refused, or None."""
        found = re.search(r" item ([0-9]+)$", self.reply)
        return int(found[1]) if found else None


def read_json(text):
    """The calls of JSON lines, in their order."""
    calls = []
    for number, line in enumerate(text.splitlines(), 1):
        try:
            if line.strip():
                it = json.loads(line)
                looked = tuple(it.get("looked", ()))
                calls.append(Call(it.get("worker"), it["line"], it["reply"], it.get("base"), looked))
        except (KeyError, TypeError, ValueError) as error:
            raise NoRun(f"line {number} is no call: {error!r}") from None
    return calls


def read_workload(text, printed, threads=1):
    """The calls of a workload with these replies, in an order in which a server without threads gives them."""
    blocks = blocks_of(text, threads)
    calls = [call for block in blocks for _, call in block]
    for call, reply in zip(calls, texts_of(text, printed, [call.command for call in calls])):
        call.reply = reply
    return in_order(blocks)


def texts_of(text, printed, commands):
    """The texts of the replies to a workload, which are printed as text or as JSON lines, as many as its commands."""
    if not printed.startswith("{"):
        return [*replies_of(printed, commands)]
    try:
        texts = json_replies.replies(text, printed)
    except (KeyError, TypeError, ValueError) as fault:
        raise NoRun(f"the replies are not of this workload: {fault}") from None
    if len(texts) < len(commands):
        raise NoRun(f"there are {len(texts)} replies, and no reply to: {commands[len(texts)].line}")
    return texts


def blocks_of(text, threads):
    """The lines, as lists of (thread, call) that are called at once. The main thread is None."""
    blocks, is_open = [], False
    for line in text.split("\n"):
        if not line.strip(" ") or line.startswith("#"):
            continue
        found = WORKER.match(line)
        worker = int(found[1]) if found else None
        call = Call(worker, line[found.end():] if found else line, "")
        if worker is None or not is_open:
            blocks.append([])
        is_open = worker is not None
        blocks[-1].append((None if worker is None else worker % threads, call))
    return blocks


def replies_of(printed, commands):
    """The replies to some commands, each with all its lines."""
    lines = printed.rstrip("\n").split("\n")
    at = 0
    for command in commands:
        if at >= len(lines):
            raise NoRun(f"there are {at} lines of replies, and no reply to: {command.line}")
        first, at = at, at + 1
        counted = COUNTED.match(lines[first])
        if counted:
            at += int(counted[1])
        elif command.word in ("apply", "applyquiet") and lines[first].startswith("ok "):
            while at < len(lines) and lines[at].startswith(("conflict ", "omitted ", "skipped ", "buffer ")):
                at += 1
        yield "\n".join(lines[first:at])
    if at < len(lines):
        raise NoRun(f"there are more replies than commands: {lines[at]}")


def in_order(blocks):
    """The calls in an order in which a server without threads gives their replies. The calls of a worker stay in
    theirs, and a block ends before the next one begins."""
    server, calls, left = Server(), [], [MOST_STEPS]
    for block in blocks:
        queues = {}
        for worker, call in block:
            queues.setdefault(worker, []).append(call)
        found = interleaved(server, list(queues.values()), left)
        if found is None:
            raise NoRun(f"no order of the calls has these replies, from: {block[0][1].line}")
        server, made = found
        calls += made
    return calls


def interleaved(server, queues, left):
    """The server after the calls of some queues, and the calls, in an order that has their replies; or None."""
    queues = [queue for queue in queues if queue]
    if not queues:
        return server, []
    for at, (first, *rest) in enumerate(queues):
        left[0] -= 1
        if left[0] < 0:
            raise NoRun("it takes too long to find an order of the calls")
        other = copy.deepcopy(server)
        if other.make(first.command) == first.reply:
            found = interleaved(other, [*queues[:at], rest, *queues[at + 1:]], left)
            if found:
                return found[0], [first, *found[1]]
    return None
