#!/usr/bin/env python3
"""Breaks the followers on purpose, and sees that the tests show it: wrong_bodies.py OUT [NAME..]

Each wrong body is a change of one file, made in a copy of the folder. The tests run there until one fails,
and then four random runs. OUT has what `make lib` and `make python` leave. The last line is 'N passed, M failed':
wrong bodies that were found, and that were not.
"""
from __future__ import annotations

import importlib.machinery
import importlib.util
import os
import shutil
import subprocess
import sys
import tempfile

sys.dont_write_bytecode = True
HERE = os.path.dirname(os.path.abspath(__file__))
FOLLOWERS = os.path.dirname(HERE)
SUITES = "stream", "following", "leading", "examples"
SECONDS = 120
# Each with its file, what is in it once, and what takes its place.
BODIES = {
    "a second publisher is not refused": (
        "redis_broker.py", "if not is_at(1) then return place end\n", ""),
    "an entry that was written is refused": (
        "redis_broker.py", "if is_at(4) then return {} end\n", ""),
    "an entry is acknowledged before it is published": (
        "publisher.py", "        whole = entry\n",
        "        whole = entry\n        with self._changed:\n            self.acknowledged = entry.version\n"
        "            self._changed.notify_all()\n"),
    "another entry takes the place of one that may have been written": (
        "publisher.py", "            self._waiting = entry\n", ""),
    "the tables are committed before the place": (
        "sqlite_target.py", "                change()\n",
        "                change()\n                self._database.execute('COMMIT')\n"
        "                self._database.execute('BEGIN IMMEDIATE')\n"),
    "the place of a server is a commit of its own": (
        "server_target.py", "server.apply(changeset + change)",
        "server.apply(changeset) and server.apply(change)"),
    "rows from before the snapshot stay": (
        "sqlite_target.py", 'self._database.execute(f"DELETE FROM {quoted(table)}")', "pass"),
    "an entry that does not follow is applied": (
        "follower.py", "entry.before != place or not entry.is_whole()", "not entry.is_whole()"),
    "turned bytes are applied": (
        "entry.py", '"""Whether every byte is as it was when the entry was made."""\n        return ',
        '"""Whether every byte is as it was when the entry was made."""\n        return True or '),
    "entries behind the third are passed over": (
        "follower.py", "entry.changeset for entry in entries]", "entry.changeset for entry in entries[:3]]"),
    "entries are applied in the other order": (
        "follower.py", "entry.changeset for entry in entries]", "entry.changeset for entry in entries[::-1]]"),
    "changesets are concatenated in the other order": (
        "combine.py", "changecap.concat(one, two)", "changecap.concat(two, one)"),
    "a snapshot is named after the entry before": (
        "combine.py", "Snapshot.made(entries[-1].after", "Snapshot.made(entries[-1].before"),
    "an entry is trimmed that the snapshot has not": (
        "snapshots.py", "snapshot.place.number - self.keep", "snapshot.place.number + 1"),
    "a leader begins before it has caught up": (
        "leader.py", "place = Follower(broker, target).catch_up(retry)",
        "Follower(broker, target).step(); place = target.place()"),
    "a leader counts versions anew": (
        "leader.py", "self._offset = place.version - self.server.snapshot().version", "self._offset = 0"),
    "a table is attached after it has rows": (
        "leader.py", "            self._session.attach(table)  # before there is a row in it\n", ""),
    "a capture is no restart": (
        "leader.py",
        "            for capture in self._session.captures():\n                return capture\n", ""),
}


def test_script():
    """The script followers/test, as a module."""
    loader = importlib.machinery.SourceFileLoader("followers_test", f"{FOLLOWERS}/test")
    module = importlib.util.module_from_spec(importlib.util.spec_from_loader("followers_test", loader))
    loader.exec_module(module)
    return module


def fails(words, environment):
    """Whether a command fails, or does not end."""
    try:
        return subprocess.run(words, env=environment, stdout=subprocess.DEVNULL, stderr=subprocess.DEVNULL,
                              check=False, timeout=SECONDS).returncode != 0
    except subprocess.TimeoutExpired:
        return True


def shown_by(body, python, environment):
    """What shows a wrong body."""
    file, old, new = body
    with tempfile.TemporaryDirectory(prefix="followers-") as folder:
        copy = shutil.copytree(FOLLOWERS, f"{folder}/followers")
        path = f"{copy}/src/changecap_followers/{file}"
        with open(path, encoding="utf-8") as of_file:
            text = of_file.read()
        if text.count(old) != 1:
            raise AssertionError(f"{file} has not once: {old}")
        with open(path, "w", encoding="utf-8") as of_file:
            of_file.write(text.replace(old, new))
        suites = (f"test_{it}.py" for it in SUITES)
        found = next((it for it in suites if fails([python, f"{copy}/tests/{it}"], environment)), None)
        is_random = fails([python, f"{copy}/tests/run_random.py", "4"], environment)
        return [it for it in (found, is_random and "random runs") if it]


def main():
    if len(sys.argv) < 2:
        sys.exit(__doc__)
    found = test_script().python_for(os.path.abspath(sys.argv[1]))
    if isinstance(found, int):
        return found
    passed = failed = 0
    for name in sys.argv[2:] or BODIES:
        shown = shown_by(BODIES[name], *found)
        passed, failed = passed + bool(shown), failed + (not shown)
        print(f"{name}: {', '.join(shown) or 'NOT FOUND'}", flush=True)
    print(f"{passed} passed, {failed} failed")
    return 1 if failed else 0


if __name__ == "__main__":
    sys.exit(main())
