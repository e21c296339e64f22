"""Cases in files.

A file of tests has a case after each line '== NAME': its source, and its target, if it has one, after a line
'-- target'. What stands before the first case says what the file is about.
"""
import os
import sys

from comparison import Case

sys.path.append(os.path.join(os.path.dirname(os.path.abspath(__file__)), "..", "examples"))
from example_files import FAULT, contents, expanded, lines_of  # noqa: E402

TARGET = "-- target"
# Examples that SQLite cannot run, or where it differs by design: DIFFERENCES.md says why.
LEFT_OUT = {
    "apply/update-that-changes-nothing": "an update without a modified field",
    "tables/names-are-compared-by-bytes": "names that differ in case only",
    "limits/dropped-database-makes-room": "more attached databases than SQLite takes",
    "limits/saved-database-17-is-refused": "more attached databases than SQLite takes",
    "limits/session-65-is-refused": "a limit of the program",
    "limits/table-65-is-refused": "a limit of the program",
    "sessions/sessions-are-listed": "SQLite does not list what a session attaches",
}


def tests(folder):
    """The cases of all files of tests."""
    for name in sorted(os.listdir(folder)):
        if name.endswith(".cases"):
            yield from cases_of(contents(f"{folder}/{name}").decode(), f"tests/{name}")


def cases_of(text, label):
    """The cases of a file of tests."""
    for part in ("\n" + text).split("\n== ")[1:]:
        name, _, body = part.partition("\n")
        source, _, target = body.partition(f"{TARGET}\n")
        yield Case(f"{label}, {name}", source, target)


def text_of(case):
    """A case as a file of tests has it."""
    target = f"{TARGET}\n{case.target}" if case.target else ""
    return f"== {case.name}\n{case.source}{target}"


def examples(folder):
    """The example workloads whose replies are all on standard output. Those with repeated text are expanded."""
    for path, _, names in sorted(os.walk(folder)):
        for name in sorted(names):
            start, ending = os.path.splitext(f"{path}/{name}")
            label = os.path.relpath(start, folder)
            if label in LEFT_OUT or os.path.exists(f"{start}.err") or os.path.exists(f"{start}.any-order"):
                continue
            if ending == ".workload":
                yield Case(f"examples/{label}", contents(f"{path}/{name}").decode())
            elif ending == ".long":
                yield Case(f"examples/{label}", expanded(contents(f"{path}/{name}")).decode())
            elif ending == ".workloads":
                for number, given, printed in lines_of(f"{path}/{name}"):
                    if not FAULT.match(printed):
                        yield Case(f"examples/{label}, line {number}", given.decode())
