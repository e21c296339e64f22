"""What the program makes of one blob or two, beside SQLite's calls for that: show, invert, patchset and concat.

A program that lacks a command is not asked for it: `Commands.missing` names those that it lacks.
"""
import blob
import sqlite
import workload
from program import Fault

WORDS = ("show", "invert", "patchset", "concat")
REFUSED = "refused"


def shown(content):
    """The lines that `changecap show` prints, made of what SQLite's iterator answers."""
    if not content:
        return ["empty"]
    is_patchset = content[0] == blob.PATCHSET
    lines, header = ["patchset" if is_patchset else "changeset"], None
    try:
        for change in sqlite.iterate(content):
            group = f"group {change.table} {''.join('k' if flag else 'v' for flag in change.key)}"
            if group != header:
                lines.append(group)
                header = group
            lines.append(shown_change(change, is_patchset))
    except sqlite.SqliteError as error:
        lines.append(f"SQLite fails: {error}")
    return "\n".join(lines).split("\n")


def shown_change(change, is_patchset):
    """The line of a change."""
    mark = "indirect" if change.indirect else "direct"
    old, new = (workload.fields_text(fields, change.width) for fields in (change.old, change.new))
    if change.operation == "insert":
        return f"insert {mark} {new}"
    if change.operation == "update" and is_patchset:
        return f"update {mark} {workload.fields_text(change.old | change.new, change.width)}"
    if change.operation == "update":
        return f"update {mark} old {old} new {new}"
    key = [change.old.get(column) for column, flag in enumerate(change.key) if flag]
    return f"delete {mark} {workload.row_text(key) if is_patchset else old}"


class Commands:
    """The program's commands on blobs, and how often each was compared with SQLite."""

    def __init__(self, program):
        self.program = program
        self.missing = [word for word in WORDS if not program.has(word)]
        self.compared = dict.fromkeys(WORDS, 0)

    def problems(self, blobs):
        """A text for each difference in what is made of these blobs, but for their groups without changes."""
        blobs = [with_changes(it) for it in blobs]
        for content in dict.fromkeys(blobs):
            if "show" not in self.missing:
                yield from self.differences("show", content.hex(), shown(content), self.shown, content)
        changesets = [content for content in blobs if content[:1] != bytes([blob.PATCHSET])]
        for content in dict.fromkeys(changesets):
            if "invert" not in self.missing:
                yield from self.differences("invert", content.hex(), sqlite.invert(content), self.made_with_its_flags,
                                            content)
            if "patchset" not in self.missing:
                wanted = blob.write(blob.patches(blob.read(content)))
                yield from self.differences("patchset", content.hex(), wanted, self.made_with_its_flags, content)
        for first, second in zip(changesets, changesets[1:]):
            # Key flags of two forms are two keys to SQLite, as a test of the differences shows.
            if "concat" not in self.missing and has_positions(first) == has_positions(second):
                yield from self.differences("concat", f"{first.hex()} {second.hex()}", joined(first, second),
                                            self.made_in_order, first, second)

    def differences(self, word, label, wanted, call, *blobs):
        """A text where the command makes something else of the blobs than what is wanted."""
        self.compared[word] += 1
        try:
            found = call(word, *blobs)
        except Fault as fault:
            found = REFUSED if fault.status == 1 else str(fault)
        if found != wanted:
            yield f"{word} {label}\n  changecap: {text_of(found)}\n  SQLite:    {text_of(wanted)}"

    def shown(self, _word, content):
        return self.program.show(content)

    def made_with_its_flags(self, word, content):
        """What the command makes of a changeset with the form of key flags that it has: SQLite leaves that as it is."""
        return self.program.on_blobs(word, content, options=options_of(content))

    def made_in_order(self, word, *blobs):
        """What the command makes of changesets with one form of key flags, in that form."""
        options = next((options for options in map(options_of, blobs) if options), [])
        return blob.in_key_order(self.program.on_blobs(word, *blobs, options=options))


def with_changes(content):
    """The blob without its groups that have no change, as a dump has them. SQLite's inverse keeps these, and its
    iterator does not show them, as DIFFERENCES.md says."""
    groups = blob.read(content)
    return content if all(group.changes for group in groups) else blob.write(filter(lambda it: it.changes, groups))


def has_positions(content):
    """Whether each key flag of the blob is the column's position within the key."""
    return all(group.has_positions() for group in blob.read(content))


def options_of(content):
    """What asks for the form of key flags that the blob has."""
    return [] if has_positions(content) else ["--key-flags", "ones"]


def joined(first, second):
    """Both as one by SQLite, in the order of keys, where it does not refuse them."""
    try:
        return blob.in_key_order(sqlite.concat(first, second))
    except sqlite.SqliteError:
        return REFUSED


def text_of(value):
    """What a command made, as reports have it: a blob, a refusal, or lines."""
    if isinstance(value, bytes):
        return value.hex()
    return value if isinstance(value, str) else "\n             ".join(value)
