"""The points of a run: what each call has made of the tables and of the sessions, and why it was refused."""
from dataclasses import dataclass, field

from server import Server
from workload import row_text, value_text

READS = "get", "scan", "isempty", "sessions", "databases", "tables"
CAPTURES = "changeset", "patchset", "restart"
WRITES = "create", "commit", "commitat", "apply", "applyquiet"


@dataclass
class Item:
    """An item that a transaction looked at, and the number of the point that changed it before the commit, or None."""

    text: str
    changed: int = None


@dataclass
class Touch:
    """A touch of a key by a session: what the change was."""

    session: int
    kind: str


@dataclass
class Capture:
    """A capture: its session, the point since which it captures, and its changes, as text."""

    session: int
    since: int
    changes: list


@dataclass
class Point:
    """The history after a call; the first point is before all calls. `cause` is the point that made it refused."""

    number: int
    call: object = None
    kind: str = "start"
    version: int = 0
    changed: set = field(default_factory=set)
    touches: list = field(default_factory=list)
    capture: Capture = None
    looked: list = field(default_factory=list)
    cause: int = None
    tables: list = field(default_factory=list)
    sessions: list = field(default_factory=list)


def points_of(calls):
    """The points of a run. The replies are those that the calls have."""
    server, points, since = Server(), [Point(0)], {}
    for number, call in enumerate(calls, 1):
        point = Point(number, call, kind_of(call))
        is_refused = call.reply.startswith("refused")
        if point.kind == "capture":
            at = call.command.arguments[0]
            point.capture = Capture(at, since.get(at, number), captured(server, at))
        if not is_refused:
            reply = server.make(call.command)
            if reply != call.reply:
                raise ValueError(f"call {number}, {call.line}, has the reply {call.reply!r}, and not {reply!r}")
        note_changes(point, server, is_refused)
        if call.command.word == "session" and not is_refused:
            since[server.numbers] = number
        if call.command.word == "restart" and not is_refused:
            since[call.command.arguments[0]] = number
        point.version = server.version
        note_looks(point, points)
        points.append(point)
    return points


def kind_of(call):
    if call.reply.startswith("refused"):
        return "refused"
    word = call.command.word
    return "write" if word in WRITES else "capture" if word in CAPTURES else "read" if word in READS else "session"


def note_changes(point, server, is_refused):
    """Notes what a call has changed, and what there is now."""
    if not is_refused:
        point.changed = {(table, key_text(key)) for table, key, _, _ in server.changes}
        kinds = {(table, key): kind for table, key, kind, _ in server.changes}
        touched = dict.fromkeys(server.touched)
        point.touches = [Touch(session, kinds.get((table, key), "diff")) for session, table, key in touched]
    for name, table in server.tables.items():
        rows = [[f"loose {number}" if number else key_text(table.key_of(values)), list(map(value_text, values))]
                for number, values in table.in_order()]
        changed = [row[0] for row in rows if (name, row[0]) in point.changed]
        point.tables.append({"name": name, "flags": list(table.flags), "rows": rows, "changed": changed})
    for number, session in server.sessions.items():
        flags = [*([] if session.enabled else ["disabled"]), *(["indirect"] if session.indirect else [])]
        records = [{"table": name, "key": key_text(key), "first": record.first and row_text(record.first),
                    "now": now and row_text(now), "kind": kind, "indirect": record.indirect}
                   for name, found in server.captured(number) for key, record, now, kind in found]
        point.sessions.append({"number": number, "flags": flags, "attached": list(session.records), "records": records})


def key_text(key):
    """The name of a row with this key, as a workload has it."""
    return "none" if key is None else f"key{row_text(key)}"


def captured(server, number):
    """The changes that a session captures, as text."""
    return [f"{kind} {name} {row_text(now if kind == 'insert' else record.first)}"
            + (f" to {row_text(now)}" if kind == "update" else "")
            for name, found in (server.captured(number) if number in server.sessions else ())
            for _, record, now, kind in found if kind]


def note_looks(point, points):
    """Notes which of the items that a commit looked at had changed since its base, and what refused it."""
    call = point.call
    base = call.command.arguments[0] if call.command.word == "commitat" else call.base
    later = [it for it in points if base is not None and it.kind == "write" and it.version > base]
    point.looked = [Item(text, next((it.number for it in later if changes(it, text)), None)) for text in call.looked]
    if " E11 " in call.reply and later:
        point.cause = point.looked[call.item].changed if call.item is not None else later[0].number


def changes(point, item):
    """Whether a write has changed an item."""
    what, _, rest = item.partition(" ")
    if what == "row":
        table, _, row = rest.partition(" ")
        return (table, row) in point.changed
    table = rest.removeprefix("id ") if what == "next" else rest
    if what == "table":
        return point.call.command.word == "create" and point.call.command.arguments[0] == table
    return any(name == table and (what == "rows" or row == "none") for name, row in point.changed)
