"""What `changecap run --json` prints, as the text that `changecap run` prints of the same workload.

The text of each reply is made of its JSON object and of the line of the workload that has the object's number, after
docs/manual/formats.md. So the expected texts of the examples are those of the JSON, too, and each object has all that
the text has. Whatever else an object has, or does not have, raises ValueError.
"""
import json
import re

WORKER = re.compile(r" *@([0-9]+) ")


def commands_of(workload):
    """The lines with a command: the number of each, its worker or None, and the command."""
    for number, line in enumerate(workload.split("\n"), 1):
        if line.strip(" ") and not line.startswith("#"):
            found = WORKER.match(line)
            yield number, int(found[1]) if found else None, line[found.end():] if found else line


def value_text(value):
    """A value as it is printed: null, a number, a text, or the bytes of a blob."""
    if value is None:
        return "null"
    if isinstance(value, str):
        return "'" + value.replace("'", "''") + "'"
    if isinstance(value, dict) and list(value) == ["blob"]:
        return f"x'{bytes.fromhex(value['blob']).hex()}'"
    if type(value) is not int:
        raise ValueError(f"{value!r} is no value")
    return str(value)


def row_text(values):
    return "(" + ",".join(map(value_text, values)) + ")"


class Members:
    """The members of an object, which are taken in their order."""

    def __init__(self, line):
        self.line, self.left = line, json.loads(line, object_pairs_hook=list)
        if not isinstance(self.left, list):
            raise ValueError(f"no object: {line}")

    def has(self, name):
        return bool(self.left) and self.left[0][0] == name

    def take(self, name, kind):
        if not self.has(name) or type(self.left[0][1]) is not kind:
            raise ValueError(f"no {name}: {self.line}")
        return self.left.pop(0)[1]

    def number(self, name):
        return self.take(name, int)

    def text(self, name):
        return self.take(name, str)

    def optional(self, name, before):
        return f"{before}{self.number(name)}" if self.has(name) else ""

    def objects(self, name):
        return [dict(members) for members in self.take(name, list)]

    def row(self, found):
        """The values of a row, in which the bytes of a blob are an object."""
        return [dict(value) if isinstance(value, list) else value for value in found]


def rows_text(members):
    rows = []
    for row in members.objects("rows"):
        if list(row) not in (["row"], ["id", "row"]):
            raise ValueError(f"no row: {members.line}")
        before = f"loose {row['id']} " if "id" in row else ""
        rows.append(before + row_text(members.row(row["row"])))
    return "\n".join([f"rows {len(rows)}", *rows])


def applied_text(members, command, state):
    version, applied = members.number("version"), members.number("applied")
    conflicts = members.objects("conflicts")
    omitted, skipped = members.take("omitted", list), members.take("skipped", list)
    command, has_filter, _ = command.partition(" filter ")
    has_filter = has_filter or state.is_applying and state.has_filter
    passed = f", passed {members.number('passed')}" if has_filter else ""
    lines = [f"ok version {version}, applied {applied}, omitted {len(omitted)}, skipped {len(skipped)}{passed}"]
    if command.rstrip(" ").endswith(" report"):
        lines += [f"conflict {it['change']} {it['kind']} {it['answer']}" for it in conflicts]
        lines += [f"omitted {it}" for it in omitted] + [f"skipped {it}" for it in skipped]
    if command.rstrip(" ").endswith(" buffer"):
        is_none = members.has("buffer") and members.left[0][1] is None
        lines.append("buffer none" if is_none else f"buffer {members.text('buffer') or '-'}")
        members.left = members.left[1:] if is_none else members.left
    return "\n".join(lines)


def change_text(change, columns, is_patchset):
    """The lines of a change as it is shown: its group's, with these columns, and its own."""
    names = [f"c{place}" for place in range(len(columns))]
    if change["key"] != [name for name, letter in zip(names, columns) if letter == "k"]:
        raise ValueError(f"{change['key']!r} is no key of {columns}")
    parts = []
    for side in ("old", "new"):
        if side not in change:
            continue
        fields = {name: dict(value) if isinstance(value, list) else value for name, value in change[side]}
        shown = [value_text(fields[name]) if name in fields else "-" for name in names]
        if is_patchset and change["op"] == "delete":
            shown = [text for text in shown if text != "-"]
        of_side = f"{side} " if change["op"] == "update" and not is_patchset else ""
        parts.append(f"{of_side}({','.join(shown)})")
    flag = "indirect" if change["indirect"] else "direct"
    return f"group {change['table']} {columns}\n{change['op']} {flag} {' '.join(parts)}"


def conflict_text(members, state):
    number, kind = members.number("change"), members.text("kind")
    change = dict(members.take("content", list))
    shown = change_text(change, state.columns[change["table"]], state.is_patchset)
    return f"conflict {number} {kind}\n{shown}\n{found_text(members)}"


def found_text(members):
    if members.left == [("row", None)]:
        members.left = []
        return "no row"
    return f"row {row_text(members.row(members.take('row', list)))}"


class State:
    """What the lines before have led to, as far as a reply's text depends on it: whether a transaction is open, the
    application that is, and the columns of each table that was made."""

    def __init__(self):
        self.is_open, self.has_filter, self.is_applying, self.is_patchset, self.columns = False, False, False, False, {}

    def reach(self, command):
        """Goes before a line."""
        if command.split()[0] == "applyeach" and not self.is_open and not self.is_applying:
            self.has_filter = re.search("'.*filter", command) is not None
            self.is_patchset = re.search("x'50", command) is not None

    def follow(self, command, text):
        """Goes behind a line with this reply."""
        words = command.split()
        if words[0] == "create" and text.startswith("ok"):
            self.columns[words[1]] = words[2]
        if words[0] == "begin" and text == "ok":
            self.is_open = True
        if words[0] == "applyeach" and not text.startswith("refused"):
            self.is_applying = True
        if words in (["rollback"], ["end"]) and text != "refused: E24 Unanswered":
            self.is_open = self.is_applying = False
        if words[0] in ("abort", "replace") and text.startswith("refused at"):
            self.is_applying = False


def name_text(name):
    return '"' + name.replace('"', '""') + '"'


def on_text(flag):
    return "on" if flag else "off"


def session_text(session):
    if list(session) != ["session", "enabled", "indirect", "empty", "tables"]:
        raise ValueError(f"{session!r} is no session")
    flags = f"enable {on_text(session['enabled'])} indirect {on_text(session['indirect'])}"
    return " ".join([f"{session['session']} {flags} isempty {str(session['empty']).lower()}",
                     *map(name_text, session["tables"])])


def table_text(table):
    if list(table) != ["table", "columns", "keyed", "loose"]:
        raise ValueError(f"{table!r} is no table")
    return f"{name_text(table['table'])} {table['columns']} keyed {table['keyed']} loose {table['loose']}"


def listed(word, items, text_of_item):
    return "\n".join([f"{word} {len(items)}", *map(text_of_item, items)])


def refused_text(members):
    at = members.optional("at", " at ")
    refusal = members.text("refusal")
    stale = refusal == "E11 Stale"
    more = f" base {members.number('base')} now {members.number('now')}" if stale else ""
    return f"refused{at}: {refusal}{more}{members.optional('item', ' item ')}"


def text_of(members, command, state):
    """The text of a reply to a command. What is read in a transaction that is open has no version."""
    kind = members.text("reply")
    if kind == "done":
        return "ok"
    if kind == "applied":
        return applied_text(members, command, state)
    if kind == "conflict":
        return conflict_text(members, state)
    if kind == "noconflict":
        return "no conflict"
    if kind == "session":
        return f"session {members.number('session')}"
    if kind == "databases":
        return listed("databases", members.take("databases", list), name_text)
    if kind == "sessions":
        return listed("sessions", members.objects("sessions"), session_text)
    if kind == "tables":
        return listed("tables", members.objects("tables"), table_text)
    if kind == "flag":
        is_on = members.take("flag", bool)
        return str(is_on).lower() if command.split()[0] == "isempty" else on_text(is_on)
    if kind == "refused":
        return refused_text(members)
    if kind == "savepoint":
        return f"savepoint {members.number('savepoint')}"
    version = members.number("version") if kind not in ("row", "rows") or not state.is_open else None
    if kind == "written":
        return f"ok version {version}"
    if kind in ("changeset", "patchset"):
        return f"{kind} {members.text(kind) or '-'}"
    if kind == "rows":
        return rows_text(members)
    if kind != "row":
        raise ValueError(f"no reply: {members.line}")
    return found_text(members)


def replies(workload, printed):
    """The text of each reply, and of the fault at which the run ended, if any."""
    lines, texts, state = printed.removesuffix("\n").split("\n"), [], State()
    for line, (number, worker, command) in zip(lines, commands_of(workload)):
        members = Members(line)
        if members.has("fault"):
            texts.append(members.text("fault"))
            break
        if members.number("line") != number:
            raise ValueError(f"not of line {number}: {line}")
        if members.has("worker") != (worker is not None) or worker not in (None, members.left[0][1]):
            raise ValueError(f"not of worker {worker}: {line}")
        members.left = members.left[worker is not None:]
        state.reach(command)
        texts.append(text_of(members, command, state))
        state.follow(command, texts[-1])
        if members.left:
            raise ValueError(f"more than the text has: {line}")
    if len(texts) != len(lines):
        raise ValueError(f"{len(lines)} lines for {len(texts)} replies")
    return texts


def as_text(workload, printed):
    """What `changecap run` prints where `changecap run --json` has printed that; where it cannot be, the reason."""
    if not printed:
        return b""
    try:
        return "".join(f"{text}\n" for text in replies(workload.decode(), printed.decode())).encode()
    except (KeyError, TypeError, ValueError) as fault:
        return f"no replies: {fault}".encode()
