"""A workload's text, read into commands, and values and rows as the program prints them (docs/manual/formats.md).

Only workloads that the program accepts are read: a fault raises ValueError, without the program's words for it.
"""
import re
from dataclasses import dataclass

TOKEN = re.compile(r"x'((?:[0-9a-fA-F]{2})*)'|'((?:[^']|'')*)'|([A-Za-z_][A-Za-z0-9_]*)|(-?[0-9]+)|([(),;=])")
WORKER = re.compile(r" *@[0-9]+ ")


@dataclass
class Op:
    """One operation of a commit. `row` names the row of an update or a delete: ("key", values) or ("loose", id)."""

    action: str
    table: str
    is_cascade: bool
    row: tuple = None
    values: tuple = ()
    assigned: tuple = ()


@dataclass
class Command:
    """One line: its word, what follows it, and the line itself."""

    word: str
    arguments: tuple
    line: str


class Tokens:
    """The tokens of a line from a place on."""

    def __init__(self, line, at=0):
        self.line, self.at = line, at

    def is_done(self):
        return not self.line[self.at:].strip(" ")

    def next(self):
        """The next token as (kind, value), with the kinds blob, text, word, number and sign."""
        rest = self.line[self.at:]
        found = TOKEN.match(rest.lstrip(" "))
        if not found:
            raise ValueError(f"no token at {self.at}: {self.line}")
        self.at += len(rest) - len(rest.lstrip(" ")) + found.end()
        blob, text, word, number, sign = found.groups()
        if blob is not None:
            return "blob", bytes.fromhex(blob)
        if text is not None:
            return "text", text.replace("''", "'")
        if word is not None:
            return "word", word
        return ("number", int(number)) if number is not None else ("sign", sign)

    def peek(self):
        at = self.at
        token = (None, None) if self.is_done() else self.next()
        self.at = at
        return token

    def take(self, kind, *values):
        found = self.next()
        if found[0] != kind or (values and found[1] not in values):
            raise ValueError(f"{found[1]!r} does not fit: {self.line}")
        return found[1]

    def word(self, *values):
        return self.take("word", *values)

    def number(self):
        return self.take("number")

    def sign(self, value):
        return self.take("sign", value)

    def has_sign(self, value):
        """Takes the sign where it is next."""
        is_next = self.peek() == ("sign", value)
        if is_next:
            self.next()
        return is_next


def read(text):
    """The commands of a workload, in order."""
    lines = (line for line in text.split("\n") if line.strip(" ") and not line.startswith("#"))
    return [command_of(line) for line in lines]


def is_known(text):
    """Whether each command has a form here, and between the lines of a transaction only what SQLite's one connection
    answers there as well: what reads the transaction, and whether a session is empty."""
    try:
        commands = read(text)
    except (KeyError, ValueError):
        return False
    is_open = False
    for command in commands:
        if is_open and command.word not in BETWEEN:
            return False
        is_open = (is_open or command.word == "begin") and command.line.strip() not in ("rollback", "end")
    return True


def command_of(line):
    found = WORKER.match(line)
    tokens = Tokens(line, found.end() if found else 0)
    word = tokens.word()
    if word == "filter":
        return Command(word, (tokens.number(), line[tokens.at:]), line)
    if word in ("insert", "update", "delete", "cascade"):
        word, tokens = "op", Tokens(line, found.end() if found else 0)
    command = Command(word, tuple(FORMS[word](tokens)), line)
    if not tokens.is_done():
        raise ValueError(f"more than a command: {line}")
    return command


def value_of(tokens):
    kind, value = tokens.next()
    if (kind, value) == ("word", "null"):
        return None
    if kind not in ("number", "text", "blob"):
        raise ValueError(f"{value!r} is no value: {tokens.line}")
    return value


def values_of(tokens):
    tokens.sign("(")
    values = [value_of(tokens)]
    while tokens.has_sign(","):
        values.append(value_of(tokens))
    tokens.sign(")")
    return tuple(values)


def row_of(tokens):
    """A row's name. A key with a NULL names no row."""
    if tokens.word("key", "loose") == "loose":
        return "loose", tokens.number()
    values = values_of(tokens)
    return ("loose", 0) if None in values else ("key", values)


def assignment_of(tokens):
    column = tokens.number()
    tokens.sign("=")
    return column, value_of(tokens)


def op_of(tokens):
    word = tokens.word()
    is_cascade = word == "cascade"
    action = tokens.word() if is_cascade else word
    table = tokens.word()
    if action == "insert":
        return Op(action, table, is_cascade, values=values_of(tokens))
    row = row_of(tokens)
    if action == "delete":
        return Op(action, table, is_cascade, row)
    tokens.word("set")
    assigned = [assignment_of(tokens)]
    while tokens.has_sign(","):
        assigned.append(assignment_of(tokens))
    return Op(action, table, is_cascade, row, assigned=tuple(assigned))


def ops_of(tokens):
    ops = [op_of(tokens)]
    while tokens.has_sign(";"):
        ops.append(op_of(tokens))
    return ops


def has_places(tokens):
    return not tokens.is_done() and tokens.word("places") == "places"


def capture_of(tokens):
    return tokens.number(), has_places(tokens)


def mark_of(tokens):
    """The number of the savepoint that a rollback goes back to, where it does."""
    return (None,) if tokens.is_done() else (tokens.word("to") and tokens.number(),)


def application_of(tokens):
    """A blob, three answers, what is printed beside the counts, and the text of a filter, which ends the line."""
    blob, answers = tokens.take("blob"), [tokens.word("omit", "replace", "abort") for _ in range(3)]
    more = tokens.word("report", "buffer") if tokens.peek()[1] in ("report", "buffer") else None
    return blob, *answers, more, None if tokens.is_done() else filter_text_of(tokens)


def filter_text_of(tokens):
    tokens.word("filter")
    text, tokens.at = tokens.line[tokens.at:], len(tokens.line)
    return text


def quiet_application_of(tokens):
    quiet = [tokens.number()]
    while tokens.has_sign(","):
        quiet.append(tokens.number())
    return quiet, *application_of(tokens)


# What a line may be between those of a transaction.
BETWEEN = ("begin", "op", "savepoint", "rollback", "end", "get", "scan", "isempty")
FORMS = {
    "begin": lambda tokens: (),
    "op": lambda tokens: (op_of(tokens),),
    "savepoint": lambda tokens: (),
    "rollback": mark_of,
    "end": lambda tokens: (),
    "create": lambda tokens: (tokens.word(), tokens.word()),
    "commit": lambda tokens: (None, ops_of(tokens)),
    "commitat": lambda tokens: (tokens.number(), ops_of(tokens)),
    "apply": application_of,
    "applyquiet": quiet_application_of,
    "get": lambda tokens: (tokens.word(), row_of(tokens)),
    "scan": lambda tokens: (tokens.word(),),
    "save": lambda tokens: (tokens.word(),),
    "dropdatabase": lambda tokens: (tokens.word(),),
    "databases": lambda tokens: (),
    "tables": lambda tokens: (),
    "dump": lambda tokens: (has_places(tokens),),
    "sessions": lambda tokens: (),
    "session": lambda tokens: (),
    "drop": lambda tokens: (tokens.number(),),
    "attach": lambda tokens: (tokens.number(), tokens.word()),
    "attachall": lambda tokens: (tokens.number(),),
    "enable": lambda tokens: (tokens.number(), tokens.word("on", "off", "ask")),
    "indirect": lambda tokens: (tokens.number(), tokens.word("on", "off", "ask")),
    "isempty": lambda tokens: (tokens.number(),),
    "diff": lambda tokens: (tokens.number(), tokens.word(), tokens.word()),
    "changeset": capture_of,
    "patchset": capture_of,
    "restart": capture_of,
}


def value_text(value):
    """A value as the program prints it, and as a workload spells it."""
    if value is None:
        return "null"
    if isinstance(value, int):
        return str(value)
    if isinstance(value, bytes):
        return f"x'{value.hex()}'"
    return "'" + value.replace("'", "''") + "'"


def row_text(values):
    return "(" + ",".join(map(value_text, values)) + ")"


def fields_text(fields, width):
    """A record as `changecap show` prints it: `fields` has the values that are defined, by their columns."""
    return "(" + ",".join(value_text(fields[column]) if column in fields else "-" for column in range(width)) + ")"
