"""Table filters: a filter's text as a function from a table's name to a truth value (docs/manual/formats.md)."""
import re

TOKEN = re.compile(r"([A-Za-z0-9_]+)|'((?:[^']|'')*)'|([(),])")
LEAVES = {
    "is": lambda wanted: lambda name: name == wanted,
    "starts": lambda wanted: lambda name: name.startswith(wanted),
    "ends": lambda wanted: lambda name: name.endswith(wanted),
}


def filter_of(text):
    """The filter that the text spells."""
    tokens = tokens_of(text)
    accepts = node(tokens)
    if tokens:
        raise ValueError(f"more than a filter: {text}")
    return accepts


def tokens_of(text):
    """The tokens as (word, quoted, sign), of which one is not None, the last one first."""
    tokens, rest = [], text.strip(" ")
    while rest:
        found = TOKEN.match(rest)
        if not found:
            raise ValueError(f"no token of a filter: {rest}")
        tokens.append(found.groups())
        rest = rest[found.end():].lstrip(" ")
    return tokens[::-1]


def node(tokens):
    """The filter that the tokens begin with, which are taken."""
    word = tokens.pop()[0]
    if word in ("all", "nothing"):
        return lambda name: word == "all"
    if word in LEAVES:
        name, quoted, _ = tokens.pop()
        return LEAVES[word](name if quoted is None else quoted.replace("''", "'"))
    if word == "not":
        inner = node(tokens)
        return lambda name: not inner(name)
    parts = parts_of(tokens)
    if word == "and":
        return lambda name: all(accepts(name) for accepts in parts)
    if word == "or":
        return lambda name: any(accepts(name) for accepts in parts)
    raise ValueError(f"{word} begins no filter")


def parts_of(tokens):
    """The filters between parentheses."""
    take_sign(tokens, "(")
    parts = []
    while tokens[-1][2] != ")":
        if parts:
            take_sign(tokens, ",")
        parts.append(node(tokens))
    take_sign(tokens, ")")
    return parts


def take_sign(tokens, sign):
    """Takes a parenthesis or a comma."""
    if tokens.pop()[2] != sign:
        raise ValueError(f"no {sign} in a filter")
