"""A page: its text, its titles, its blocks, and the cells in which its names stand."""
import os
import re
from typing import NamedTuple

SPAN = re.compile(r"(?<!`)(`+)(?!`)(.+?)(?<!`)\1(?!`)")
LINK = re.compile(r"\[(?:[^\[\]`]|`[^`]*`)*\]\(([^()\s]+)\)")
NAMED_LINK = re.compile(r"^ {0,3}\[[^\[\]]+\]: (\S+)")
BAR = re.compile(r"(?<!\\)\|(?=(?:[^`]*`[^`]*`)*[^`]*$)")
FROM = re.compile(r"^ *<!-- from (\S+) -->$")
FENCE = re.compile(r"( *)(```+|~~~+) *(\w*)")
ITEM = re.compile(r" *(?:[-*] |\d+\. )")
TITLE = re.compile(r"(#+) +(.*?) *#*$")
BOLD = re.compile(r"\*\*(.+?)\.?\*\*")
REFERENCE = re.compile(r"(?<![\w./${}-])(?:\.\./)*([\w-][\w./-]*\.md)\b\)?(?:,? \(?\"([^\"]+)\")?")


class Span(NamedTuple):
    """What stands between backticks, with the text before it in its cell."""
    text: str
    before: str


class Cell(NamedTuple):
    """A paragraph, an item of a list or a cell of a table: its line, its text, its spans and its column's title."""
    line: int
    text: str
    spans: list
    column: str


class Block(NamedTuple):
    """A block of code: the line behind its fence, its language, its lines, and the file that it is from, if any."""
    line: int
    language: str
    lines: list
    source: str


def plain(text):
    """A text without marks, and with one space wherever there is space."""
    return re.sub(r"\s+", " ", re.sub(r"[`*]", "", text)).strip()


def anchor(title):
    """The anchor by which a link leads to a title."""
    return re.sub(r"[^\w\- ]", "", plain(re.sub(r"\[(.*?)\]\(.*?\)", r"\1", title)).lower()).replace(" ", "-")


def unquoted(text):
    """The text of a page of the manual for the terminal, without its marks, a paragraph a line."""
    lines = []
    for line in text.split("\n"):
        line = re.sub(r"^\.[A-Z][A-Za-z]* ?", "", line).replace("\\-", "-").replace("\\e", "\\")
        lines.append(line.strip('"'))
    return "\n".join(lines)


def references_in(number, line):
    """The number of a line, and the file and the title of each page that it names."""
    return [(number, file, title) for file, title in REFERENCE.findall(line)]


class Page:
    """A page that was read."""

    def __init__(self, path, text):
        self.path, self.text = path, text
        self.folder = os.path.dirname(path)
        self.cells, self.blocks, self.columns = [], [], []
        self.prose = []  # number and text of each line outside blocks
        self.titles, self.marked = [], []  # the titles, and what is in bold
        if path.endswith(".md"):
            self.split(text.split("\n"))
        else:
            self.prose = list(enumerate(unquoted(text).split("\n"), 1))
        self.plain = plain(" ".join(line for _, line in self.prose))

    def split(self, lines):
        """Tells the blocks from the prose, and the prose into cells."""
        fence, begun, kept, source, gathered, in_list = None, 0, [], "", [], False
        for number, line in enumerate(lines, 1):
            mark = FENCE.match(line)
            if fence:
                if mark and mark[2] == fence[2]:
                    self.blocks.append(Block(begun, fence[3], kept, source))
                    fence = None
                else:
                    kept.append(line[len(fence[1]):] if line.startswith(fence[1]) else line.lstrip())
                continue
            if mark:
                fence, begun, kept = mark, number + 1, []
                source = "".join(FROM.findall(lines[number - 2]))
                self.gather(gathered)
                continue
            is_item = bool(ITEM.match(line))
            in_list = is_item or (in_list and (line.startswith(" ") or not line.strip()))
            is_indented = line.startswith("    ") and not gathered and not in_list
            if is_indented:
                self.blocks.append(Block(number, "", [line], ""))
            if not line.strip() or is_indented or is_item or line.lstrip().startswith(("|", "#")):
                self.gather(gathered)
            if line.strip() and not is_indented:
                gathered.append((number, line))
            elif not line.strip():
                self.columns = []
        self.gather(gathered)

    def gather(self, gathered):
        """Makes cells of lines that belong together."""
        if not gathered:
            return
        number, text = gathered[0][0], " ".join(line.strip() for _, line in gathered)
        self.prose.extend(gathered)
        gathered.clear()
        title = TITLE.match(text)
        if title:
            self.titles.append(title[2])
        self.marked.extend(BOLD.findall(text))
        parts = BAR.split(text) if text.startswith("|") else [text]
        self.columns = self.columns or [plain(it) for it in parts]
        for part, column in zip(parts, self.columns + [""] * len(parts)):
            spans, end = [], 0
            for found in SPAN.finditer(part):
                spans.append(Span(found[2].strip(), part[end:found.start()]))
                end = found.end()
            self.cells.append(Cell(number, part, spans, column if len(parts) > 1 else ""))

    def line_of(self, pattern):
        """The first line that has what a pattern finds, else the first line of all."""
        return next((number for number, line in self.prose if pattern.search(plain(line))), 1)

    def anchors(self):
        """The anchors of the titles, each with a number where it is not the first of its text."""
        found, seen = set(), {}
        for it in map(anchor, self.titles):
            found.add(f"{it}-{seen[it]}" if it in seen else it)
            seen[it] = seen.get(it, 0) + 1
        return found

    def has_title(self, title):
        """Whether there is a title, or a text in bold, of these words."""
        return any(plain(it).lower() == plain(title).lower() for it in self.titles + self.marked)

    def links(self):
        """The line and the target of each link outside blocks."""
        for number, line in self.prose:
            for target in LINK.findall(re.sub(r"(?<!\])`[^`]*`(?!\])", "", line)) + NAMED_LINK.findall(line):
                yield number, target

    def references(self):
        """The line, the file and, where it is given, the title of each page that the prose names."""
        for number, line in self.prose:
            yield from references_in(number, re.sub(r"\]\([^()\s]+\)", "]", line).replace("`", ""))
