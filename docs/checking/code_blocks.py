"""Blocks of code that stand in a file, which is compiled and run: the line before such a block is <!-- from PATH -->.
Each block of a language of LANGUAGES has such a line.

All but space and comments is compared. Behind a line that ends with '..' the file may go on elsewhere, further down.
"""
import re

LANGUAGES = "c", "python", "rust"
COMMENT = re.compile(r"//.*|/\*.*?\*/|(?:^|(?<=\s))# .*", re.M)


def squeezed(text):
    """A text without comments and space."""
    return re.sub(r"\s+", "", COMMENT.sub("", text))


def parts_of(block):
    """The parts of a block, each with the number of its first line."""
    begun, lines = block.line, []
    for number, line in enumerate(block.lines, block.line):
        lines.append(re.sub(r"\s*\.\.\s*$", "", line))
        if line.rstrip().endswith(".."):
            yield begun, "\n".join(lines)
            begun, lines = number + 1, []
    if squeezed("\n".join(lines)):
        yield begun, "\n".join(lines)


def faults_of_code(page, sources, text_of):
    """The line and the text of each block of a page that its file has otherwise."""
    for block in page.blocks:
        if not block.source:
            if block.language in LANGUAGES:
                yield block.line, "say which file has the lines: <!-- from PATH -->"
            continue
        if block.source not in sources.paths:
            yield block.line, f"there is no file {block.source}"
            continue
        text, at = squeezed(text_of(sources.root, block.source)), 0
        for number, part in parts_of(block):
            at = text.find(squeezed(part), at)
            if at < 0:
                yield number, f"{block.source} has not the lines from here on, or not in this order"
                break
