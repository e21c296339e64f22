"""The examples of pages, run: commands with what they print, and workloads with their replies.

In a block ```console each line that begins with '$ ' is a command, which goes on behind a line that ends with a
backslash; the lines up to the next command are what it prints, on standard output and standard error. A block
```workload is the standard input of `changecap run`, and the block ```replies after it is what that prints; without
one it is only run to its end, with status 0. So are the commands of the manual page between .nf and .fi, but for those
that read a file of a name that stands for others.
"""
import os
import re
import subprocess
import tempfile
from typing import NamedTuple

from pages import unquoted

SECONDS = 60


class Example(NamedTuple):
    """A command of a page, its standard input, and what it prints, where the page says so."""
    line: int
    command: str
    given: str
    printed: str


def examples_of(page):
    """The examples of a page, in order."""
    for found in re.finditer(r"^\.nf\n(.*?)^\.fi", page.text, re.M | re.S) if not page.path.endswith(".md") else ():
        begun = page.text[:found.start(1)].count("\n") + 1
        for number, line in enumerate(unquoted(found[1]).splitlines(), begun):
            if not re.search(r"< [A-Z]+\b", line):
                yield Example(number, line, "", None)
    for at, block in enumerate(page.blocks):
        if block.language == "console":
            yield from commands_of(block)
        elif block.language == "workload":
            after = page.blocks[at + 1] if at + 1 < len(page.blocks) else block
            printed = "\n".join(after.lines) if after.language == "replies" else None
            yield Example(block.line, "changecap run", "\n".join(block.lines) + "\n", printed)


def commands_of(block):
    """The commands of a block, each with the lines up to the next one."""
    begun, command, printed = 0, None, []
    for number, line in enumerate(block.lines, block.line):
        if line.startswith("$ "):
            if command is not None:
                yield Example(begun, command, "", "\n".join(printed))
            begun, command, printed = number, line[2:], []
        elif command is not None and command.endswith("\\") and not printed:
            command += "\n" + line
        else:
            printed.append(line)
    if command is not None:
        yield Example(begun, command, "", "\n".join(printed))


class Shell:
    """A folder with links to all that the repository has at its top, and the program on the path as changecap.

    What the commands of a page write is there for its later ones, and goes with the folder.
    """

    def __init__(self, root, program):
        self.room = tempfile.TemporaryDirectory(prefix="pages-")
        self.folder = f"{self.room.name}/top"
        os.mkdir(self.folder)
        os.mkdir(f"{self.room.name}/path")
        os.symlink(os.path.abspath(program), f"{self.room.name}/path/changecap")
        for name in os.listdir(root):
            os.symlink(f"{root}/{name}", f"{self.folder}/{name}")
        self.environment = {**os.environ, "PATH": f"{self.room.name}/path:{os.environ['PATH']}", "LC_ALL": "C.UTF-8"}

    def printed(self, example):
        """What the command of an example prints, and its status."""
        ran = subprocess.run(["sh", "-c", example.command], input=example.given, cwd=self.folder, check=False,
                             env=self.environment, stdout=subprocess.PIPE, stderr=subprocess.STDOUT, text=True,
                             errors="replace", timeout=SECONDS)
        return ran.stdout, ran.returncode

    def fault(self, example):
        """How what a page says of an example differs from what it prints, if so."""
        try:
            printed, status = self.printed(example)
        except subprocess.TimeoutExpired:
            return f"no end after {SECONDS} seconds"
        if example.printed is None:
            return f"`{example.command}` ends with status {status}: {printed!r}"[:400] if status else None
        now, wanted = ([line.rstrip() for line in text.strip("\n").split("\n")] for text in (printed, example.printed))
        for is_now, should in zip(now + ["nothing"], wanted + ["nothing"]):
            if is_now != should:
                return f"`{example.command.splitlines()[0]}` prints '{is_now}' where the page has '{should}'"[:400]
        return None
