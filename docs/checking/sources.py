"""What the sources name: the index in which the names of pages are looked up."""
import os
import re

from pages import references_in

PASSED_OVER = {"out", ".git", "target", "__pycache__", "incremental"}
ITEM = re.compile(r" *(?:pub(?:\([a-z]+\))? )?(?:default |const |unsafe |async |extern \"C\" )*"
                  r"(fn|struct|enum|trait|type|const|static|mod|union) (?:mut )?([A-Za-z_]\w*)")
FIELD = re.compile(r"    (?:    )?(?:pub(?:\([a-z]+\))? )?([a-z_]\w*): ")
VARIANT = re.compile(r"    ([A-Z]\w*)\b")
CLAUSE = re.compile(r"\b(?:ensures|requires) ([a-z_]\w*) \{")
GHOST = re.compile(r"\bghosts?(?: |-)([A-Za-z_]\w*)")
WORD = re.compile(r"\"([A-Za-z][A-Za-z_-]*)\"")
DECLARED = re.compile(r"^ *(?:\| )?(?:pub |abbrev |opaque |private |instance |record |data |module |type )*"
                      r"([^\s:(){}\[\],.;λ∷+|]+)(?= .*[:=↦]| where|$)", re.M)
EVALUATED = re.compile(r"const ([A-Z][A-Z_0-9]*): [a-z0-9]+ = ([0-9A-Z_ ()+*<-]+);")
OPTION = re.compile(r"(?<![\w-])--[a-z][a-z-]*")
# How the names of scripts end.
SCRIPT_ENDINGS = ("", ".py")


def files_below(root):
    """The path of each file below a folder, without what is built."""
    for folder, folders, names in os.walk(root):
        folders[:] = sorted(set(folders) - PASSED_OVER)
        for name in names:
            yield os.path.relpath(f"{folder}/{name}", root)


def text_of(root, path):
    with open(f"{root}/{path}", encoding="utf-8", errors="replace") as file:
        return file.read()


def without_generics(text):
    """A line of code without what stands between angle brackets."""
    text, shorter = text.replace("->", ""), None
    while text != shorter:
        shorter, text = text, re.sub(r"<[^<>]*>", "", text)
    return text


def type_of(line):
    """The type, or trait, whose body a line at the margin begins, and of which kind that is, if any."""
    if line.startswith(("impl", "unsafe impl")):
        plain = without_generics(line).split(" where")[0].split("{")[0]
        words = re.findall(r"[A-Za-z_]\w*", plain.split(" for ")[-1].rpartition("::")[2])
        return (words[-1], "impl") if words and words[-1] != "impl" else (None, None)
    found = ITEM.match(line)
    return (found[2], found[1]) if found and found[1] in ("struct", "enum", "trait", "union") else (None, None)


class Sources:
    """Names of items, of the members of types and of clauses, paths, targets, options and constants."""

    def __init__(self, root):
        self.root = root
        self.names = {}      # of each name the crates that have it; "" is what belongs to no crate
        self.members = {}    # of each type its methods, variants and fields
        self.clauses = {}    # of each function, alone and behind its type, the names of its clauses
        self.tests = set()
        self.free = set()    # functions that are in no type
        self.constants = {}  # of each crate and constant its text
        self.options = {"program": set(), "scripts": set()}
        self.targets, self.variables, self.words = set(), set(), set()
        self.references = {}  # of each source the pages that it names
        self.paths = set(files_below(root))
        self.ends = {}       # of each end of a path, with or without its ending, the paths that end so
        for path in sorted(self.paths):
            self.read(path)
            self.add_path(path)
        crates = re.sub(r"#.*", "", text_of(root, "crates.txt"))
        self.below = {name: set(of.split()) for name, of in re.findall(r"^(\w+)[^\n:]*:(.*)", crates, re.M)}
        self.crates = set(self.below)
        for name in re.findall(r"\w+", crates):  # the crates of the toolchain too
            self.add(name, "")

    def add(self, name, crate):
        self.names.setdefault(name, set()).add(crate)

    def add_path(self, path):
        """Notes a file, and the folders that it is in, by each end of their paths."""
        parts = path.split("/")
        for end in range(1, len(parts) + 1):
            whole = "/".join(parts[:end])
            for begin in range(end):
                it = "/".join(parts[begin:end])
                self.ends.setdefault(it, set()).add(whole)
                if end == len(parts):
                    self.ends.setdefault(os.path.splitext(it)[0], set()).add(path)

    def read(self, path):
        """Notes what a file names."""
        crate = path.split("/")[1] if path.startswith(("crates/", "wrong-bodies/cap_")) else ""
        stem, ending = os.path.splitext(path)
        if ending in (".edit", ".rt", ".rs", ".antt", ".workload", ".long", ".lines", ".hex"):
            self.add(os.path.basename(stem), crate)
        if ending not in (".rt", ".rs", ".antt", ".h", ".c", *SCRIPT_ENDINGS):
            return
        text = text_of(self.root, path)
        if ".md" in text and not path.startswith("docs/checking/"):
            lines = enumerate(text.split("\n"), 1)
            self.references[path] = [it for number, line in lines for it in references_in(number, line)]
        if ending in (".rt", ".rs"):
            self.read_code(text, crate)
        elif ending == ".antt":
            self.read_definitions(text, crate)
        elif ending in (".h", ".c"):
            for name in re.findall(r"[A-Za-z_]\w*", text):
                self.add(name, "")
        elif path == "Makefile":
            self.targets |= {it for line in re.findall(r"^([a-z][a-z -]*):", text, re.M) for it in line.split()}
            self.variables |= set(re.findall(r"^([A-Z]+) =", text, re.M))
        elif ending in SCRIPT_ENDINGS:
            self.read_script(text)
            if path.startswith(("bindings/python/src/", "followers/src/")):
                self.read_classes(text)

    def read_script(self, text):
        """Notes the options, functions and classes of a script."""
        if not text.startswith(("#!", '"""')) and "import " not in text:
            return
        self.options["scripts"] |= set(OPTION.findall(text))
        self.words |= set(WORD.findall(text))
        for name in re.findall(r"^ *(?:def|class) (\w+)|^([A-Z][A-Z_]*)\b.* = ", text, re.M):
            self.add("".join(name), "")

    def read_classes(self, text):
        """Notes the methods of the classes of the packages for Python."""
        within = None
        for indent, kind, name in re.findall(r"^( {4})?(def|class) (\w+)", text, re.M):
            if not indent:
                within = name if kind == "class" else None
            elif within:
                self.add_member(within, name, "")

    def read_code(self, text, crate):
        """Notes the items of a file, the members of its types, its clauses, tests and constants."""
        within = kind = function = None
        is_test = False
        for line in text.split("\n"):
            if line[:1].isalpha():
                within, kind = type_of(line)
            item = ITEM.match(line)
            if item:
                function = self.add_item(item, within, crate, is_test)
                is_test = False
            elif kind in ("struct", "enum"):
                found = FIELD.match(line) or VARIANT.match(line)
                if found:
                    self.add_member(within, found[1], crate)
            is_test = is_test or "#[test]" in line
            for clause in CLAUSE.findall(line) if " {" in line else ():
                self.add(clause, crate)
                for name in function or ():
                    self.clauses.setdefault(name, set()).add(clause)
        for name in GHOST.findall(text):
            self.add(name, crate)
        for name, value in EVALUATED.findall(text):
            self.constants.setdefault((crate, name), value)
        self.words |= set(WORD.findall(text))
        if crate == "cap_command_line":
            self.options["program"] |= {f"--{it}" for it in re.findall(r"(?:long\(|flag\(alloc, )\"([a-z-]+)\"", text)}

    def add_item(self, item, within, crate, is_test):
        """Notes an item, and answers the names by which a function has its clauses."""
        kind, name = item[1], item[2]
        self.add(name, crate)
        if is_test:
            self.tests.add(name)
        is_member = within and item[0].startswith("    ")
        if is_member:
            self.add_member(within, name, crate)
        if kind != "fn":
            return None
        if not is_member:
            self.free.add(name)
        names = {name, f"{within}::{name}" if is_member else f"{crate}::{name}"}
        for it in names:
            self.clauses.setdefault(it, set())
        return names

    def add_member(self, within, name, crate):
        self.add(name, crate)
        self.members.setdefault(within, set()).add(name)

    def read_definitions(self, text, crate):
        """Notes what a file of definitions or lemmas declares."""
        for name in set(DECLARED.findall(text)):
            self.add(name, crate)

    def is_name(self, name, crate=None):
        """Whether the sources, or those of a crate, have a name."""
        return name in self.names and (crate is None or crate in self.names[name])

    def near(self, folder):
        """The crates whose names a page in a folder may have without saying whose they are; None where it is any."""
        crate = folder.split("/")[1] if folder.startswith("crates/") else None
        if crate not in self.crates:
            return None
        tests = {it for it, below in self.below.items() if it.startswith("cap_test_") and crate in below}
        return {"", crate} | self.below[crate] | tests

    def value(self, crate, name):
        """The number that a constant is."""
        text = self.constants.get((crate, name))
        if text is None:
            others = [key for key in self.constants if key[1] == name]
            if len(others) != 1:
                raise KeyError(f"{crate}:{name}")
            return self.value(*others[0])
        text = re.sub(r"[A-Z][A-Z_0-9]*", lambda it: str(self.value(crate, it[0])), text)
        return eval(text.replace("_", ""), {"__builtins__": {}})  # of digits and signs alone
