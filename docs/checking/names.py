"""The names in backticks of a page, looked up in the sources."""
import fnmatch
import os
import re

from sources import OPTION

IDENTIFIER = re.compile(r"[A-Za-z_][\w-]*$")
PATH_WORDS = re.compile(r"[\w.+@*-]+(?:/[\w.+@*-]+)*/?$")
FILE = re.compile(r"\.(?:rt|antt|md|py|h|c|rs|txt|toml|so|a|pc|in|out|err|status|edit|cases|workloads?|long|lines|hex"
                  r"|blobs|words|calls|threads|any-order|svg|html|css|js|jsonl|bash)$")
# What a page in a crate's folder means of that crate.
OF_A_CRATE = re.compile(r"(?:src|specs|proofs|must-fail)(?:/|$)")
# A word that stands for any other in a path, as NAME in crates/NAME/src.
PLACEHOLDER = re.compile(r"\b[A-Z]{2,}|\b[A-Z]\b")
# The names among several words: those of one or two letters stand for others, and texts are between quotes.
IN_WORDS = re.compile(r"(?<![\w':.@/-])[A-Za-z_]\w{2,}(?:::\w+)*(?![\w'/-])")
# What may stand between two names of which both belong to what follows, or between two clauses.
JOINT = re.compile(r"(?:,|,? and|,? or|,? nor)? ?$")
OF_CLAUSE = re.compile(r"\b(no )?clauses? $")
OF_CRATE = re.compile(r",? (?:of|in) (?:module |crate )?$")

# What a block of code names: members of types; calls and constants for C, and crates; commands.
MEMBER = re.compile(r"\b([A-Z]\w*)(?:::<[^<>]*>)?::([A-Za-z_]\w*)")
OF_C = re.compile(r"\b(?:changecap_|CHANGECAP_|cap_)\w+")
COMMAND = re.compile(r"(?:^|[|;&]|\$ ) *((?:make|changecap) [^|;&#<>]*)")


def is_path(word):
    """Whether a word looks like a path, or like the ending of a file."""
    return bool(PATH_WORDS.match(word)) and ("/" in word or bool(FILE.search(word))) and not word.startswith("-")


def bare(word):
    """A name without what may stand around it: a call's parentheses, generics, a reference."""
    word = re.sub(r"<.*>|\(.*\)", "", word).replace("::::", "::")
    return word.lstrip("&").rstrip("!;,:").rstrip(".")


class Names:
    """What looks names up: the sources, and the words that stand in no source."""

    def __init__(self, sources, words):
        self.sources, self.words = sources, words
        self.all_ends = "\n".join(sources.ends)
        self.exact = {it for it in words.allowed if not re.search(r"[*?\[]", it)}
        patterns = [fnmatch.translate(it) for it in words.allowed if it not in self.exact]
        self.patterns = re.compile("|".join(patterns) or r"(?!)")

    def is_allowed(self, word):
        return word in self.exact or bool(self.patterns.match(word))

    def faults(self, page):
        """The line and the text of each fault of a page."""
        number = state = None
        for cell in page.cells:
            row = state if number == cell.line and cell.column in ("Clause", "Clauses") else None
            number, state = cell.line, Cell(self, page, row)
            for span in cell.spans:
                yield from ((cell.line, f"`{span.text}`: {why}") for why in state.look_up(span))
            yield from ((cell.line, f"`{it}`: say whose it is, as `{it}` of `CRATE`") for it in state.far)
        for block in page.blocks:
            for number, line in enumerate(block.lines, block.line):
                yield from ((number, why) for why in self.why_no_code(line, block.language))
        if not page.path.endswith(".md"):
            yield from self.faults_of_manual(page)

    def faults_of_manual(self, page):
        """Each option and command of the manual page that the program has not, and each that only the program has."""
        options = {"--help"}
        for number, line in page.prose:
            options |= set(OPTION.findall(line))
            for command in re.findall(r"(?:^|\| )changecap [^|<>]*", line):
                yield from ((number, why) for why in self.why_no_command(re.sub(r"[][{}]", "", command).strip("| ")))
            for option in OPTION.findall(line):
                if option not in self.sources.options["program"] | {"--help"}:
                    yield number, f"the program has no option {option}"
        yield from ((1, f"there is no word of the option {it}") for it in self.sources.options["program"] - options)

    def why_no_code(self, line, language):
        """Why there is not what a line of code names, if so."""
        if language in ("", "sh"):
            for command in COMMAND.findall(line.strip()):
                yield from self.why_no_command(command)
        for owner, member in MEMBER.findall(line):
            if owner in self.sources.members and member not in self.sources.members[owner]:
                yield f"{owner} has no {member}"
        for name in OF_C.findall(line):
            if not self.sources.is_name(name):
                yield f"there is no {name}"

    def is_path(self, page, word):
        """Whether there is a file or a folder of a path, or of a path with words that stand for others."""
        word = word.rstrip("/")
        near = os.path.normpath(f"{page.folder}/{word}") if page.folder else word
        ends = self.sources.ends
        if near in ends or self.is_allowed(word):
            return True
        if page.folder.startswith("crates/") and OF_A_CRATE.match(word) and not PLACEHOLDER.search(word):
            return False
        if word in ends:
            return True
        if word.startswith("."):
            return any(path.endswith(word) for path in self.sources.paths)
        built = re.match(r"(?:(.*?)/)?out(?:/|$)", word)
        if built:
            return built[1] is None or built[1] in ends
        if PLACEHOLDER.search(word) or "*" in word:
            some = re.sub(r"\\\*|[A-Z]{2,}|\b[A-Z]\b", r"[^/\n]+", re.escape(word))
            return bool(re.search(f"^{some}$", self.all_ends, re.M))
        return False

    def why_no_command(self, text):
        """Why a command line cannot be given, if so."""
        words = text.split() or [""]
        if words[0] == "make" or re.match(r"[A-Z]+=", words[0]):
            for word in words[words[0] == "make":]:
                name = word.split("=")[0]
                if name not in (self.sources.variables if "=" in word else self.sources.targets):
                    yield f"the Makefile has no {name}"
        own = self.sources.options["program"] | {"--help", "--version"}
        if words[0] == "changecap":
            if len(words) > 1 and words[1].isalpha() and words[1].islower() and words[1] not in self.sources.words:
                yield f"the program has no command {words[1]}"
        elif words[0] != "changecap>":
            own = own | self.sources.options["scripts"]
        for option in OPTION.findall(text):
            if option not in own and not self.is_allowed(option):
                yield f"there is no option {option}"

    def why_no_name(self, word, crate):
        """Why a name with or without what it belongs to is none, if so."""
        parts = re.split(r"::|\.", word)
        here = crate
        if parts[0] in self.sources.crates and len(parts) > 1:
            here, parts = parts[0], parts[1:]
        name = parts[-1]
        if len(parts) > 1 and parts[-2] in self.sources.members:
            if name not in self.sources.members[parts[-2]]:
                return f"{parts[-2]} has no {name}"
        elif len(parts) > 1 and not self.sources.is_name(parts[-2]):
            return f"there is no {parts[-2]}"
        if self.sources.is_name(name, here) or (here is None and name in self.sources.words):
            return None
        if name.endswith("_") and any(it.startswith(name) for it in self.sources.names):
            return None
        return f"{here} has no {name}" if here else f"there is no {name}"


class Cell:
    """What of a cell is known when a span of it is read."""

    def __init__(self, names, page, row):
        """A cell; in a column of clauses they are of the functions of the row before it."""
        self.names, self.page, self.sources = names, page, names.sources
        self.functions = row.functions if row else []  # those of the sentence
        self.before = []  # the names that a crate may follow
        self.far = []     # those that are of other crates than the page, and by which none was said
        self.near = self.sources.near(page.folder)
        self.in_clauses, self.is_open = bool(row), False
        self.crate, self.last = None, ""

    def look_up(self, span):
        """Why the span is false: none, one or more reasons."""
        text, is_joined = span.text, bool(JOINT.match(span.before))
        if re.search(r"[;.] |;$|: $", span.before):
            self.functions, self.is_open = [], False
        if re.search(r"\bsame\b", span.before):
            self.is_open = True
        if text in self.sources.crates:
            of_it = self.before if OF_CRATE.match(span.before) else []
            wrong = [self.names.why_no_name(it, text) for it in of_it]
            self.far = [it for it in self.far if it not in of_it]
            self.before, self.crate, self.in_clauses, self.last = [], None, False, text
            return [why for why in wrong if why]
        if self.last in self.sources.crates and span.before == ": ":
            self.crate = self.last
        elif not is_joined:
            self.crate = None
        begins = OF_CLAUSE.search(span.before)
        self.in_clauses = bool(begins) or (self.in_clauses and is_joined and not self.is_next_function(text))
        if begins and begins[1]:
            has = [it for it in self.functions if text in self.sources.clauses[it]]
            return [f"{it} has the clause" for it in has]
        if self.in_clauses:
            return self.look_up_clause(text)
        found = list(self.look_up_text(text)) or self.look_up_member(text, is_joined)
        self.note(text, is_joined, found)
        return found

    def look_up_member(self, name, is_joined):
        """Why a name that follows a member of a type is neither one nor a function of a crate, if so."""
        owner = self.last.rpartition("::")[0]
        if is_joined and owner in self.sources.members and re.match(r"[a-z]\w*$", name):
            self.last = f"{owner}::{name}"
            if name not in self.sources.members[owner] | self.sources.free:
                return [f"{owner} has no {name}"]
        return []

    def note(self, text, is_joined, found):
        """Keeps what later spans of the cell may refer to."""
        word = bare(text)
        is_name = IDENTIFIER.match(word.replace("::", "_")) and not found and not self.names.is_allowed(word)
        self.before = (self.before if is_joined else []) + [word] if is_name else []
        if not word.startswith("_") and not (is_joined and self.last.endswith(f"::{word}")):
            self.last = text
        if self.last in self.sources.clauses:
            self.functions.append(self.last)

    def is_next_function(self, text):
        """Whether a name behind clauses is a function that comes after them."""
        of = {it for name in self.functions for it in self.sources.clauses[name]}
        return "::" in text or (text not in of and text in self.sources.clauses)

    def look_up_clause(self, clause):
        """Why the functions before have no clause of this name, if so."""
        of = {it for name in self.functions for it in self.sources.clauses[name]}
        if self.functions and not self.is_open:
            return [] if clause in of else [f"no such clause is of {', '.join(self.functions)}"]
        return [] if any(clause in it for it in self.sources.clauses.values()) else ["there is no such clause"]

    def look_up_text(self, text):
        """Why there is not what the text names, if so."""
        names = self.names
        if names.is_allowed(text):
            return
        words = text.split()
        yield from names.why_no_command(text)
        if len(words) > 1:
            for word in IN_WORDS.findall(text) if words[0] not in ("make", "rt") else ():
                why = word.upper() != word and not names.is_allowed(word) and names.why_no_name(word, None)
                if why:
                    yield why
            for word in words:
                if is_path(word) and "/" in word and not names.is_path(self.page, word):
                    yield f"there is no file {word}"
            return
        if OPTION.match(text):
            return
        if is_path(text):
            if not names.is_path(self.page, text):
                yield "there is no such file"
            return
        word = bare(text)
        if word.startswith("_") and re.match(r"_[a-z]\w*$", word) and self.last:
            yield from self.look_up_ending(word)
        elif IDENTIFIER.match(word.replace("::", "_").replace(".", "_")) and not PLACEHOLDER.fullmatch(word):
            why = not names.is_allowed(word) and names.why_no_name(word, self.crate)
            if why:
                yield why
            elif self.near and not self.crate and not self.sources.names.get(word, self.near) & self.near:
                self.far.append(word)

    def look_up_ending(self, ending):
        """Why no name has the ending in place of that of the name before, if so."""
        parts = self.last.split("_")
        for end in range(len(parts), 0, -1):
            name = "_".join(parts[:end]) + ending
            if self.sources.is_name(name) or self.names.is_allowed(name):
                self.last = name
                return
        yield f"nothing has this ending in place of that of {self.last}"
