"""Errors that are planted in the pages, one at a time, and what finds each.

An error is planted in the first page that has a place for it, in memory. A page is read again with it, and one of the
faults that are new has to say what is wrong.
"""
import re

import manual_pages
from limits import spelled
from names import is_path
from pages import SPAN, Page
from sources import text_of

CLAUSE = re.compile(r"(`(\w+::\w+)`, clause `)\w+(?=`)")
OF_CRATE = re.compile(r"(`(\w+)` of `)cap_\w+(?=`)")
LINK = re.compile(r"(\]\([^()#\s:]+)(?=\))")
TITLE = re.compile(r"(\w\.md\)?,? \(?\"[^\"]+)(?=\")")
MENTION = re.compile(r"(?<![\w/.(])([A-Z]+)(?=\.md)")


def span(is_one, change):
    """Plants in the first name in backticks that is one: what comes of its change is in its place."""
    def plant(check, text):
        for found in SPAN.finditer(text):
            if "\n" not in found[0] and is_one(check, found[2]):
                return text[:found.start(2)] + change(found[2]) + text[found.end(2):]
        return None
    return plant


def behind(pattern, more):
    """Plants a text behind the first place that a pattern finds."""
    def plant(_, text):
        found = pattern.search(text)
        return found and text[:found.end()] + more + text[found.end():]
    return plant


def without_file(_, text):
    """Plants a block of code that is not said to be from a file."""
    return re.sub(r"^<!-- from .*\n(?=```)", "", text, count=1, flags=re.M) if "\n<!-- from " in text else None


def wrong_clause(check, text):
    """Plants the name of a clause that the function has not, though another has it."""
    found = CLAUSE.search(text)
    own = found and check.sources.clauses.get(found[2])
    if not own:
        return None
    other = min({it for has in check.sources.clauses.values() for it in has} - own)
    return text[:found.start()] + re.sub(CLAUSE, rf"\g<1>{other}", text[found.start():], count=1)


def wrong_crate(check, text):
    """Plants a crate that has not what is said to be of it."""
    for found in OF_CRATE.finditer(text):
        others = sorted(check.sources.crates - check.sources.names.get(found[2], check.sources.crates))
        if others:
            return text[:found.start()] + f"{found[1]}{others[0]}" + text[found.end():]
    return None


def wrong_limit(check, text):
    """Plants a limit that is one more than the constant."""
    for _, pattern, values in check.limits.phrases:
        found = pattern.search(text)
        if found:
            return text[:found.start(1)] + spelled(values[0] + 1) + text[found.end(1):]
    return None


def changed_line(language):
    """Plants a letter at the end of the last line of the first block of a language."""
    return behind(re.compile(rf"^```{language}\n(?:(?!```).*\n)*(?!```).+", re.M), "x")


def member_of_block(check, text):
    """Plants a member that a type has not in a block of code."""
    for block in re.finditer(r"^```rust\n(.*?)^```", text, re.M | re.S):
        for found in re.finditer(r"\b([A-Z]\w*)::(\w+)", block[1]):
            if found[1] in check.sources.members:
                at = block.start(1) + found.end()
                return text[:at] + "_anew" + text[at:]
    return None


def is_of(kind):
    """Whether a name in backticks is one of a kind that the sources have."""
    def is_one(check, name):
        sources = check.sources
        if kind == "test":
            return name in sources.tests
        if kind == "function":
            return "::" in name and name in sources.clauses
        if kind == "type":
            return name in sources.members
        if kind == "constant":
            return any(name == it for _, it in sources.constants)
        if kind == "for C":
            return name.startswith("changecap_") and sources.is_name(name)
        paths = sources.ends.get(name, ())
        if kind == "definitions":
            return is_path(name) and any(it.endswith(".antt") for it in paths)
        if kind == "edit":
            return any(it.endswith(f"/{name}.edit") for it in sources.paths) and not name.count("/")
        if kind == "example":
            return any(it.startswith("examples/") and name.count("/") for it in paths)
        return is_path(name) and name.count("/") and any(it.endswith(f"/{name}") for it in sources.paths)
    return is_one


def begins(word):
    return lambda check, text: text.startswith(word)


def has_option(check, text):
    return text.startswith("changecap") and any(it in check.sources.options["program"] for it in text.split())


# What is planted, how, and what a fault has to say of it.
PLANTS = [
    ("a renamed test", span(is_of("test"), lambda it: f"{it}_again"), "there is no|has no"),
    ("a renamed function", span(is_of("function"), lambda it: f"{it}_anew"), "has no"),
    ("a renamed type", span(is_of("type"), lambda it: f"{it}Anew"), "there is no"),
    ("a renamed wrong body", span(is_of("edit"), lambda it: f"{it}_again"), "there is no|has no"),
    ("a renamed call for C", span(is_of("for C"), lambda it: f"{it}_anew"), "there is no"),
    ("a clause of another function", wrong_clause, "no such clause is of"),
    ("a name said to be of another crate", wrong_crate, "has no"),
    ("a member that a type in a block has not", member_of_block, "has no .*_anew"),
    ("a block that its file has otherwise", behind(re.compile(r"^<!-- from .*\n```.*\n.*[\w;{]", re.M), "x"),
     "has not the lines"),
    ("a block that no file is said to have", without_file, "say which file has the lines"),
    ("a wrong limit", wrong_limit, "the limit is"),
    ("a file that moved", span(is_of("file"), lambda it: re.sub(r"([^/]+)$", r"moved/\1", it)), "no such file"),
    ("definitions that moved", span(is_of("definitions"), lambda it: re.sub(r"(\.antt)?$", "Anew\\1", it, count=1)),
     "no such file"),
    ("a renamed example", span(is_of("example"), lambda it: f"{it}-again"), "no such file"),
    ("a target of make that is gone", span(begins("make "), lambda it: f"make no-{it[5:]}"), "Makefile has no"),
    ("an option that is gone", span(has_option, lambda it: re.sub(r"--([\w-]+)", r"--\1-anew", it)), "no option"),
    ("a command of the program that is gone", span(begins("changecap s"), lambda it: f"changecap re{it[10:]}"),
     "no command"),
    ("a broken link", behind(re.compile(r"\]\((?=[^()#\s:]+\.md)"), "moved/"), "leads to no file"),
    ("a broken anchor", behind(LINK, "#no-such-title"), "leads to no title"),
    ("a page that is not there", behind(MENTION, "ANEW"), "there is no page"),
    ("a title that is not there", behind(TITLE, " anew"), "has no title"),
    ("a word that is not to be used", behind(re.compile(r"^[A-Za-z].*?\w(?= )", re.M), " obviously"), "not to be used"),
    ("a changed output of a command", changed_line("console"), "prints"),
    ("a changed reply to a workload", changed_line("replies"), "prints"),
]
# Those that are found where the examples of the page are run.
OF_EXAMPLES = "prints"
# What is planted in a manual page, in the help or in the header, as a text in the place of another one, and what a
# fault has to say of it.
OF_MANUAL_PAGES = [
    ("a command that the manual page lacks", manual_pages.PAGE, ".TP\n.B scan T\n", ".PP\n", "scan T"),
    ("a command that the program lacks", manual_pages.PAGE, ".B isempty S\n", ".B isfull S\n", "isfull S"),
    ("a refusal of another name", manual_pages.PAGE, "E8 NoTable", "E8 NoSuchTable", "E8 NoTable"),
    ("a call that the page for C lacks", manual_pages.HEADER, "changecap_seen(", "changecap_seen_anew(",
     "changecap_seen_anew"),
    ("a number that the page for C lacks", manual_pages.HEADER, "#define CHANGECAP_FULL ", "#define CHANGECAP_ANEW ",
     "CHANGECAP_ANEW"),
    ("a comment that the page for C lacks", manual_pages.HEADER, " * Unless the status is OK, out is as it was.",
     " * What the buffer has is left to chance.", "left to chance"),
]


def found_by(check, path, text, wanted, before):
    """The fault by which an error is found in the text of a page, if it is; before has those without it."""
    page = Page(path, text)
    if path not in before:
        before[path] = set(check.faults(check.pages[path]))
    faults = check.faults_of_examples(page)[1] if wanted == OF_EXAMPLES else check.faults(page)
    new = (it for it in faults if it not in before[path] and re.search(wanted, it[1]))
    return next((f"{path}:{number}: {why}" for number, why in new), None)


def found_in_manual_pages(check, path, old, new, wanted):
    """The fault by which an error is found that is planted in the text of one path, if it is."""
    def planted(root, other):
        text = text_of(root, other)
        return text.replace(old, new, 1) if other == path else text

    return next((it for it in manual_pages.faults(check.sources, check.program, planted) if wanted in it), None)


def main(check):
    passed, failed, before = 0, 0, {}
    for label, *plant in OF_MANUAL_PAGES:
        fault = found_in_manual_pages(check, *plant)
        passed, failed = passed + bool(fault), failed + (not fault)
        print(f"{label}: {fault or 'NOT FOUND'}"[:200])
    for label, plant, wanted in PLANTS:
        if wanted == OF_EXAMPLES and not check.program:
            print(f"{label}: no program was given")
            continue
        texts = ((path, plant(check, page.text)) for path, page in check.pages.items()
                 if path.endswith(".md") and path != "CHANGELOG.md")
        path, text = next((it for it in texts if it[1]), (None, None))
        fault = found_by(check, path, text, wanted, before) if path else "no page has a place for it"
        passed, failed = passed + bool(path and fault), failed + (not path or not fault)
        print(f"{label}: {fault or f'NOT FOUND in {path}'}"[:200])
    print(f"{passed} passed, {failed} failed")
    return failed != 0
