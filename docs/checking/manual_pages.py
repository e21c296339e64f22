"""The manual pages for the terminal, compared with the program's help and with the header for C."""
import os
import re
import subprocess

PAGE = "docs/changecap.1"
HELP = "crates/cap_command_line/src/help.rt"
HEADER = "include/changecap.h"
COMPLETIONS = "docs/completions"
# A form of a command in the help of `run`, and its heading in the page.
FORM = re.compile(r"^  (\S(?:.*?\S)?) {2,}\S", re.M)
HEADING = re.compile(r"^\.TP\n\.B (.*)$", re.M)
OPTION = re.compile(r"(?<![\w-])(--[a-z][a-z-]*)")
REFUSAL = re.compile(r"\b(E[0-9]+) ([A-Z]\w+)")
CALL = re.compile(r"^(?:static inline )?(?:[a-z]\w* )+\*?(changecap_(?!bytes|room|end_)\w+)\(", re.M)
NUMBER = re.compile(r"^#define (CHANGECAP_(?!H\b|END\b)\w+)", re.M)
# What a help has that no page does.
OF_HELP = {"--help", "--version"}


def section(text, title):
    """A section of a manual page."""
    return re.split(r"^\.SH .*\n", text.partition(f".SH {title}\n")[2], maxsplit=1, flags=re.M)[0]


def forms(text):
    """The forms of commands in the help of `run`, in order: behind 'Tables:' and its like, up to the next paragraph."""
    return FORM.findall(re.split(r"^OP is ", text.partition("Tables:")[2], maxsplit=1, flags=re.M)[0])


def helps(sources, program, text_of):
    """What the program prints of itself: all that is printed, and the help of `run`. Without a program, its source."""
    if not program:
        source = text_of(sources.root, HELP)
        return source, source
    words = [[], *([word] for word in ("run", "shell", "load", "show", "check", "summary", "invert", "patchset",
                                       "concat", "rebase"))]
    printed = [subprocess.run([program, *it, "--help"], capture_output=True, text=True, check=False).stdout
               for it in words]
    return "\n".join(printed), printed[1]


def faults(sources, program, text_of):
    """What the manual pages and the completions lack, or have too much, as text."""
    page = text_of(sources.root, PAGE).replace("\\-", "-").replace("\\&", "")
    everything, of_run = helps(sources, program, text_of)
    said, wanted = HEADING.findall(section(page, "WORKLOADS").partition(".SS Operations")[0]), forms(of_run)
    if said != wanted:
        yield f"{PAGE}: its commands of a workload are not those of the help: {sorted(set(said) ^ set(wanted)) or said}"
    differing = (set(OPTION.findall(everything)) ^ set(OPTION.findall(page))) - OF_HELP
    if program and differing:
        yield f"{PAGE}: its options are not those of the help: {sorted(differing)}"
    refusals = REFUSAL.findall(text_of(sources.root, "docs/manual/rules.md").replace(" | ", " ").replace("| E", "E"))
    lacking = [" ".join(it) for it in dict(refusals).items() if it not in REFUSAL.findall(page)]
    if lacking:
        yield f"{PAGE}: it lacks {', '.join(lacking)}"
    if program:
        yield from faults_of_completions(sources, everything)
    yield from faults_of_calls(sources, text_of)


def faults_of_calls(sources, text_of):
    """What the page that is made of the header lacks of it."""
    header = text_of(sources.root, HEADER)
    words = [os.path.join(sources.root, "bindings", "manual")]
    made = subprocess.run(words, capture_output=True, text=True, check=False)
    page = made.stdout.replace("\\-", "-").replace("\\&", "").replace("\\e", "\\")
    if made.returncode:
        yield f"bindings/manual: status {made.returncode}"
    shown = set(re.findall(r"^\\fB(?:[a-z]\w* )+\*?(changecap_\w+)\(", page, re.M))
    yield from (f"bindings/manual: the page lacks {name}" for name in sorted(set(CALL.findall(header)) - shown))
    yield from (f"bindings/manual: the page lacks {name}" for name in NUMBER.findall(header)
                if not re.search(rf"\\fB#define {name}\b", page))
    for line in header.split("\n"):
        words = re.findall(r"[A-Za-z]{4,}", line.replace("changecap.h - ", "")) if line.startswith(" * ") else []
        if words and " ".join(words[:4]) not in " ".join(re.findall(r"[A-Za-z]{4,}", page)):
            yield f"bindings/manual: the page lacks '{line[3:].strip()}'"


def faults_of_completions(sources, everything):
    """The commands and the options that a completion lacks."""
    commands = re.findall(r"^  (run|shell|load|show|check|summary|invert|patchset|concat|rebase) ", everything, re.M)
    for name in sorted(os.listdir(f"{sources.root}/{COMPLETIONS}")):
        with open(f"{sources.root}/{COMPLETIONS}/{name}", encoding="utf-8") as file:
            text = file.read()
        words = {*commands, *(it.lstrip("-") for it in OPTION.findall(everything))}
        yield from (f"{COMPLETIONS}/{name}: it lacks {it}" for it in sorted(words)
                    if not re.search(rf"(?<![\w-])(?:--|-l )?{it}(?![\w-])", text))
