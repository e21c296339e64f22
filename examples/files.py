"""Runs the program on files: blobs as hex digits and as bytes, workloads, outputs, and files that are refused; and what
it says beside: faults and refusals that are explained, the words of a shell, progress.

Blobs and what is made of them are those of docs/manual/program.md. Each command runs in a folder of its own with the
same files, and afterwards the folder has these files and those that the command should write, and nothing else.
"""
import os
import re
import resource
import subprocess
import tempfile

INSERT = "5402010074001200010000000000000001030178"
DELETE = "5402010074000900010000000000000001030178"
UPDATE = "540201007400170001000000000000000103017800030179"
INSERTED_Y = "5402010074001200010000000000000001030179"
OVER_Y = "540201007400170001000000000000000103017900030178"
PATCHES = "5002010074000900010000000000000001"
SHOWN = "changeset\ngroup t kv\ninsert direct (1,'x')\n"
SQL = """BEGIN;
INSERT INTO "t" VALUES(1,'x');
COMMIT;
"""
COUNTS = "t: inserts 1, updates 0, deletes 0, indirect 0, bytes 20\n"
# A row of one table, another table without rows, and another row of the first table.
DUMP = INSERT + "54030102007500" + "5402010074001200" + "010000000000000002" + "030179"
# What is made of that dump, and its rows.
MADE = ("ok version 1\nok version 2\nok version 3, applied 2, omitted 0, skipped 0\nrows 2\n(1,'x')\n(2,'y')\n"
        "rows 0\n")

# What a server with these tables and rows dumps: a group for each table, in the order of their names.
DUMPED = INSERT + "1200" + "010000000000000002" + "030179" + "54030101007500"


def applied(*blobs):
    """The lines that apply blobs of which each conflict is a refusal."""
    return "".join(f"apply x'{blob}' abort abort abort\n" for blob in blobs)



# A table and values with quotes, and with what columns are called.
QUOTED = (b"T\x02\x01\x00a\"c0'b\0\x12\0" + b"\x01" + (7).to_bytes(8, "big") + b"\x03\x08c1='c0\"\n"
          + b"\x17\x01" + b"\x01" + (8).to_bytes(8, "big") + b"\x03\x01u" + b"\0" + b"\x04\x02\x00c")
JSON_LINE = '{"table":"t","op":"insert","indirect":false,"key":["c0"],"new":{"c0":1,"c1":"x"}}\n'


def line(digits):
    return digits.encode() + b"\n"


# The files of each folder.
FILES = {
    "insert.hex": line(INSERT),
    "insert.bin": bytes.fromhex(INSERT),
    # As xxd and others write hex digits.
    "spaced.hex": b" \t54 02 01 00\r\n74 00 12 00\n\n0100 0000 0000 0000 01 03 01 78 \n",
    "upper.hex": DELETE.upper().encode(),
    "delete.bin": bytes.fromhex(DELETE),
    "update.hex": line(UPDATE),
    "y.bin": bytes.fromhex(INSERTED_Y),
    "patches.hex": line(PATCHES),
    "dump.hex": line(DUMP),
    "dump.bin": bytes.fromhex(DUMP),
    # Another table that is called as that of `insert.hex`, and names that are no words.
    "wider.hex": line("54030100007400"),
    "keyed.hex": line(INSERT + "540201017400"),
    "blank.bin": bytes.fromhex("54010161206200"),
    "digit.bin": bytes.fromhex("540101396100"),
    "none": b"-\n",
    # Lines of replies.
    "reply": b"changeset " + line(INSERT),
    "patches.reply": b"patchset " + line(PATCHES),
    "none.reply": b"changeset -\n",
    "wrong.reply": b"changeset 54 02\n01zz",
    "empty": b"",
    "white": b" \n\t\r\n",
    "half.hex": line(INSERT[:-1]),
    "not.hex": b"54 02\n01zz",
    "cut.hex": line(INSERT[:16]),
    "op.bin": bytes.fromhex(INSERT[:10] + "0099" + INSERT[14:]),
    "other": b"\x01\x02",
    "quoted.bin": QUOTED,
    "twice": b".read tables\ndrop 7\nfrob",
    "itself": b"session\n.read itself\n",
    "tables": b"create t kv\ncommit insert t (1,'x')\n@1 scan t\n",
    "wrong": b"create t kv\nfrob\n",
}
# The words of a command, and what it prints. Digits and bytes are told by looking at the beginning.
PRINTED = [
    ("show insert.hex", SHOWN),
    ("show insert.bin", SHOWN),
    ("show spaced.hex", SHOWN),
    ("show insert.bin --sql", SQL),
    ("show --json insert.hex",
     '[{"table":"t","op":"insert","indirect":false,"key":["c0"],"new":{"c0":1,"c1":"x"}}]\n'),
    ("show none", "empty\n"),
    ("show reply", SHOWN),
    ("show none.reply", "empty\n"),
    ("concat reply none.reply insert.hex", f"{INSERT}\n"),
    ("show --jsonl insert.hex", JSON_LINE),
    ("show --jsonl none", ""),
    ("show --jsonl quoted.bin",
     '{"table":"a\\"c0\'b","op":"insert","indirect":false,"key":["c0"],"new":{"c0":7,"c1":"c1=\'c0\\"\\n"}}\n'
     '{"table":"a\\"c0\'b","op":"update","indirect":true,"key":["c0"],"old":{"c0":8,"c1":"u"},'
     '"new":{"c1":{"blob":"0063"}}}\n'),
    ("show --columns t=id,name insert.bin", "changeset\ngroup t kv\ninsert direct (id=1,name='x')\n"),
    ("show --columns t=id,name update.hex",
     "changeset\ngroup t kv\nupdate direct old (id=1,name='x') new (name='y')\n"),
    ("show --columns t=id,name patches.hex", "patchset\ngroup t kv\ndelete direct (id=1)\n"),
    ("show --columns u=id,name insert.hex", "changeset\ngroup t kv\ninsert direct (c0=1,c1='x')\n"),
    ("show --columns t=id,name none", "empty\n"),
    ("show --json --columns u=a --columns t=id,name insert.hex",
     '[{"table":"t","op":"insert","indirect":false,"key":["id"],"new":{"id":1,"name":"x"}}]\n'),
    ("show --json --columns u=a insert.hex", f"[{JSON_LINE[:-1]}]\n"),
    ("show --jsonl --columns t=id,name update.hex",
     '{"table":"t","op":"update","indirect":false,"key":["id"],"old":{"id":1,"name":"x"},"new":{"name":"y"}}\n'),
    ("show --sql --columns t=id,name insert.hex",
     'BEGIN;\nINSERT INTO "t"("id","name") VALUES(1,\'x\');\nCOMMIT;\n'),
    ("show --sql --columns t=id,name update.hex",
     'BEGIN;\nUPDATE "t" SET "name"=\'y\' WHERE "id"=1;\nCOMMIT;\n'),
    ("show --sql --columns t=id,name patches.hex", 'BEGIN;\nDELETE FROM "t" WHERE "id"=1;\nCOMMIT;\n'),
    ("show --sql --columns u=id,name insert.hex", SQL),
    ("show --sql --columns a\"c0'b=c1,na\"me quoted.bin",
     'BEGIN;\nINSERT INTO "a""c0\'b"("c1","na""me") VALUES(7,\'c1=\'\'c0"\n\');\n'
     'UPDATE "a""c0\'b" SET "na""me"=x\'0063\' WHERE "c1"=8;\nCOMMIT;\n'),
    ("check insert.hex", "insert.hex: changeset, groups 1, changes 1, bytes 20\n"),
    ("check patches.hex none", "patches.hex: patchset, groups 1, changes 1, bytes 17\n"
     "none: changeset, groups 0, changes 0, bytes 0\n"),
    ("summary insert.bin", COUNTS),
    ("summary upper.hex update.hex none patches.hex", "t: inserts 0, updates 0, deletes 1, indirect 0, bytes 20\n"
     "t: inserts 0, updates 1, deletes 0, indirect 0, bytes 24\n"
     "t: inserts 0, updates 0, deletes 1, indirect 0, bytes 17\n"),
    ("load insert.hex", f"create t kv\n{applied(INSERT)}"),
    ("load insert.bin", f"create t kv\n{applied(INSERT)}"),
    ("load spaced.hex", f"create t kv\n{applied(INSERT)}"),
    ("load none", ""),
    ("load dump.hex", f"create t kv\ncreate u kkv\n{applied(DUMP)}"),
    # A table is created once, whatever number of groups and of files it is in.
    ("load insert.bin none y.bin dump.hex", f"create t kv\n{applied(INSERT, INSERTED_Y)}create u kkv\n{applied(DUMP)}"),
    ("invert insert.hex", f"{DELETE}\n"),
    ("invert insert.bin", bytes.fromhex(DELETE)),
    ("invert none", "\n"),
    ("patchset upper.hex", f"{PATCHES}\n"),
    ("patchset delete.bin", bytes.fromhex(PATCHES)),
    ("concat insert.hex update.hex", f"{INSERTED_Y}\n"),
    ("concat insert.bin update.hex", bytes.fromhex(INSERTED_Y)),
    ("concat none insert.hex none update.hex", f"{INSERTED_Y}\n"),
    ("rebase insert.hex y.bin", f"{OVER_Y}\n"),
    ("rebase insert.bin none y.bin", bytes.fromhex(OVER_Y)),
    ("run tables", "ok version 1\nok version 2\nrows 1\n(1,'x')\n"),
    ("run --threads 3 tables", "ok version 1\nok version 2\nrows 1\n(1,'x')\n"),
    ("run tables --json", '{"line":1,"reply":"written","version":1}\n{"line":2,"reply":"written","version":2}\n'
     '{"line":3,"worker":1,"reply":"rows","version":2,"rows":[{"row":[1,"x"]}]}\n'),
]
# The same, of which `-` is standard input.
OF_INPUT = [
    ("show -", INSERT, SHOWN),
    ("show -", bytes.fromhex(INSERT), SHOWN),
    ("check", line(INSERT), "-: changeset, groups 1, changes 1, bytes 20\n"),
    ("summary", line(INSERT), COUNTS),
    ("show --jsonl", line(INSERT), JSON_LINE),
    ("show --columns t=id,name", bytes.fromhex(DELETE), "changeset\ngroup t kv\ndelete direct (id=1,name='x')\n"),
    ("load", line(INSERT), f"create t kv\n{applied(INSERT)}"),
    ("load -", bytes.fromhex(DUMP), f"create t kv\ncreate u kkv\n{applied(DUMP)}"),
    ("load insert.hex -", line(INSERTED_Y), f"create t kv\n{applied(INSERT, INSERTED_Y)}"),
    # What is printed of a dump is run, by `run` and by a shell.
    ("run", f"create t kv\ncreate u kkv\n{applied(DUMP)}scan t\nscan u\n", MADE),
    ("run", f"create t kv\ncreate u kkv\n{applied(DUMPED)}dump\n",
     f"ok version 1\nok version 2\nok version 3, applied 2, omitted 0, skipped 0\nchangeset {DUMPED}\n"),
    ("load -", line(DUMPED), f"create t kv\ncreate u kkv\n{applied(DUMPED)}"),
    ("shell", b".load dump.hex\nscan t\nscan u\ndump\n", f"{MADE}changeset {DUMPED}\n"),
    ("shell", b".load dump.bin\nscan t\nscan u\n", MADE),
    ("shell", b".load none\nsession\n", "session 1\n"),
    # Its tables are made once, and its rows are added to those that are there, or none where one is there already.
    ("shell", b"create t kv\ncommit insert t (3,'z')\n.load insert.bin\n.load insert.bin\nscan t\n",
     "ok version 1\nok version 2\nrefused: E9 TableExists\nok version 3, applied 1, omitted 0, skipped 0\n"
     "refused: E9 TableExists\nrefused at 0: E15 Aborted\nrows 2\n(1,'x')\n(3,'z')\n"),
    ("shell -f tables", b"scan t\n", "ok version 1\nok version 2\nrows 1\n(1,'x')\nrows 1\n(1,'x')\n"),
    ("shell", b"session\n.read tables\nsession", "session 1\nok version 1\nok version 2\nrows 1\n(1,'x')\nsession 2\n"),
    ("shell --file=tables", b"quit\nscan t\n", "ok version 1\nok version 2\nrows 1\n(1,'x')\n"),
    ("shell", b"help save\n",
     "  save B              save all tables under a name: save old\n"),
    ("shell", b"help quit\nquit",
     "  quit                end the shell\n"),
    ("concat - update.hex", line(INSERT), f"{INSERTED_Y}\n"),
]
# What is refused, and the file and the reason that standard error names, on one line.
REFUSED = [
    ("show nowhere", "nowhere: ", None),
    ("show folder", "folder: ", None),
    ("run nowhere", "nowhere: ", None),
    ("show empty", "empty: ", "empty"),
    ("invert white", "white: ", "empty"),
    ("show half.hex", "half.hex: ", "half a byte at the end of the hex digits"),
    ("check not.hex", "not.hex: ", "not hex at 8"),
    ("check wrong.reply", "wrong.reply: ", "not hex at 18"),
    ("load patches.reply", "patches.reply: ", "patchset"),
    ("show cut.hex", "cut.hex: ", "fault D1 Truncated at 8"),
    ("check cut.hex", "cut.hex: ", "fault D1 Truncated at 8: 54 02 01 00 74 00 12 00 |"),
    ("check insert.hex op.bin", "op.bin: ", "fault D5 BadOp at 6: 54 02 01 00 74 00 | 99 00 01 00 00 00 00 00"),
    ("summary other", "other: ", "fault D2 BadHeader at 0: | 01 02"),
    ("invert patches.hex", "patches.hex: ", "patchset"),
    ("load nowhere", "nowhere: ", None),
    ("load folder", "folder: ", None),
    ("load white", "white: ", "empty"),
    ("load insert.hex half.hex", "half.hex: ", "half a byte at the end of the hex digits"),
    ("load not.hex", "not.hex: ", "not hex at 8"),
    ("load insert.hex cut.hex", "cut.hex: ", "fault D1 Truncated at 8: 54 02 01 00 74 00 12 00 |"),
    ("load insert.hex patches.hex", "patches.hex: ", "patchset"),
    ("load update.hex", "update.hex: ", "a change that is no INSERT in group 0"),
    ("load dump.hex delete.bin", "delete.bin: ", "a change that is no INSERT in group 0"),
    ("load keyed.hex", "keyed.hex: ", "other columns in group 1"),
    ("load insert.hex wider.hex", "wider.hex: ", "other columns in group 0"),
    ("load blank.bin", "blank.bin: ", "a name that is no word in group 0"),
    ("load digit.bin", "digit.bin: ", "a name that is no word in group 0"),
    ("concat insert.hex not.hex", "not.hex: ", "not hex at 8"),
    ("concat insert.hex patches.hex", "patches.hex: ", "changeset and patchset"),
    ("concat insert.hex cut.hex update.hex", "cut.hex: ", "fault D1 Truncated at 8"),
    ("rebase patches.hex insert.bin", "patches.hex: ", "patchset"),
    ("show /proc/self/mem", "/proc/self/mem: ", None),
    ("run /proc/self/mem", "/proc/self/mem: ", None),
    ("shell -f nowhere", "nowhere: ", None),
    ("shell -f folder", "folder: ", None),
    ("show --columns t=a insert.hex", "insert.hex: ", "table t has 2 columns, and --columns has 1 names"),
    ("show --jsonl cut.hex", "cut.hex: ", "fault D1 Truncated at 8"),
    ("show --columns t=a cut.hex", "cut.hex: ", "fault D1 Truncated at 8"),
    ("run wrong", "wrong: ", "line 2: G1 Syntax at 0"),
]
# What is expected where a line begins.
COMMANDS = ("expected create commit commitat apply applyquiet applyeach get scan save dropdatabase attach enable indirect diff "
            "changeset patchset restart dump insert update delete cascade rollback put drop attachall filter "
            "isempty session sessions databases tables begin savepoint end omit replace abort @")
# What is said on standard error beside the replies: the words of a command, its standard input, what it prints there
# and on standard error, and its status.
EXPLAINED = [
    ("run --explain", "create t kv\ncommit insrt t (1)\n", "",
     "line 2: G1 Syntax at 7\ncommit insrt t (1)\n       ^ expected insert update delete cascade\n", 1),
    ("run --explain --json", "create t\n", "", "line 1: G1 Syntax at 8\ncreate t\n        ^\n", 1),
    # The caret stands below the place in columns of a terminal, in which a character may be wide.
    ("run --explain", "@3 get t key('\u8868\te\u0301') x\n", "",
     "line 1: G1 Syntax at 24\n@3 get t key('\u8868\te\u0301') x\n                \t    ^ expected END\n", 1),
    # A long line is shown around the place.
    ("run --explain", "create " + "a" * 70 + " kvx" + "b" * 30, "",
     "line 1: G1 Syntax at 78\n.." + "a" * 59 + " kvx" + "b" * 17 + "..\n" + " " * 62 + "^\n", 1),
    # The fault of a blob is one of its bytes.
    ("run --explain", "apply x'540201007400990001' omit omit omit\n", "",
     "line 1: G3 D5 BadOp at 6\napply x'540201007400990001' omit omit om..\n" + " " * 20 + "^\n", 1),
    ("run --explain", "create " + "a" * 256 + " kv\n", "", "line 1: G2 E17 BadName\ncreate " + "a" * 73 + "..\n"
     "E17 BadName: a name is empty, has more than 255 bytes, or has a zero byte\n", 1),
    ("run --explain wrong", "", "", f"wrong: line 2: G1 Syntax at 0\nfrob\n^ {COMMANDS}\n", 1),
    # Each kind of refusal is explained once.
    ("run --explain", "create t kv\ndrop 7\ncommit insert t (1,2)\ncommit insert t (1,3)\ndrop 8\n",
     "ok version 1\nrefused: E18 NoSession\nok version 2\nrefused at 0: E5 Duplicate\nrefused: E18 NoSession\n",
     "E18 NoSession: no session has this number, or it was dropped\n"
     "E5 Duplicate: another row has this primary key already\n", 0),
    ("run --explain --json --threads 2", "drop 7\n", '{"line":1,"reply":"refused","refusal":"E18 NoSession"}\n',
     "E18 NoSession: no session has this number, or it was dropped\n", 0),
    # A text that only looks like a refusal is none.
    ("run --explain", "create t kv\ncommit insert t (1,'E5 Duplicate')\nscan t\n",
     "ok version 1\nok version 2\nrows 1\n(1,'E5 Duplicate')\n", "", 0),
    ("shell --explain", "create t kv\ncomit\ndrop 7\ndrop 7",
     "ok version 1\nrefused: E18 NoSession\nrefused: E18 NoSession\n",
     f"line 2: G1 Syntax at 0\ncomit\n^ {COMMANDS}\n"
     + "E18 NoSession: no session has this number, or it was dropped\n" * 2, 0),
    ("shell", "help frob\nfrob\n", "", "no help on frob\nline 2: G1 Syntax at 0\n", 0),
    # Lines of files are counted on, and a file may read another one.
    ("shell", ".read twice\nfrob\n", "ok version 1\nok version 2\nrows 1\n(1,'x')\nrefused: E18 NoSession\n",
     "line 7: G1 Syntax at 0\nline 8: G1 Syntax at 0\n", 0),
    ("shell", ".read nowhere\nsession\n", "session 1\n", "nowhere: No such file or directory (os error 2)\n", 0),
    ("shell", ".read itself\nsession\n", "".join(f"session {n}\n" for n in range(1, 18)),
     "itself: files read one another 16 deep\n", 0),
    ("shell", ".load nowhere\n.load patches.hex\n.load cut.hex\nsession\n", "session 1\n",
     "nowhere: No such file or directory (os error 2)\npatches.hex: patchset\n"
     "cut.hex: fault D1 Truncated at 8: 54 02 01 00 74 00 12 00 |\n", 0),
    # The lines of a dump are counted on.
    ("shell", ".load insert.hex\nfrob\n.load", "ok version 1\nok version 2, applied 1, omitted 0, skipped 0\n",
     "line 4: G1 Syntax at 0\nline 5: G1 Syntax at 0\n", 0),
    ("shell", ".read\nquit now\n", "", "line 1: G1 Syntax at 0\nline 2: G1 Syntax at 0\n", 0),
    ("run --no-progress", "session\n", "session 1\n", "", 0),
]
# What is refused as a command line.
MISUSED = ["show -o out", "show --binary insert.hex", "concat --binary insert.hex", "show a b", "run a b",
           "shell insert.hex", "check --sql insert.hex", "run tables -o out", "show --jsonl --sql insert.hex",
           "show --jsonl --json insert.hex", "show --columns t insert.hex", "show --columns t=a,a insert.hex",
           "show --columns t=a, insert.hex", "summary --columns t=a,b insert.hex",
           "load -o out", "load --binary insert.hex", "load --sql insert.hex",
           "run --progress --no-progress tables", "shell --progress", "show --explain insert.hex"]


def put(folder):
    os.mkdir(f"{folder}/folder")
    for name, content in FILES.items():
        with open(f"{folder}/{name}", "wb") as file:
            file.write(content)


def found_in(folder):
    """What is in the folder, without its folder."""
    found = {}
    for name in os.listdir(folder):
        if name != "folder":
            with open(f"{folder}/{name}", "rb") as file:
                found[name] = file.read()
    return found


def as_bytes(text):
    return text.encode() if isinstance(text, str) else text


class Folder:
    """Runs commands, each in a new folder with the files."""

    def __init__(self, suite):
        self.suite = suite

    def run(self, line_, given, is_right, written=None, before=None, limit=None):
        with tempfile.TemporaryDirectory() as folder:
            put(folder)
            for name, content in (before or {}).items():
                with open(f"{folder}/{name}", "wb") as file:
                    file.write(content)
            bound = limit and (lambda: resource.setrlimit(resource.RLIMIT_FSIZE, (limit, limit)))
            ran = subprocess.run([self.suite.program, *line_.split()], cwd=folder, input=as_bytes(given),
                                 capture_output=True, timeout=self.suite.seconds, check=False, preexec_fn=bound,
                                 restore_signals=False)
            left = found_in(folder) == {**FILES, **(before or {}), **(written or {})}
            self.suite.note(is_right(ran) and left, f"files: {line_}",
                            f"status {ran.returncode}, output {ran.stdout!r}, error {ran.stderr!r}, files {left}")


def prints(wanted):
    return lambda ran: (ran.stdout, ran.stderr, ran.returncode) == (as_bytes(wanted), b"", 0)


def refuses(name, why):
    def is_right(ran):
        said = ran.stderr.decode()
        is_whole = said.startswith(name) and said.count("\n") == 1 and said.endswith("\n") and len(said) > len(name) + 1
        return is_whole and ran.stdout == b"" and ran.returncode == 1 and why in (None, said[len(name):-1])
    return is_right


def check(suite):
    """Notes each command."""
    folder = Folder(suite)
    for words, wanted in PRINTED:
        folder.run(words, b"", prints(wanted))
        if not words.startswith("run"):
            folder.run(f"{words} -o out", b"", prints(b""), {"out": as_bytes(wanted)})
            folder.run(f"{words} --output=out", b"", prints(b""), {"out": as_bytes(wanted)}, {"out": b"as it was"})
    for words, given, wanted in OF_INPUT:
        folder.run(words, given, prints(wanted))
    for words, name, why in REFUSED:
        folder.run(words, b"", refuses(name, why))
        if not words.startswith(("run", "shell")):
            folder.run(f"{words} -o out", b"", refuses(name, why))
            folder.run(f"{words} -o out", b"", refuses(name, why), {}, {"out": b"as it was"})
    # An output that cannot be written, and one that is the input.
    folder.run("invert insert.hex -o nowhere/out", b"", refuses("nowhere/out", None))
    folder.run("invert insert.hex -o folder", b"", refuses("folder", None))
    folder.run("invert insert.hex -o insert.hex", b"", prints(b""), {"insert.hex": line(DELETE)})
    # A file takes the first bytes alone: nothing is left of it.
    for before in ({}, {"out": b"as it was"}):
        folder.run("invert insert.hex -o out", b"", refuses("out.part", None), {}, before, limit=10)
    for words in MISUSED:
        folder.run(words, b"", lambda ran: ran.returncode == 2 and ran.stderr and not ran.stdout)
    for words, given, out, err, status in EXPLAINED:
        folder.run(words, given, lambda ran, wanted=(as_bytes(out), as_bytes(err), status):
                   (ran.stdout, ran.stderr, ran.returncode) == wanted)
    # A word that is nearly one.
    for words, meant in (("sumary insert.hex", b"'summary'"), ("show --jsnl insert.hex", b"'--jsonl'"),
                         ("run --explian", b"'--explain'"), ("laod insert.hex", b"'load'"),
                         ("load --outptu=out insert.hex", b"'--output'")):
        folder.run(words, b"", lambda ran, meant=meant: ran.returncode == 2 and meant in ran.stderr and not ran.stdout)
    rate = re.compile(rb"4 lines of replies in \d+\.\d{3} seconds, \d+ a second\n")
    folder.run("run --progress tables", b"", lambda ran: rate.fullmatch(ran.stderr) and ran.returncode == 0)
