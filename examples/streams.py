"""Standard inputs and outputs that fail, inputs that come in small pieces, and threads that cannot be started, for
examples/check.

A read or a write that fails is status 3 with nothing on standard error, or with -v a line that says which. A read
that fails leaves nothing on standard output, and a write that fails a beginning of the output. A part that this
machine cannot show is named and left out.
"""
import contextlib
import os
import pty
import resource
import signal
import subprocess
import time
from subprocess import PIPE

BLOB = b"5402010074001200010000000000000001030178"
SHOWN = b"changeset\ngroup t kv\ninsert direct (1,'x')\n"
INVERTED = b"5402010074000900010000000000000001030178\n"
PATCHED = b"5002010074001200010000000000000001030178\n"

# More bytes than a program has addresses for.
STACK = 1 << 47

# What -v prints of a write and of a read that failed, and where memory ran out.
NO_MEMORY = b"refused for memory\n"
WRITE_FAILED = b"a write failed\n"
READ_FAILED = b"a read failed\n"


def started(suite, words, **streams):
    """A run of the program that has begun, with a pipe for each standard stream that is not given."""
    return subprocess.Popen([suite.program, *words], **{"stdin": PIPE, "stdout": PIPE, "stderr": PIPE, **streams})


def write_input(ran, given):
    """Writes standard input and closes it. The program may end before it has read all of it."""
    with contextlib.suppress(BrokenPipeError):
        ran.stdin.write(given)
        ran.stdin.close()


def ended(ran):
    """What is left on standard output and on standard error, and the status."""
    return ran.stdout.read(), ran.stderr.read(), ran.wait()


def error_and_status(suite, words, given, output):
    """What a run of the program whose output goes to this file writes to standard error, and its status."""
    with started(suite, words, stdout=output) as ran:
        write_input(ran, given)
        return ran.stderr.read(), ran.wait()


def full_output(suite, words, given, label):
    """Standard output takes no byte."""
    for more, error in (([], b""), (["-v"], WRITE_FAILED), (["--verbose"], WRITE_FAILED)):
        with open("/dev/full", "wb") as full:
            found = error_and_status(suite, [*words, *more], given, full)
        suite.note(found == (error, 3), f"{' '.join([label, *more])} > /dev/full", f"{found}")


def closed_output(suite, words, given, label):
    """Standard output is a pipe that nobody reads."""
    reader, writer = os.pipe()
    os.close(reader)
    found = error_and_status(suite, words, given, writer)
    os.close(writer)
    suite.note(found == (b"", 3), f"{label} to a closed pipe", f"{found}")


def output_that_closes(suite, words, given, whole, label):
    """Standard output takes some bytes and is closed then."""
    with started(suite, words) as ran:
        write_input(ran, given)
        taken = ran.stdout.read(10_000)
        ran.stdout.close()
        found = ran.stderr.read(), ran.wait()
    is_right = found == (b"", 3) and whole.startswith(taken)
    suite.note(is_right, f"{label} to a pipe that closes", f"{found}, {taken[-40:]!r}")


def unread_input(suite, words, label):
    """Standard input is a folder, which cannot be read."""
    for front, error in (([], b""), (["-v"], READ_FAILED)):
        folder = os.open(os.path.dirname(os.path.abspath(__file__)), os.O_RDONLY)
        ran = subprocess.run([suite.program, *front, *words], stdin=folder, capture_output=True, check=False)
        os.close(folder)
        found = ran.stdout, ran.stderr, ran.returncode
        suite.note(found == (b"", error, 3), f"{' '.join([*front, label])} < a folder", f"{found}")


def full_error(suite, words, given, label):
    """Standard error is full where a refusal has to be printed on it."""
    with open("/dev/full", "wb") as full:
        ran = subprocess.run([suite.program, *words], input=given, stdout=PIPE, stderr=full, check=False)
    suite.note((ran.stdout, ran.returncode) == (b"", 3), f"{label} 2> /dev/full", f"{ran.stdout}, {ran.returncode}")


def byte_by_byte(suite, words, given, whole, label):
    """Standard input gives one byte at a time, so it takes about as many reads as it has bytes."""
    with started(suite, words) as ran:
        with contextlib.suppress(BrokenPipeError):
            for byte in given:
                os.write(ran.stdin.fileno(), bytes([byte]))
                time.sleep(0.0003)
        ran.stdin.close()
        found = ended(ran)
    suite.note(found == (whole, b"", 0), f"{label}, byte by byte", f"{found}"[:200])


def line_by_line(suite, workload, replies):
    """A shell prints the reply to each line before the next line is written. Each of these has one line."""
    found = []
    with started(suite, ["shell"]) as ran:
        for line in workload.splitlines(keepends=True):
            ran.stdin.write(line)
            ran.stdin.flush()
            found.append(ran.stdout.readline())
        ran.stdin.close()
        rest = ended(ran)
    suite.note((b"".join(found), rest) == (replies, (b"", b"", 0)), "shell, line by line", f"{found}, {rest}")


def at_a_terminal(suite):
    """At a terminal a shell has a prompt on standard error before each line, and before the end of the input."""
    terminal, given = pty.openpty()
    with started(suite, ["shell"], stdin=given) as ran:
        os.close(given)
        os.write(terminal, b"session\nfrob\nsession\n\x04")
        found = ended(ran)
    os.close(terminal)
    prompts = b"changecap> changecap> line 2: G1 Syntax at 0\nchangecap> changecap> \n"
    suite.note(found == (b"session 1\nsession 2\n", prompts, 0), "shell at a terminal", f"{found}")


def interrupted_line(suite):
    """Ctrl-C at a terminal takes a line away that is not ended, and does not end a shell in which it is ignored."""
    terminal, given = pty.openpty()
    with started(suite, ["shell"], stdin=given,
                 preexec_fn=lambda: signal.signal(signal.SIGINT, signal.SIG_IGN)) as ran:
        os.close(given)
        os.write(terminal, b"session\n")
        first = ran.stdout.readline()
        ran.send_signal(signal.SIGINT)
        os.write(terminal, b"dro\x03session\n\x04")
        found = first, *ended(ran)
    os.close(terminal)
    wanted = b"session 1\n", b"session 2\n", b"changecap> " * 3 + b"\n", 0
    suite.note(found == wanted, "an interrupted line", f"{found}")


def words_that_are_no_text(suite):
    """A command line that is not UTF-8 is refused."""
    out, err, status = suite.run([b"\xff"], b"")
    suite.note(out == b"" and err != b"" and status == 2, "words that are not UTF-8", f"{out}, {err}, {status}")


def threads_that_cannot_be_started(suite, words, label):
    """The stack of each thread is too large, where the hard limit lets it be, so no worker calls its lines."""
    hard = resource.getrlimit(resource.RLIMIT_STACK)[1]
    if hard != resource.RLIM_INFINITY and hard < STACK:
        print(f"left out: {label} without threads, since the hard limit of a stack is {hard} bytes here", flush=True)
        return
    given = b"create t kv\n@0 commit insert t (1,'a')\n@1 commit insert t (2,'b')\nscan t\n"
    for more, error in (([], b""), (["--in-turn"], b""), (["-v"], NO_MEMORY)):
        ran = subprocess.run([suite.program, *words, *more], input=given, capture_output=True, check=False,
                             preexec_fn=lambda: resource.setrlimit(resource.RLIMIT_STACK, (STACK, hard)))
        found = ran.stdout, ran.stderr, ran.returncode
        suite.note(found == (b"ok version 1\n" + NO_MEMORY, error, 3),
                   f"{' '.join([label, *more])} without threads", f"{found}")


def check_workloads(suite, words, workload, replies):
    """Notes the runs of a command that reads workloads."""
    label = " ".join(words)
    # More than the program holds back for one write, and more than a pipe holds.
    text = b"x" * 10_000
    long = b"create t kv\ncommit insert t (1,'" + text + b"')\n" + b"scan t\n" * 20
    printed = b"ok version 1\nok version 2\n" + (b"rows 1\n(1,'" + text + b"')\n") * 20
    for given, which in ((workload, "short"), (long, "long")):
        full_output(suite, words, given, f"{label}, {which}")
        closed_output(suite, words, given, f"{label}, {which}")
    output_that_closes(suite, words, long, printed, label)
    unread_input(suite, words, label)
    full_error(suite, words, b"frob", label)
    byte_by_byte(suite, words, b"# " + b"-" * 2_000 + b"\n" + workload, replies, label)


def check_blob(suite, word, printed):
    """Notes the runs of a command that reads blobs, which prints this of BLOB."""
    full_output(suite, [word], BLOB, word)
    closed_output(suite, [word], BLOB, word)
    unread_input(suite, [word], word)
    full_error(suite, [word], b"54zz", word)
    byte_by_byte(suite, [word], BLOB, printed, word)


def check(suite, workload, replies):
    """Notes each of these runs. `workload` is a short one, and `replies` what it prints."""
    for words in (["run"], ["run", "--threads", "4"]):
        check_workloads(suite, words, workload, replies)
        byte_by_byte(suite, words, b"", b"", " ".join(words))
    threads_that_cannot_be_started(suite, ["run", "--threads", "4"], "run --threads 4")
    check_workloads(suite, ["shell"], workload, replies)
    line_by_line(suite, workload, replies)
    at_a_terminal(suite)
    interrupted_line(suite)
    for word, printed in (("show", SHOWN), ("invert", INVERTED), ("patchset", PATCHED), ("concat", BLOB + b"\n"),
                          ("rebase", BLOB + b"\n")):
        check_blob(suite, word, printed)
    for words in (["--help"], ["--version"], ["run", "--help"], ["shell", "--help"], ["invert", "--help"],
                  ["concat", "--help"], ["rebase", "--help"]):
        full_output(suite, words, b"", " ".join(words))
        closed_output(suite, words, b"", " ".join(words))
    full_error(suite, ["frob"], b"", "frob")
    words_that_are_no_text(suite)
