"""Runs the program `changecap` on workloads and on blobs."""
import os
import subprocess

SECONDS = 120


def lines_of(text):
    """The lines of a text that ends with a line feed. Other signs at which Python ends lines may be in a text."""
    return text.split("\n")[:-1]


class Fault(Exception):
    """The program ended otherwise than with status 0: its status, or None after too long, and its standard error."""

    def __init__(self, words, status, error):
        super().__init__(f"{' '.join(words)}: {error if status is None else f'status {status} {error}'}")
        self.status, self.error = status, error


class Program:
    """The program at a path."""

    def __init__(self, path):
        self.path = path

    def call(self, words, given):
        """Its status, and what it writes to standard output and to standard error."""
        try:
            ran = subprocess.run([self.path, *words], input=given, capture_output=True, timeout=SECONDS, check=False)
        except subprocess.TimeoutExpired:
            raise Fault(words, None, f"no end after {SECONDS} seconds") from None
        return ran.returncode, ran.stdout.decode(), ran.stderr.decode(errors="replace").strip()

    def lines(self, words, given):
        """The lines that it prints where it succeeds."""
        status, out, error = self.call(words, given)
        if status != 0:
            raise Fault(words, status, error)
        return lines_of(out)

    def run(self, text, *words):
        """The lines that are printed for a workload."""
        return self.lines(["run", *words], text.encode())

    def show(self, blob):
        """The lines that are printed for a blob."""
        return self.lines(["show"], blob.hex().encode())

    def has(self, word):
        """Whether it has a command of this name."""
        return os.path.isfile(self.path) and self.call([word, "--help"], b"")[0] == 0

    def on_blobs(self, word, *blobs, options=()):
        """The blob that a command makes of blobs, each given in hex on a line of its own."""
        given = "".join(f"{blob.hex()}\n" for blob in blobs)
        printed = "".join(self.lines([word, *options], given.encode())).strip()
        return bytes.fromhex("" if printed == "-" else printed)
