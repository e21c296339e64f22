"""Undo and redo of what is done in tables, by changesets and their inverses. ../README.md says how."""
import changecap


class Document:
    """Tables with undo and redo. Its methods are called one at a time."""

    def __init__(self, server):
        self.server, self.session = server, server.session()
        self.session.attach()
        self.done, self.undone = [], []

    def step(self, *operations):
        """Commits operations that are undone together."""
        self.done.append(self.server.commit_captured(self.session, *operations).changeset())
        self.undone.clear()

    def undo(self):
        """Undoes the last step. Answers whether there was one."""
        return self._move(self.done, self.undone, changecap.invert)

    def redo(self):
        """Makes the step again that was undone last. Answers whether there was one."""
        return self._move(self.undone, self.done, bytes)

    def _move(self, steps, others, made):
        """Applies what is made of the last of some steps. It is Refused, and the step stays, where others have changed
        the same rows since."""
        if not steps:
            return False
        self.session.enable(False)
        try:
            self.server.apply(made(steps[-1]))
        finally:
            self.session.enable(True)
        others.append(steps.pop())
        return True


# ---- A run ----

def show(word):
    print(f"{word}:", ", ".join(f"{number} {text}" for number, text in (row.values for row in server.scan("lines"))))


def try_it(word, call):
    try:
        if call():
            show(word)
        else:
            print(f"{word}: nothing to {word}")
    except changecap.Refused:
        print(f"{word}: refused")


server = changecap.Server()
server.create_table("lines", [True, False])
document = Document(server)
document.step(("insert", "lines", (1, "one")))
document.step(("insert", "lines", (2, "two")))
show("written")
document.step(("update", "lines", (1,), {1: "ONE"}), ("delete", "lines", (2,)))
show("changed")
for _ in range(2):
    try_it("undo", document.undo)
for _ in range(3):
    try_it("redo", document.redo)
try_it("undo", document.undo)
document.step(("insert", "lines", (3, "three")))
show("changed")
try_it("redo", document.redo)
server.commit(("update", "lines", (3,), {1: "drei"}))
show("of another")
try_it("undo", document.undo)
show("rows")
