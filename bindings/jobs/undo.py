"""Undo and redo: each edit is captured, and undone by the inverse of its changeset."""
import changecap


class Document:
    def __init__(self, server, session):
        self.server, self.session = server, session
        self.done, self.undone = [], []

    def show(self, what):
        rows = [f"({number},'{text}')" for number, text in (row.values for row in self.server.scan("t"))]
        print(f"{what}:", " ".join(rows) or "no rows")

    def edit(self, *operations):
        self.server.commit(*operations)
        # Nobody else commits, so what is captured now is this edit alone.
        self.done += [capture.changeset() for capture in self.session.captures()]
        self.undone.clear()  # what was undone does not fit any more
        self.show("edit")

    def apply(self, changeset):
        """Applies a changeset, which the session does not record. A conflict is an error."""
        self.session.enable(False)
        self.server.apply(changeset)
        self.session.enable(True)

    def undo(self):
        if not self.done:
            print("undo: nothing to undo")
            return
        changeset = self.done.pop()
        self.apply(changecap.invert(changeset))
        self.undone.append(changeset)
        self.show("undo")

    def redo(self):
        if not self.undone:
            print("redo: nothing to redo")
            return
        changeset = self.undone.pop()
        self.apply(changeset)
        self.done.append(changeset)
        self.show("redo")


def main():
    with changecap.Server() as server, server.session() as session:
        server.create_table("t", [True, False])
        session.attach("t")
        document = Document(server, session)
        document.edit(("insert", "t", (1, "one")), ("insert", "t", (2, "two")))
        document.edit(("update", "t", (1,), {1: "uno"}), ("insert", "t", (3, "three")))
        document.edit(("update", "t", (2,), {0: 4}), ("delete", "t", (3,)))  # the first sets another key
        document.undo()
        document.undo()
        document.undo()
        document.undo()
        document.redo()
        document.redo()
        document.redo()
        document.redo()
        document.undo()
        document.edit(("update", "t", (1,), {1: "eins"}))
        document.redo()
        document.undo()


main()
