"""Two copies of a table that change the same rows get in step. ../README.md says how."""
import changecap


class Copy:
    """A server, and a session that has what was changed here since the copies were in step."""

    def __init__(self, name):
        self.name, self.server = name, changecap.Server()
        self.server.create_table("t", [True, False])
        self.server.commit_many("t", [(1, "a"), (2, "b"), (3, "c")])
        self.session = self.server.session()
        self.session.attach()

    def apply(self, changeset, answer):
        """Applies what the other one has changed. Nobody changes something here meanwhile."""
        self.session.enable(False)
        try:
            return self.server.apply(changeset, answer, answer, answer, rebase=True)
        finally:
            self.session.enable(True)


def synchronise(hub, client):
    """Brings them in step. Where both have changed a row, that of the client stays."""
    theirs, own = hub.session.restart(), client.session.restart()
    report = client.apply(theirs, changecap.OMIT)
    rebaser = changecap.Rebaser()
    rebaser.configure(report.buffer())
    hub.apply(rebaser.rebase(own), changecap.ABORT)  # it leads from the rows of the hub: there is no conflict


# ---- A run ----

def show(copy):
    print(f"{copy.name}:", ", ".join(f"{row} {text}" for row, text in (it.values for it in copy.server.scan("t"))))


hub, client = Copy("hub"), Copy("client")
hub.server.commit(("update", "t", (1,), {1: "of the hub"}), ("delete", "t", (2,)),
                  ("insert", "t", (4, "of the hub")))
client.server.commit(("update", "t", (1,), {1: "of the client"}), ("update", "t", (2,), {1: "of the client"}))
client.server.commit_many("t", [(4, "of the client"), (5, "of the client")])
for copy in hub, client:
    show(copy)
synchronise(hub, client)
for copy in hub, client:
    show(copy)
