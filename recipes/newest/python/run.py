"""Of two writes of a row the one with the newest time stays. ../README.md says how."""
import changecap


def newest(kind, change, row):
    """Whether the change is a newer write than the row that is there. The time is in the column 2."""
    if row is None or change.operation == "delete":
        return changecap.OMIT
    return changecap.REPLACE if change.new[2] > row[2] else changecap.OMIT


def apply_newest(server, changeset):
    """Applies a changeset. It is applied again where another thread has changed one of the rows meanwhile."""
    return server.apply(changeset, conflict=newest)


# ---- A run ----

def list_on_a_device():
    """Rows of an item, and when it was written."""
    server = changecap.Server()
    server.create_table("t", [True, False, False])
    server.commit_many("t", [(1, "milk", 1), (2, "eggs", 1), (3, "tea", 1)])
    return server


phone, tablet = list_on_a_device(), list_on_a_device()
session = phone.session()
session.attach()
phone.commit(("update", "t", (1,), {1: "oat milk", 2: 7}), ("update", "t", (2,), {1: "six eggs", 2: 6}),
             ("update", "t", (3,), {1: "green tea", 2: 8}), ("insert", "t", (4, "bread", 3)))
tablet.commit(("update", "t", (1,), {1: "no milk", 2: 5}), ("update", "t", (2,), {1: "ten eggs", 2: 9}),
              ("delete", "t", (3,)), ("insert", "t", (4, "rolls", 4)))
report = apply_newest(tablet, session.changeset())
print(f"{report.omitted} of {report.conflicts} changes that met a conflict are omitted")
print(", ".join("{} {} at {}".format(*row.values) for row in tablet.scan("t")))
