"""Captures what is changed in a table, and applies it to a copy. ../README.md has the steps."""
import changecap


def with_fruit():
    """A server with the rows that both have at first."""
    server = changecap.Server()
    server.create_table("fruit", [True, False])
    server.commit(("insert", "fruit", (1, "apple")), ("insert", "fruit", (2, "pear")))
    return server


def text_of(server):
    return ", ".join(f"{number} {name}" for number, name in (row.values for row in server.scan("fruit")))


server, copy = with_fruit(), with_fruit()
session = server.session()
session.attach("fruit")

server.commit(("update", "fruit", (1,), {1: "quince"}), ("insert", "fruit", (3, "plum")))
server.commit(("delete", "fruit", (2,)))
changeset = session.restart()
print("changes:", ", ".join(f"{it.operation} {it.row[0]}" for it in changecap.iterate(changeset)))
copy.apply(changeset)
print("copy:", text_of(copy))

copy.commit(("delete", "fruit", (3,)))
server.commit(("update", "fruit", (3,), {1: "sloe"}), ("insert", "fruit", (4, "fig")))
changeset = session.restart()
try:
    copy.apply(changeset)
except changecap.Refused as refused:  # nothing was changed
    print("refused at change", refused.at)
report = copy.apply(changeset, data=changecap.REPLACE, notfound=changecap.OMIT, conflict=changecap.REPLACE)
print(f"applied {report.applied}, omitted {report.omitted}")
print("copy:", text_of(copy))
