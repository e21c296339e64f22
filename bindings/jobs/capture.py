"""A session captures what three commits change. The changeset is read, and applied to a second server."""
import changecap


def begin(server):
    """A table stock with three rows."""
    server.create_table("stock", [True, False, False])
    server.commit_many("stock", [(1, "apples", 40), (2, "pears", 25), (3, "plums", 12)])


def text(value):
    if value is None:
        return "null"
    if isinstance(value, bytes):
        return f"x'{value.hex()}'"
    return f"'{value}'" if isinstance(value, str) else str(value)


def side(values):
    """The values of one side of a change, a dict by column; a column without one is -."""
    return "(" + ",".join(text(values[column]) if column in values else "-" for column in range(3)) + ")"


def shown(change):
    if change.operation == "insert":
        return f"insert {change.table} {side(change.new)}"
    if change.operation == "delete":
        return f"delete {change.table} {side(change.old)}"
    return f"update {change.table} {side(change.old)} -> {side(change.new)}"


def main():
    with changecap.Server() as first, changecap.Server() as second, first.session() as session:
        begin(first)
        begin(second)
        session.attach("stock")
        first.commit(("update", "stock", (1,), {2: 35}))
        first.commit(("insert", "stock", (4, "figs", 9)), ("delete", "stock", (2,)))
        first.commit(("update", "stock", (3,), {1: None}), ("insert", "stock", (5, b"\x00\xff", None)))
        for capture in session.captures():  # nobody else commits: there is one
            changeset = capture.changeset()
            print("captured at version", capture.version)
            for change in changecap.iterate(changeset):
                print(shown(change))
            report = second.apply(changeset)
            print(f"version {report.version}, applied {report.applied}, conflicts {report.conflicts}, "
                  f"omitted {report.omitted}, skipped {report.skipped}")
        for row in second.scan("stock"):
            print("(" + ",".join(text(value) for value in row.values) + ")")


main()
