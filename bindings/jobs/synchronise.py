"""Two copies that changed the same rows and different ones get in step: the client pulls what the hub has changed,
rebases what it has changed itself, and pushes that."""
import changecap

ROWS = [(number, letter, number) for number, letter in enumerate("abcdef", 1)]


def begin(server, session):
    server.create_table("t", [True, False, False])
    server.commit_many("t", ROWS)
    session.attach("t")


def restart(session):
    """What the copy has changed since it was captured last."""
    changeset = b""
    for capture in session.captures():
        changeset = changecap.concat(changeset, capture.changeset())
    return changeset


def print_report(what, report):
    print(f"{what}: applied {report.applied}, conflicts {report.conflicts}, omitted {report.omitted}")


def synchronise(hub, of_hub, client, of_client):
    """A server and its session of the hub, and the same of the client."""
    remote = restart(of_hub)
    own = restart(of_client)

    of_client.enable(False)  # the hub's changes are not the client's own
    report = client.apply(remote, changecap.OMIT, changecap.OMIT, changecap.REPLACE, rebase=True)
    of_client.enable(True)
    print_report("pull", report)

    rebaser = changecap.Rebaser()
    rebaser.configure(report.buffer())
    rebased = rebaser.rebase(own)
    print(changecap.json(rebased), end="")  # it ends with a line feed

    of_hub.enable(False)  # the client does not get its own changes back
    report = hub.apply(rebased)
    of_hub.enable(True)
    print_report("push", report)
    print("hub:", hub.call("scan t"))
    print("client:", client.call("scan t"))


def main():
    with changecap.Server() as hub, changecap.Server() as client:
        with hub.session() as of_hub, client.session() as of_client:
            begin(hub, of_hub)
            begin(client, of_client)
            hub.commit(("update", "t", (1,), {2: 10}), ("update", "t", (2,), {1: "hub"}), ("delete", "t", (3,)),
                       ("update", "t", (4,), {1: "hub"}), ("update", "t", (6,), {2: 60}),
                       ("insert", "t", (7, "hub", 7)))
            client.commit(("update", "t", (1,), {2: 11}),  # the same column: DATA, omitted
                          ("update", "t", (2,), {2: 22}),  # another column: no conflict
                          ("update", "t", (3,), {1: "client"}),  # the hub has deleted it: DATA, omitted
                          ("delete", "t", (4,)),  # the hub has changed it: NOTFOUND, omitted
                          ("update", "t", (5,), {1: "client"}),  # the client alone
                          ("insert", "t", (7, "client", 70)),  # another row: CONFLICT, replaced
                          ("insert", "t", (8, "new", 8)))
            synchronise(hub, of_hub, client, of_client)

            hub.commit(("update", "t", (1,), {1: "both"}), ("update", "t", (8,), {2: 88}))
            client.commit(("update", "t", (1,), {2: 12}))
            synchronise(hub, of_hub, client, of_client)


main()
