"""Three clients change the same rows and synchronise, in each order. Prints the rows that all of them have then."""
# ---- A run ----
from itertools import permutations

from synchronise import Client, Hub

# Who writes which row, and when; and who deletes which.
WRITES = (0, 1, 20), (1, 1, 31), (2, 1, 22), (0, 2, 40), (1, 2, 21), (2, 2, 32), (1, 3, 51), (1, 4, 61), \
    (0, 5, 30), (1, 5, 41), (2, 5, 22), (2, 6, 52)
DELETIONS = (0, 3), (2, 4)


def write(client, row, text, stamp):
    client.database.execute("INSERT INTO t VALUES(?1, ?2, ?3) ON CONFLICT(id) DO UPDATE SET text = ?2, stamp = ?3",
                            [row, text, stamp])


def run(order):
    """The rows of each client and of the hub, after they have synchronised in an order."""
    hub, clients = Hub(3), [Client(number) for number in range(3)]
    for row in range(1, 5):
        write(clients[0], row, "first", 10)
    for client in clients:
        client.synchronise(hub)
    for number, row, stamp in WRITES:
        write(clients[number], row, f"of {number}", stamp)
    for number, row in DELETIONS:
        clients[number].database.execute("DELETE FROM t WHERE id = ?", [row])
    first, second, third = (clients[number] for number in order)
    first.synchronise(hub)
    second.pull(hub)
    third.synchronise(hub)  # between a pull of the second and its push
    for client in (second, *clients):
        client.synchronise(hub)
    found = [client.database.execute("SELECT * FROM t ORDER BY id") for client in clients]
    return [*found, [row.values for row in hub.server.scan("t")]]


for order in permutations(range(3)):
    texts = {", ".join(f"{row} {text} at {stamp}" for row, text, stamp in rows) for rows in run(order)}
    print(*order, "-", " | ".join(texts))
