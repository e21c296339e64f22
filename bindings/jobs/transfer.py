"""Two threads move money between accounts, by transactions that begin again on a conflict. A third thread takes
snapshots: in each the sum is the same."""
import threading
from concurrent.futures import ThreadPoolExecutor

import changecap

TRANSFERS = 100


def transfer(server, source, to, amount):
    def work(transaction):
        for account, more in ((source, -amount), (to, amount)):
            balance = transaction.get("accounts", (account,)).values[1]
            transaction.update("accounts", (account,), {1: balance + more})

    server.run(work)


def move(server, source, first, amount):
    for i in range(TRANSFERS):
        transfer(server, source, first + i % 4, amount)


def sum_of(rows):
    return sum(row.values[1] for row in rows)


def watch(server, over):
    """Answers how many snapshots it has taken, and how many of them had another sum."""
    taken = wrong = 0
    while True:
        wrong += sum_of(server.snapshot().scan("accounts")) != 5000
        taken += 1
        if over.is_set():
            return taken, wrong


def main():
    over = threading.Event()
    with changecap.Server() as server:
        server.create_table("accounts", [True, False])
        server.commit_many("accounts", [(number, 1000) for number in range(1, 6)])
        with ThreadPoolExecutor(3) as pool:
            watching = pool.submit(watch, server, over)
            try:
                moving = [pool.submit(move, server, 1, 2, 2), pool.submit(move, server, 5, 1, 1)]
                for one in moving:
                    one.result()  # raises what the thread has raised
            finally:
                over.set()
            taken, wrong = watching.result()
        snapshot = server.snapshot()
        print(f"transfers {2 * TRANSFERS}, version {snapshot.version}")
        rows = snapshot.scan("accounts")
        for row in rows:
            print(*row.values)
        print("sum", sum_of(rows))
    print("snapshots," if taken else "no snapshot,", wrong, "with another sum")


main()
