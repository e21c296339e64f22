"""Threads move money between accounts, by transactions that begin again on a conflict. ../README.md says how."""
import threading

import changecap


def transfer(server, source, to, amount):
    """Moves the amount, or as much of it as there is, and answers how much that was. The function is called again
    where another thread has changed one of the two accounts before the commit."""
    def work(transaction):
        balance, other = (transaction.get("accounts", (account,)).values[1] for account in (source, to))
        moved = min(amount, balance)
        transaction.update("accounts", (source,), {1: balance - moved})
        transaction.update("accounts", (to,), {1: other + moved})
        return moved

    return server.run(work, tries=1000)


def balances(server):
    """What a snapshot has. No commit is in it by half, and reading it waits for none."""
    with server.snapshot() as snapshot:
        return [row.values[1] for row in snapshot.scan("accounts")]


# ---- A run ----

ACCOUNTS, THREADS, TRANSFERS = 10, 8, 200


def work(server, thread, found):
    for number in range(TRANSFERS):
        source = (thread + number) % ACCOUNTS
        transfer(server, source, (source + 1 + number % (ACCOUNTS - 1)) % ACCOUNTS, 1 + number % 90)
        found.append(balances(server))


server, found = changecap.Server(), []
server.create_table("accounts", [True, False])
server.commit_many("accounts", ((account, 100) for account in range(ACCOUNTS)))
threads = [threading.Thread(target=work, args=(server, thread, found)) for thread in range(THREADS)]
for thread in threads:
    thread.start()
for thread in threads:
    thread.join()
print(f"{server.snapshot().version - 2} transfers by {THREADS} threads")
sums = {sum(it) for it in found}
print(f"{len(found)} snapshots, and the sum of each is", *sums)
if min(map(min, found)) >= 0:
    print("no account is below 0")
