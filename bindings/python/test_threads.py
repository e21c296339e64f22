"""One history that several threads use: how many clients there are, what each sees, and that no call holds the GIL."""
import gc
import random
import sys
import threading
import time
import unittest

from test_support import DELETE, INSERT, changecap, on_threads

ACCOUNTS, MONEY = 32, 1000


class Clients(unittest.TestCase):
    def test_threads_have_clients(self):
        with changecap.Server() as server:
            server.create_table("t", [True, False])
            session = server.session()
            session.attach("t")
            on_threads(lambda: server.commit(("insert", "t", (1, "x"))))
            self.assertEqual((session.changeset(), len(server.scan("t"))), (INSERT, 1))
            with self.assertRaises(changecap.Conflict) as raised:
                server.commit(base=1)
            self.assertEqual((raised.exception.kind, raised.exception.table), (11, None))
            # Each thread has given its client back.
            self.assertEqual(len(server._clients), 1)
            seen, together = [], threading.Barrier(63)

            def work():
                server.scan("t")
                together.wait()
                seen.append(len(server._clients))
                together.wait()

            on_threads(*[work] * 63)
            self.assertEqual((set(seen), len(server._clients)), ({64}, 1))

    def test_more_threads_than_clients(self):
        with changecap.Server() as server:
            server.create_table("t", [True, False])
            together = threading.Barrier(100)

            def work(number):
                server.get("t", (1,))
                together.wait()
                for it in range(10):
                    server.commit(("insert", "t", (10 * number + it, None)))
                together.wait()

            on_threads(*(lambda number=number: work(number) for number in range(100)))
            self.assertEqual([it.values[0] for it in server.scan("t")], list(range(1000)))
            self.assertEqual(len(server._clients), 1)

    def test_threads_wait_for_each_other(self):
        with changecap.Server() as server:
            server.call("create t kv")

            def commit(first):
                for number in range(first, first + 200):
                    server.call(f"commit insert t ({number},'x')")

            on_threads(*(lambda it=it: commit(1000 * it) for it in range(4)))
            self.assertEqual(server.call("scan t").split("\n")[0], "rows 800")

    def test_captures_while_others_commit(self):
        with changecap.Server() as server:
            server.create_table("t", [True, False])
            session = server.session()
            session.attach()

            def commit(first):
                for number in range(first, first + 100):
                    server.commit(("insert", "t", (number, None)))
                    self.assertEqual(server.get("t", (number,)).values, (number, None))

            threads = [threading.Thread(target=commit, args=(1000 * it,)) for it in range(4)]
            for thread in threads:
                thread.start()
            # Meanwhile a session captures what they commit, each row once.
            rows = []
            while any(it.is_alive() for it in threads):
                rows += [it.new[0] for it in changecap.iterate(session.restart())]
            rows += [it.new[0] for it in changecap.iterate(session.restart())]
            self.assertEqual(sorted(rows), [1000 * it + at for it in range(4) for at in range(100)])
            self.assertEqual([it.values[0] for it in server.scan("t")], sorted(rows))

    def test_captures_of_ones_own(self):
        with changecap.Server() as server, server.session() as session:
            server.create_table("t", [True, False])
            session.attach()
            captures = []

            def commit(first):
                for number in range(first, first + 100, 2):
                    capture = server.commit_captured(session, ("insert", "t", (number, None)))
                    captures.append((capture.version, number, capture.changeset()))
                    with server.transaction(session) as transaction:
                        transaction.insert("t", (number + 1, None))
                    captures.append((transaction.version, number + 1, transaction.capture.changeset()))

            on_threads(*(lambda it=it: commit(1000 * it) for it in range(4)))
            # Each has the change of its commit alone, and its version.
            for _, number, changeset in captures:
                self.assertEqual([it.new for it in changecap.iterate(changeset)], [{0: number, 1: None}])
            self.assertEqual(sorted(it[0] for it in captures), list(range(2, 402)))
            self.assertEqual(list(session.captures()), [])


class Money(unittest.TestCase):
    """Four threads move money by transactions that begin again; another one captures, and one checks the sum."""

    def move(self, server, number, counts):
        chance = random.Random(number)
        for _ in range(150):
            one, other = chance.sample(range(ACCOUNTS), 2)
            amount = chance.randrange(1, 20)

            def work(transaction, one=one, other=other, amount=amount):
                counts[number] += 1
                balances = [transaction.get("accounts", (it,)).values[1] for it in (one, other)]
                transaction.update("accounts", (one,), {1: balances[0] - amount})
                mark = transaction.savepoint()
                transaction.delete("accounts", (other,))
                transaction.rollback_to(mark)
                transaction.update("accounts", (other,), {1: balances[1] + amount})

            server.run(work, tries=100_000)

    def test_money(self):
        with changecap.Server() as server, server.session() as session:
            server.create_table("accounts", [True, False])
            session.attach()
            server.commit_many("accounts", ((it, MONEY) for it in range(ACCOUNTS)))
            counts, captures, sums, is_over = [0] * 4, [], [], threading.Event()

            def audit():
                while not is_over.is_set():
                    captures.extend(session.captures())
                captures.extend(session.captures())

            def read():
                while not is_over.is_set():
                    with server.snapshot() as snapshot:
                        sums.append((snapshot.version, sum(it.values[1] for it in snapshot.scan("accounts"))))

            def move_all():
                try:
                    on_threads(*(lambda it=it: self.move(server, it, counts) for it in range(4)))
                finally:
                    is_over.set()

            on_threads(move_all, audit, read)
            self.check(server, captures, sums)
            self.assertGreaterEqual(min(counts), 150)

    def check(self, server, captures, sums):
        """The sums are those of the money there is, the captures come in their order, and make the tables."""
        self.assertEqual({it for _, it in sums}, {ACCOUNTS * MONEY})
        versions = [it.version for it in captures]
        self.assertEqual((versions, versions[-1]), (sorted(versions), server.snapshot().version))
        whole = b""
        for capture in captures:
            whole = changecap.concat(whole, capture.changeset())
        with changecap.Server() as copy:
            copy.create_table("accounts", [True, False])
            copy.apply(whole)
            self.assertEqual(copy.scan("accounts"), server.scan("accounts"))


class Closing(unittest.TestCase):
    def test_any_order_on_any_thread(self):
        for seed in range(60):
            chance = random.Random(seed)
            server = changecap.Server()
            server.create_table("t", [True, False])
            session, other = server.session(), server.session()
            session.attach()
            server.commit(("insert", "t", (1, "x")))
            snapshot, transaction, capture = server.snapshot(), server.transaction(), session.capture()
            transaction.insert("t", (2, "y"))
            rows = server.scan("t")
            ends = [server.close, session.drop, other.drop, snapshot.close, transaction.rollback]
            chance.shuffle(ends)
            for end in ends:
                end() if chance.randrange(2) else on_threads(end)
            for end in ends:
                end()
            self.assertEqual((capture.changeset(), rows[0].values), (INSERT, (1, "x")))
            for call in (lambda: server.scan("t"), session.changeset, transaction.savepoint,
                         lambda snapshot=snapshot: snapshot.scan("t")):
                self.assertRaisesRegex(ValueError, "closed", call)

    def test_what_outlasts_a_server(self):
        with changecap.Server() as server:
            server.create_table("t", [True, False])
            session = server.session()
            session.attach()
            server.commit(("insert", "t", (1, "x")))
            snapshot, transaction, capture = server.snapshot(), server.transaction(), session.capture()
        self.assertEqual((snapshot.version, transaction.get("t", (1,)).values), (2, (1, "x")))
        self.assertEqual((capture.version, changecap.invert(capture.changeset())), (2, DELETE))
        transaction.delete("t", (1,))
        self.assertRaises(ValueError, transaction.commit)
        self.assertRaises(ValueError, session.restart)
        with self.assertRaisesRegex(ValueError, "closed"):
            on_threads(lambda: server.scan("t"))

    def test_closing_while_others_call(self):
        for _ in range(20):
            server, is_begun = changecap.Server(), threading.Barrier(4)
            server.create_table("t", [True, False])

            def work(first, server=server, is_begun=is_begun):
                is_begun.wait()
                with self.assertRaises(ValueError):
                    for number in range(first, first + 10**6):
                        server.commit(("insert", "t", (number, None)))
                        server.session()

            def close(server=server, is_begun=is_begun):
                is_begun.wait()
                time.sleep(0.002)
                server.close()

            on_threads(close, *(lambda it=it: work(it * 10**6) for it in range(3)))

    def test_sessions_leave_nothing(self):
        """70 sessions are made and dropped a thousand times, by what nobody refers to, by drop and by blocks."""
        def round_of(server, number):
            for at in range(70):
                session = server.session()
                session.attach()
                if at % 3 == 0:
                    session.drop()
                elif at % 3 == 1:
                    with session:
                        server.commit(("insert", "t", (number, at)), ("delete", "t", (number,)))
                        session.restart()
                del session

        with changecap.Server() as server:
            server.create_table("t", [True, False])
            for number in range(100):
                round_of(server, number)
            gc.collect()
            before = resident()
            for number in range(1000):
                round_of(server, number)
            gc.collect()
            # What a history keeps of each event is counted in, and no session is kept.
            self.assertLess(resident() - before, 8 << 20)
            kept = [server.session() for _ in range(64)]
            self.assertTrue(all(it.is_empty() for it in kept))


def resident():
    """The bytes of this process that are in memory, or 0 where the system does not tell."""
    try:
        with open("/proc/self/statm", encoding="ascii") as file:
            return int(file.read().split()[1]) * 4096
    except OSError:
        return 0


class Interpreter(unittest.TestCase):
    """No call holds the GIL: another thread, which gets it only where it is let go, goes on meanwhile."""

    def setUp(self):
        self.interval, self.ticks, self.is_over = sys.getswitchinterval(), 0, False
        self.ticker = threading.Thread(target=self.tick)
        self.ticker.start()
        sys.setswitchinterval(1000)

    def tearDown(self):
        self.is_over = True
        sys.setswitchinterval(self.interval)
        self.ticker.join()

    def tick(self):
        while not self.is_over:
            self.ticks += 1
            time.sleep(0.0001)

    def lets_go(self, name, call):
        before, end = self.ticks, time.monotonic() + 20
        while self.ticks == before:
            self.assertLess(time.monotonic(), end, name)
            call()

    def test_blobs(self):
        for call in changecap.check, changecap.invert, changecap.patchset, changecap.json:
            self.lets_go(call.__name__, lambda call=call: call(INSERT))
        self.lets_go("concat", lambda: changecap.concat(INSERT, b""))
        self.lets_go("iterate", lambda: list(changecap.iterate(INSERT)))
        self.lets_go("iterate_pieces", lambda: list(changecap.iterate_pieces([INSERT])))

    def test_servers(self):
        with changecap.Server() as server, server.session() as session:
            server.create_table("t", [True, False])
            session.attach()
            server.commit(("insert", "t", (1, "x")))
            snapshot, transaction, capture = server.snapshot(), server.transaction(), session.capture()
            for name, call in (
                    ("call", lambda: server.call("scan t")), ("save", lambda: server.save("now")),
                    ("commit", lambda: server.commit(("update", "t", (1,), {1: 2}))),
                    ("commit_many", lambda: server.commit_many("t", [])),
                    ("commit_captured", lambda: server.commit_captured(session)),
                    ("apply", lambda: server.apply(b"")), ("get", lambda: server.get("t", (1,))),
                    ("session", lambda: server.session().drop()), ("filter", lambda: session.filter("all")),
                    ("attach", lambda: session.attach("t")), ("diff", lambda: session.diff("now", "t")),
                    ("enable", session.enable), ("indirect", session.indirect), ("is_empty", session.is_empty),
                    ("restart", session.restart), ("changeset", capture.changeset), ("patchset", capture.patchset),
                    ("scan", lambda: snapshot.scan("t")), ("scan_from", lambda: snapshot.scan_from("t", (1,))),
                    ("transaction.get", lambda: transaction.get("t", (1,))),
                    ("update", lambda: transaction.update("t", (1,), {1: 3})),
                    ("savepoint", lambda: transaction.rollback_to(transaction.savepoint())),
                    ("transaction", lambda: server.transaction().commit())):
                self.lets_go(name, call)


if __name__ == "__main__":
    unittest.main()
