"""The commands changecap-publish and changecap-follow, as processes."""
import re
import signal
import sqlite3
import subprocess
import sys
import threading
import unittest

import support
from stream_case import StreamCase
from changecap_followers import RedisBroker

PROGRESS_PUBLISH = re.compile(r"version \d+, published \d+, lag \d+ versions, [\d.]+ entries/s, [\d.]+ kB/s")
PROGRESS_FOLLOW = re.compile(r"version \d+, lag \d+ entries, [\d.]+ s, [\d.]+ entries/s")


class CommandCase(StreamCase):
    """Runs commands."""

    def command(self, name, *words, url=None, **how):
        """A process of a command."""
        words = [sys.executable, "-m", f"changecap_followers.{name}", *map(str, words),
                 "--stream", self.broker.name, url or self.url]
        process = subprocess.Popen(words, env=support.environment(), text=True, stdin=subprocess.PIPE,
                                   stdout=subprocess.PIPE, stderr=subprocess.PIPE, **how)
        self.addCleanup(self.end, process)
        return process

    @staticmethod
    def end(process):
        process.kill()
        process.communicate()

    def ran(self, name, *words, given="", url=None):
        """The status of a command, and what it prints to its end."""
        process = self.command(name, *words, url=url)
        printed, logged = process.communicate(given, timeout=60)
        return process.returncode, printed, logged

    def leaders(self, *words):
        """Two leaders from the same place on."""
        found = [self.command("publish", *it) for it in words]
        for process in found:
            self.assertIn("leads from", process.stderr.readline())
        return found

    def said(self, process, line):
        """The reply to a line."""
        process.stdin.write(line + "\n")
        process.stdin.flush()
        return process.stdout.readline().rstrip("\n")

    def rows(self):
        connection = sqlite3.connect(f"{self.folder}/f.db")
        try:
            return connection.execute("SELECT * FROM t").fetchall()
        finally:
            connection.close()


class Commands(CommandCase):
    def test_help(self):
        for name in "publish", "follow":
            status, printed, logged = self.ran(name, "--help")
            self.assertEqual((status, logged), (0, ""))
            self.assertIn(f"usage: changecap-{name}", printed)
            self.assertIn("exit status:", printed)

    def test_wrong_command_lines(self):
        for name, *words in (("publish", "--nothing"), ("follow",), ("follow", "--sqlite", "x", "--server"),
                             ("follow", "--server", "--once"), ("publish", "--keep", "x")):
            self.assertEqual(self.ran(name, *words)[0], 2, words)
        self.assertEqual(self.ran("publish", url="nothing://localhost")[0], 2)

    def test_from_a_leader_to_a_database(self):
        given = ("create t kv\n# a comment\n\n"
                 "commit insert t (1,'x') ; insert t (2,null)\ncommit delete t key(2)\n")
        status, printed, logged = self.ran("publish", "--wait", given=given)
        self.assertEqual(status, 0, logged)
        self.assertRegex(printed, r"\A(ok version \d+\n){3}\Z")
        self.assertEqual(self.ran("follow", "--sqlite", f"{self.folder}/f.db", "--once")[0], 0)
        self.assertEqual(self.rows(), [(1, "x")])
        # Another leader goes on, and so does the follower. The last line has no line feed.
        self.assertEqual(self.ran("publish", given="commit update t key(1) set 1 = 'y'")[0], 0)
        words = "--sqlite", f"{self.folder}/f.db", "--once", "--one-by-one"
        self.assertEqual(self.ran("follow", *words)[0], 0)
        self.assertEqual(self.rows(), [(1, "y")])

    def test_what_a_leader_refuses(self):
        lines = (("session", "a leader takes"), ("restart 1", "a leader takes"),
                 ("create t vv", "the table t has no key"), ("create t kv", "ok version"),
                 ("create t kv", "refused: E9"), ("commit insert t (1)", "refused at 0: E3"),
                 ("nothing", "a leader takes"), ("commit insert", "not one command"))
        status, printed, _ = self.ran("publish", given="\n".join(line for line, _ in lines))
        self.assertEqual((status, len(printed.splitlines())), (0, len(lines)))
        for reply, (line, begin) in zip(printed.splitlines(), lines):
            self.assertTrue(reply.startswith(begin), (line, reply))

    def test_a_server_that_follows(self):
        leader = self.command("publish", "--wait")
        follower = self.command("follow", "--server", "--progress", "0.1")
        self.assertRegex(self.said(leader, "create t kv"), "ok version")
        self.said(leader, "commit insert t (1,'x')")
        support.until(lambda: self.said(follower, "get t key(1)") == "row (1,'x')", 10)
        self.assertEqual(self.said(follower, "commit insert t (2,'x')"), "a follower answers get and scan")
        self.assertIn("refused: E8", self.said(follower, "scan nothing"))
        support.until(lambda: PROGRESS_FOLLOW.search(follower.stderr.readline()), 10)
        for process in follower, leader:
            _, logged = process.communicate(timeout=20)  # the end of its input
            self.assertEqual(process.returncode, 0, logged)

    def test_signals_end_them(self):
        for number in signal.SIGTERM, signal.SIGINT:
            leader = self.command("publish", "--progress", "0.1", "--wait")
            self.said(leader, "create t kv")
            targets = ["--server"], ["--sqlite", f"{self.folder}/f.db"]
            followers = [self.command("follow", *words) for words in targets]
            for process in followers:
                self.assertIn("follows from", process.stderr.readline())
            self.said(leader, f"commit insert t ({number},'x')")
            support.until(lambda: PROGRESS_PUBLISH.search(leader.stderr.readline()), 10)
            for process in (*followers, leader):
                process.send_signal(number)
                self.assertEqual(process.wait(20), 0)
            self.assertIn("ends at", followers[1].stderr.read())

    def test_what_is_left_is_published_at_the_end(self):
        given = "create t kv\n" + "".join(f"commit insert t ({number},'x')\n" for number in range(2000))
        self.assertEqual(self.ran("publish", given=given)[0], 0)
        self.ran("follow", "--sqlite", f"{self.folder}/f.db", "--once")
        self.assertEqual(len(self.rows()), 2000)

    def test_snapshots_of_the_command(self):
        leader = self.command("publish", "--wait", "--snapshot-every", "5", "--keep", "1")
        self.said(leader, "create t kv")
        for number in range(20):
            self.said(leader, f"commit insert t ({number},'x')")
        support.until(lambda: (it := self.broker.snapshot()) and it.place.number > 10, 10)
        support.until(lambda: len(self.broker.read(0, 100)) < 15, 10)

    def test_two_leaders(self):
        one, two = self.leaders(["--wait"], ["--wait"])
        self.said(one, "create t kv")
        self.assertEqual(self.said(two, "create t kv"), "")
        _, logged = two.communicate(timeout=20)
        self.assertEqual(two.returncode, 3, logged)
        self.assertIn("another one has written", logged)
        self.assertRegex(self.said(one, "commit insert t (1,'x')"), "ok version")

    def test_a_leader_that_idles_learns_of_another(self):
        one, two = self.leaders(["--wait"], [])
        self.said(one, "create t kv")
        self.said(two, "create t kv")
        self.assertEqual(two.wait(20), 3)

    def test_an_entry_that_cannot_be_applied(self):
        self.ran("publish", "--wait", given="create t kv\ncommit insert t (1,'x')\n")
        (at, fields), *_ = reversed(self.broker._redis.xrange(self.broker._entries))
        number = self.broker.head().number
        self.broker._redis.xdel(self.broker._entries, at)
        fields[b"changeset"] = fields[b"changeset"][:-1] + b"z"
        self.broker._redis.delete(self.broker._entries)
        self.broker._redis.xadd(self.broker._entries, fields, at)
        self.broker.trim(number - 1)
        status, _, logged = self.ran("follow", "--sqlite", f"{self.folder}/f.db")
        self.assertEqual(status, 4, logged)
        self.assertIn("the tables stay at entry 0, version 0", logged)
        self.assertEqual(self.ran("publish")[0], 4)

    def test_no_broker(self):
        away = f"redis://127.0.0.1:{support.free_port()}"
        for words in ("publish",), ("follow", "--sqlite", f"{self.folder}/f.db"), ("follow", "--server"):
            process = self.command(*words, url=away)
            support.until(lambda process=process: "waits" in process.stderr.readline(), 10)
            process.send_signal(signal.SIGTERM)
            self.assertEqual(process.wait(20), 0)

    def test_a_database_that_cannot_be_opened(self):
        status, _, logged = self.ran("follow", "--sqlite", f"{self.folder}/none/f.db")
        self.assertEqual(status, 1)
        self.assertIn("unable to open database file", logged)


class Unpublished(CommandCase):
    """With a Redis of its own, which is killed."""

    def setUp(self):
        super().setUp()
        self.redis = support.RedisServer(self.folder)
        self.redis.start()
        self.addCleanup(self.redis.kill)

    def test_what_is_not_published_is_told(self):
        for words, said in (("--drain", "0.5"), "ok version"), (("--drain", "0.5", "--wait"), None):
            leader = self.command("publish", *words, url=self.redis.url)
            self.said(leader, "create t kv")
            self.redis.kill()
            if said:
                self.assertRegex(self.said(leader, "commit insert t (1,'x')"), said)
            else:
                leader.stdin.write("commit insert t (2,'x')\n")
                leader.stdin.flush()
                threading.Event().wait(0.5)
            leader.send_signal(signal.SIGTERM)
            _, logged = leader.communicate(timeout=20)
            self.assertEqual(leader.returncode, 5, logged)
            self.redis.start()
            RedisBroker(self.redis.url).close()


if __name__ == "__main__":
    unittest.main()
