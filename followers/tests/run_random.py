#!/usr/bin/env python3
"""Random runs with processes that are killed: run_random.py [RUNS [JOBS [SEED]]]

In each run a Redis, a leader and three followers, one of them a database of SQLite, are killed by SIGKILL and
started again at random moments, and at times a second leader runs beside the first. At the end the leader
publishes what it has, and the followers catch up. Then:

  - each state that a follower has shown is, at its version, the leader's that published it;
  - it is on the one chain of entries that leads to the head: no follower has shown what the stream has not
    kept;
  - what a leader was told that the broker has is on the chain;
  - each leader began with the tables of its place;
  - all followers are at the head.

A run takes some seconds. RUNS are 200, JOBS the number of processors. The last line is 'N passed, M failed'.
"""
from __future__ import annotations

import concurrent.futures
import itertools
import os
import queue
import random
import shutil
import signal
import subprocess
import sys
import tempfile
import time
from collections import Counter

from support import HERE, PORTS, RedisServer, environment, is_free, until

import redis

FOLLOWERS = "server", "server-one", "sqlite"
SECONDS = 2.0
LIMIT = 120


class Run:
    """One run: its processes, and what they are told."""

    def __init__(self, seed: str, folder: str, port: int) -> None:
        self.seed, self.random, self.folder = seed, random.Random(seed), folder
        self.redis = RedisServer(folder, port)
        self.log = open(f"{folder}/log", "ab")  # noqa: SIM115 - closed with the run
        self.leaders: dict[str, subprocess.Popen[bytes]] = {}
        self.followers: dict[str, subprocess.Popen[bytes]] = {}
        self.count, self.kills = 0, Counter[str]()

    def process(self, *words: str) -> subprocess.Popen[bytes]:
        return subprocess.Popen([sys.executable, *words], env=environment(), stdout=self.log, stderr=self.log)

    def lead(self) -> None:
        """Starts a leader."""
        self.count += 1
        name = f"leader{self.count}"
        self.leaders[name] = self.process(f"{HERE}/leader_process.py", self.redis.url, self.folder, name,
                                          f"{self.seed} {name}")

    def follow(self, name: str) -> None:
        self.followers[name] = self.process(f"{HERE}/follower_process.py", self.redis.url, self.folder, name)

    def see_to_leaders(self) -> None:
        """Takes out those that have ended, and starts one where none is left. One that was overtaken may
        end."""
        for name, process in list(self.leaders.items()):
            status = process.poll()
            if status is not None:
                del self.leaders[name]
                if status not in (3, -signal.SIGKILL):
                    raise AssertionError(f"{name} ended with status {status}")
        if not self.leaders:
            self.lead()

    def kill(self, process: subprocess.Popen[bytes]) -> None:
        process.send_signal(signal.SIGKILL)
        process.wait()

    def disturb(self) -> None:
        """Kills one process, and starts it again after a moment, or starts a second leader."""
        what = self.random.choice(("redis", "leader", "leader", "rival", *FOLLOWERS))
        self.kills[what] += 1
        pause = self.random.choice((0, 0.05, 0.3))
        if what == "redis":
            self.redis.kill()
            time.sleep(pause)
            self.redis.start()
        elif what == "rival":
            if len(self.leaders) < 2:
                self.lead()
        elif what == "leader":
            self.kill(self.leaders[self.random.choice(list(self.leaders))])
            time.sleep(pause)
        else:
            self.kill(self.followers[what])
            time.sleep(pause)
            self.follow(what)

    def go(self) -> None:
        """Starts everything, disturbs it for a time, and lets it come to its end."""
        self.redis.start()
        self.lead()
        for name in FOLLOWERS:
            self.follow(name)
        end = time.monotonic() + SECONDS
        while time.monotonic() < end:
            time.sleep(self.random.choice((0.02, 0.1, 0.3, 0.6)))
            self.see_to_leaders()
            self.disturb()
        self.finish()

    def finish(self) -> None:
        """Lets the leaders end, the followers catch up, and ends them."""
        end = time.monotonic() + LIMIT
        is_done = False
        while not is_done:
            if time.monotonic() > end:
                raise AssertionError("no leader has published all that it has")
            self.see_to_leaders()
            until(lambda: self.has_begun(), LIMIT)
            with open(f"{self.folder}/stop", "w", encoding="ascii"):
                pass
            statuses = [process.wait(LIMIT) for process in self.leaders.values()]
            self.leaders = {}
            if any(status not in (0, 3, -signal.SIGKILL) for status in statuses):
                raise AssertionError(f"leaders ended with {statuses}")
            is_done = 0 in statuses
            os.remove(f"{self.folder}/stop")
        head = redis.Redis(port=self.redis.port).hget("{changecap}:head", "digest")
        self.head = head.decode() if head else "-"
        for name in FOLLOWERS:
            if self.followers[name].poll() is not None:
                raise AssertionError(f"{name} ended with status {self.followers[name].returncode}")
            until(lambda name=name: self.is_at_head(name), LIMIT)
        for name in FOLLOWERS:
            self.followers[name].send_signal(signal.SIGTERM)
            status = self.followers[name].wait(LIMIT)
            if status:
                raise AssertionError(f"{name} ended with status {status} after SIGTERM")

    def has_begun(self) -> bool:
        """Whether each leader that runs leads, or has ended."""
        def leads(name: str) -> bool:
            return any(line[0] == "acked" for line in self.lines(f"{name}.leader"))

        return all(process.poll() is not None or leads(name) for name, process in self.leaders.items())

    def is_at_head(self, name: str) -> bool:
        """Whether what a follower has shown last is the head."""
        lines = self.lines(f"{name}.follower")
        return bool(lines) and lines[-1][0] == self.head

    def lines(self, name: str) -> list[list[str]]:
        """The whole lines of a file of notes, in words."""
        try:
            with open(f"{self.folder}/{name}", encoding="utf-8") as file:
                return [line.split() for line in file if line.endswith("\n")]
        except FileNotFoundError:
            return []

    def end(self) -> None:
        """Ends what runs."""
        for process in (*self.leaders.values(), *self.followers.values()):
            if process.poll() is None:
                self.kill(process)
        self.redis.kill()
        self.log.close()

    def check(self) -> None:
        """Compares what was shown with what the leaders had. AssertionError where it is not so."""
        states, entries, acked, begun = {}, {"-": ("", 0, "")}, {}, {}
        for number in range(1, self.count + 1):
            name = f"leader{number}"
            for word, *words in self.lines(f"{name}.leader"):
                if word == "state":
                    states[name, int(words[0])] = int(words[1])
                    if len(begun[name]) == 1:
                        begun[name].append(int(words[1]))
                elif word == "entry":
                    entries[words[0]] = name, int(words[1]), words[2]
                elif word == "begin":
                    begun[name] = [words[0]]
                else:
                    acked[name] = max(acked.get(name, 0), int(words[0]))
        chain, at = [], self.head
        while at != "-":
            chain.append(at)
            at = entries[at][2]
        on_chain = {"-", *chain}

        def state_at(digest: str) -> int:
            name, version, _ = entries[digest]
            return states[name, version] if name else 0

        last = Counter({name: version for name, version, _ in (entries[it] for it in reversed(chain))})
        for name, version in acked.items():
            assert last[name] >= version, f"the broker has not version {version}, which {name} waited for"
        for name, (digest, *found) in begun.items():
            assert digest in on_chain, f"{name} began at {digest}, which is not on the chain"
            assert not found or found[0] == state_at(digest), f"{name} began with other tables than {digest}"
        self.shown = 0
        for name in FOLLOWERS:
            for digest, version, found in self.lines(f"{name}.follower"):
                assert digest in on_chain, f"{name} showed {digest}, which is not on the chain"
                assert int(version) == entries[digest][1], f"{name} showed {digest} as version {version}"
                assert int(found) == state_at(digest), f"{name} showed other tables than those of {version}"
                self.shown += 1
        assert self.shown > 0 and chain, "nothing was shown"
        self.entries = len(chain)


def run_once(seed: str, ports: queue.SimpleQueue[int]) -> tuple[str | None, dict[str, int]]:
    """What failed in a run, if anything, and what it did. The run has a port for itself."""
    folder, port = tempfile.mkdtemp(prefix="followers-"), ports.get()
    run = Run(seed, folder, port)
    try:
        try:
            run.go()
            run.check()
        finally:
            run.end()
            ports.put(port)
    except Exception as error:  # noqa: BLE001 - each failure is told, and the other runs are made
        return f"{type(error).__name__}: {error}; its files are in {folder}", dict(run.kills)
    shutil.rmtree(folder)
    return None, {**run.kills, "entries": run.entries, "states shown": run.shown}


def main() -> int:
    runs = int(sys.argv[1]) if len(sys.argv) > 1 else 200
    jobs = int(sys.argv[2]) if len(sys.argv) > 2 else os.cpu_count() or 1
    seed = sys.argv[3] if len(sys.argv) > 3 else str(time.time_ns())
    print(f"seed {seed}", flush=True)
    passed, failed, done, began = 0, 0, Counter[str](), time.monotonic()
    ports: queue.SimpleQueue[int] = queue.SimpleQueue()
    for port in itertools.islice(filter(is_free, PORTS), jobs):
        ports.put(port)
    with concurrent.futures.ThreadPoolExecutor(jobs) as pool:
        works = {pool.submit(run_once, f"{seed} {number}", ports): number for number in range(runs)}
        for work in concurrent.futures.as_completed(works):
            why, did = work.result()
            done.update(did)
            passed, failed = passed + (why is None), failed + (why is not None)
            if (passed + failed) % 20 == 0:
                print(f"{passed + failed} of {runs} after {time.monotonic() - began:.0f} s", flush=True)
            if why:
                print(f"run {works[work]}: {why}", flush=True)
    counts = ", ".join(f"{count} {what}" for what, count in sorted(done.items()))
    print(f"in {time.monotonic() - began:.0f} seconds: {counts}")
    print(f"{passed} passed, {failed} failed")
    return 1 if failed else 0


if __name__ == "__main__":
    sys.exit(main())
