"""The command changecap-publish."""
from __future__ import annotations

import argparse
import logging
import re
import sys

import changecap

from .command import DONE, UNPUBLISHED, Ending, broker_of, parser, set_up_log, status_of
from .leader import Leader
from .progress import Progress, leader_line
from .redis_broker import RedisBroker
from .retry import Retry
from .snapshots import Snapshots

log = logging.getLogger(__name__)
_ABOUT = """A changecap server whose changes are published to a stream.

It begins with what the stream has, and carries out the commands create, commit, commitat, apply, get and
scan on standard input, a line each, as `changecap shell` does. Each reply is printed at once, or with --wait
when the broker has its commit. At the end of the input, at SIGTERM and at SIGINT it publishes what is left,
and ends."""
_STATUSES = """0 all is published; 1 it failed; 2 the command line is wrong; 3 another publisher has written,
or the stream has lost entries; 4 what the stream has cannot be applied; 5 it ended before all was
published"""
_CREATE = re.compile(r" *create +([A-Za-z_]\w*) +([kv]+) *$", re.A)
_COMMANDS = "create", "commit", "commitat", "apply", "get", "scan"
# How long it waits for the broker until it looks whether it is ended.
_WAIT_SECONDS = 0.5
_VERSION = re.compile(r"ok version (\d+)")


def options() -> argparse.ArgumentParser:
    """The parser of the command line."""
    made = parser("changecap-publish", _ABOUT, _STATUSES)
    made.add_argument("--wait", action="store_true", help="print each reply when the broker has its commit")
    made.add_argument("--snapshot-every", metavar="ENTRIES", type=int, default=10_000,
                      help="how many entries are between snapshots, or 0 for none (10000)")
    made.add_argument("--keep", metavar="ENTRIES", type=int, default=1_000,
                      help="how many entries before a snapshot are kept (1000)")
    made.add_argument("--drain", metavar="SECONDS", type=float, default=10,
                      help="how long it publishes what is left at the end (10)")
    return made


def reply_to(leader: Leader, line: str) -> str:
    """The reply to a command, which is carried out."""
    if line.split(maxsplit=1)[0] not in _COMMANDS:
        return f"a leader takes {', '.join(_COMMANDS)}"
    created = _CREATE.match(line)
    try:
        if created and created[1] not in leader.tables:
            return f"ok version {leader.ensure_table(created[1], [letter == 'k' for letter in created[2]])}"
        return leader.server.call(line)
    except (changecap.Error, ValueError) as error:
        return str(error)


def is_published(leader: Leader, version: int, ending: Ending) -> bool:
    """Waits until the broker has a version, or the command is ended. Answers whether it has."""
    while not leader.wait(version, _WAIT_SECONDS):
        if ending.stop.is_set():
            return False
    return True


def serve(arguments: argparse.Namespace, broker: RedisBroker, ending: Ending) -> int:
    """Carries out the commands of standard input, and answers the exit status."""
    every = arguments.snapshot_every
    snapshots = Snapshots(broker, every, arguments.keep) if every else None
    retry = Retry(ending.stop)
    keeps_all = retry.until_done(broker.keeps_all)
    leader = Leader(broker, snapshots=snapshots, retry=retry, failed=ending.end)
    log.info("leads from %s on", leader.publisher.place)
    if not keeps_all:
        log.warning("the broker does not keep each entry on its disk (appendonly yes, appendfsync always): "
                    "it may lose entries that it has acknowledged")
    if arguments.progress:
        Progress(leader_line(leader), arguments.progress, ending.stop).start()
    try:
        for line in ending.lines():
            reply = reply_to(leader, line)
            made = _VERSION.match(reply)
            if made and arguments.wait and not is_published(leader, int(made[1]), ending):
                break
            print(reply, flush=True)
    finally:
        all_is = leader.close(arguments.drain)
    return DONE if all_is else UNPUBLISHED


def main() -> int:
    made = options()
    arguments = made.parse_args()
    set_up_log(arguments)
    broker, ending = broker_of(arguments, made), Ending()
    return status_of(lambda: serve(arguments, broker, ending))


if __name__ == "__main__":
    sys.exit(main())
