"""The command changecap-follow."""
from __future__ import annotations

import argparse
import logging
import sys
import threading

import changecap

from .command import DONE, Ending, broker_of, parser, set_up_log, status_of
from .follower import Follower
from .progress import Progress, follower_line
from .retry import Retry, Stopped
from .server_target import ServerTarget
from .sqlite_target import SqliteTarget
from .target import Target

log = logging.getLogger(__name__)
_ABOUT = """Follows a stream: a database of SQLite, or a server in memory, has the tables of the leader.

With --server the lines of standard input are answered from its tables: get and scan, as `changecap shell`
takes them. SIGTERM and SIGINT end it, between two transactions, and so does the end of the input with
--server."""
_STATUSES = """0 it was ended, or has caught up with --once; 1 it failed; 2 the command line is wrong; 4 an
entry or the snapshot cannot be applied, and the tables stay as they are"""


def options() -> argparse.ArgumentParser:
    """The parser of the command line."""
    made = parser("changecap-follow", _ABOUT, _STATUSES)
    target = made.add_mutually_exclusive_group(required=True)
    target.add_argument("--sqlite", metavar="FILE", help="keep the tables in this database of SQLite")
    target.add_argument("--server", action="store_true", help="keep the tables in a server in memory")
    made.add_argument("--once", action="store_true", help="end when it has caught up")
    made.add_argument("--one-by-one", action="store_true",
                      help="apply each entry by itself, and none together")
    return made


def answer(target: ServerTarget, line: str) -> str:
    """The reply to a line that reads."""
    if line.split(maxsplit=1)[0] not in ("get", "scan"):
        return "a follower answers get and scan"
    try:
        return target.server.call(line)
    except changecap.Error as error:
        return str(error)


def answer_lines(target: ServerTarget, follower: Follower, ending: Ending) -> None:
    """Follows on a thread of its own, and answers the lines of standard input. Raises what ends the
    following."""
    failed = list[Exception]()

    def follow() -> None:
        try:
            follower.run(Retry(ending.stop))
        except Stopped:
            pass
        except Exception as error:  # noqa: BLE001 - whatever it is, the main thread raises it
            failed.append(error)
            ending.end()

    thread = threading.Thread(target=follow, name="follower")
    thread.start()
    try:
        for line in ending.lines():
            print(answer(target, line), flush=True)
    finally:
        ending.end()
        thread.join()
    if failed:
        raise failed[0]


def target_of(arguments: argparse.Namespace) -> Target:
    """Where the tables are kept."""
    if arguments.server:
        return ServerTarget(arguments.stream)
    return SqliteTarget(arguments.sqlite, arguments.stream)


def serve(arguments: argparse.Namespace, follower: Follower, ending: Ending) -> int:
    """Follows, and answers the exit status."""
    log.info("follows from %s on", follower.place)
    if arguments.progress:
        Progress(follower_line(follower), arguments.progress, ending.stop).start()
    try:
        if arguments.once:
            follower.catch_up(Retry(ending.stop))
        if isinstance(follower.target, ServerTarget):
            answer_lines(follower.target, follower, ending)
        elif not arguments.once:
            follower.run(Retry(ending.stop))
    finally:
        log.info("ends at %s", follower.place)
        follower.target.close()
    return DONE


def main() -> int:
    made = options()
    arguments = made.parse_args()
    if arguments.once and arguments.server:
        made.error("--once is for --sqlite: the tables of --server are gone at its end")
    set_up_log(arguments)
    broker, ending = broker_of(arguments, made), Ending()

    def work() -> int:
        target = Retry(ending.stop).until_done(lambda: target_of(arguments))
        return serve(arguments, Follower(broker, target, arguments.one_by_one), ending)

    return status_of(work)


if __name__ == "__main__":
    sys.exit(main())
