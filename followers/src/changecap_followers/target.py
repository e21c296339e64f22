"""Where a follower keeps the tables."""
from __future__ import annotations

from typing import Protocol

from .entry import Place, Snapshot


class Target(Protocol):
    """The tables of a follower, and the place of the stream that they are at. Each call that writes changes
    both in one step, or neither. It raises Poisoned where a change meets a conflict or a table is otherwise
    than the leader's, and Unavailable where it may succeed later."""

    def place(self) -> Place:
        """The place of the tables."""

    def apply(self, changeset: bytes, tables: bytes, place: Place) -> None:
        """Applies a changeset that leads on to a place. Tables that are not there yet are created. A change
        that meets a conflict is an error."""

    def replace(self, snapshot: Snapshot) -> None:
        """Puts the tables of a snapshot in place of all that was applied."""

    def close(self) -> None:
        """Ends it."""
