"""A node in memory alone."""
from __future__ import annotations

from collections.abc import Callable, Sequence
from typing import TYPE_CHECKING, Any, NoReturn

from . import _calls
from ._library import LIBRARY
from .asking import Asking
from .errors import check
from .handle import Handle
from .taking import Taking
from .values import votes_of, within

if TYPE_CHECKING:
    from typing import Self


class Replica(Taking[int], Asking):
    """A replica of a group. Threads may share it: a call waits for the one before it.

    After it was closed every call raises `ValueError`. A process that forks has its nodes twice: the copy must not use
    them. """

    def close(self) -> None:
        """Frees the node."""
        self._handle.free()

    def __enter__(self) -> Self:
        return self

    def __exit__(self, *error: object) -> None:
        self.close()

    def __del__(self) -> None:
        if hasattr(self, "_handle"):
            self.close()

    def __reduce__(self) -> NoReturn:
        raise TypeError("a node is never copied: it would be in its group twice")

    def _told(self, number: int) -> int:
        return number


class Node(Replica):
    """A replica of a group that is in memory alone: once it was closed, or its process ended, no node may come back
    under its number. A `Durable` can. """

    def __init__(
        self, replicas: int, own: int, *, commits: int = 0, cap: int = 1_000_000, votes: Sequence[int] = ()
    ) -> None:
        """Replica `own`, from 0, of a group of 1 to 8 in which nothing has happened.

        All nodes of a group have the same numbers, but for `own`: up to 16 adopt-commit objects, a cap of 1 to
        1,000,000 updates for each replica, and 1 to 1,000 votes for each, where none are given one. **Nothing checks
        that, but of `replicas`**: a line from a group of another size is refused with `ElsewhereError`. Where nodes
        differ in `commits`, `cap` or `votes`, no guarantee is left.

        `BadGroupError` comes where one of these is out of its range, and `NoReplicaError` where `own` is no replica.
        """
        place = _calls.Node()
        check(
            LIBRARY.lattice_node_new(
                within(replicas, 8, "replicas"),
                within(own, 8, "own"),
                within(commits, 8, "commits"),
                within(cap, 32, "cap"),
                votes_of(votes),
                len(votes),
                place,
            )
        )
        self._handle = Handle(place)

    def _take(self, call: Callable[..., int], *words: Any) -> None:
        check(self._call(call, *words))
