"""What calls take and answer."""
from __future__ import annotations

import ctypes
from collections.abc import Sequence
from dataclasses import dataclass
from enum import IntEnum
from typing import Protocol

from . import _calls

# How many bytes an operation of one's own may have.
OWN_BYTES = 248


class Kind(IntEnum):
    """What an object is."""

    COUNTER = _calls.COUNTER
    MAX_REGISTER = _calls.MAX_REGISTER
    OR_SET = _calls.OR_SET


class Operation(IntEnum):
    """What an update does."""

    INC = _calls.UPDATE_INC
    DEC = _calls.UPDATE_DEC
    RAISE = _calls.UPDATE_RAISE
    PUT = _calls.UPDATE_PUT
    REMOVE = _calls.UPDATE_REMOVE
    MARK = _calls.UPDATE_MARK
    VOTE = _calls.UPDATE_VOTE
    OWN = _calls.UPDATE_OWN


@dataclass(frozen=True, slots=True)
class Mail:
    """A message that a node wants sent: for which replica, and its line, without an end of line in it. It may be lost,
    come again and late, but never shortened or changed."""

    to: int
    line: bytes


@dataclass(frozen=True, slots=True)
class Update:
    """An update that was learnt.

    Its id is the replica that submitted it and its number among that one's, from 1. `value` is the amount, value or
    element, and of a removal how many puts it takes out; `own` are the bytes of an operation of one's own.
    """

    replica: int
    number: int
    object: int
    operation: Operation
    value: int
    own: bytes

    @property
    def id(self) -> tuple[int, int]:
        """The update's id, which no other update of the group has."""
        return self.replica, self.number


@dataclass(frozen=True, slots=True)
class Outcome:
    """What a node returned from an adopt-commit object: where it is committed, every node that returns has this
    value; where it is not, another may have another value, but then no node commits."""

    value: int
    committed: bool


class Absorbs(Protocol):
    """An object of one's own, which is made of the updates that a node learns.

    It is not added to a node: its number is a name that stands in its updates.

    `Asking.absorb_into` hands it each update once, those of one replica in the order of their numbers. Those of
    different replicas come in any order, which may differ from node to node; even one before another that its writer
    had learnt. So that nodes with the same view have equal objects, two updates of different replicas have to lead to
    the same object in either order: nothing here checks that. """

    def absorb(self, update: Update) -> None:
        """Takes an update: of any object, and of any operation, so that it may have to be passed over. Bytes that it
        does not know it passes over too, the same ones at each node."""


def within(value: int, bits: int, name: str) -> int:
    """A number that fits into so many bits: ctypes would cut it off."""
    if not 0 <= value < 1 << bits:
        raise ValueError(f"{name} is {value}, and not of 0 to {(1 << bits) - 1}")
    return value


def copied(data: bytes) -> ctypes.Array[ctypes.c_uint8]:
    """Bytes where the library may read them: at least one, so that the pointer leads somewhere."""
    return (ctypes.c_uint8 * max(len(data), 1)).from_buffer_copy(data or b"\0")


def votes_of(votes: Sequence[int]) -> ctypes.Array[ctypes.c_uint16]:
    """Votes where the library may read them: at least one, so that the pointer leads somewhere."""
    return (ctypes.c_uint16 * max(len(votes), 1))(*(within(it, 16, "a vote") for it in votes))
