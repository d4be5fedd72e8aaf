"""What a node takes."""
from __future__ import annotations

import ctypes
from abc import ABC, abstractmethod
from collections.abc import Callable
from typing import Any, Generic, TypeVar

from ._library import LIBRARY
from .values import Kind, Operation, copied, within

# What a submission answers: its number, or what will tell it.
Number = TypeVar("Number")


class Taking(ABC, Generic[Number]):
    """What a node takes: objects, submissions, proposals and the lines of other nodes.

    What is submitted is learnt later, or never. The update with number `n` of replica `r` is learnt here
    once `view()[r] >= n`, and at another replica `q`, as far as was heard, once `known(q)[r] >= n`. A group that has
    settled is silent: `again` then sends nothing, and what `q` has of others' updates may never be heard here. So leave
    once `known(q)[own] >= submitted()` for each other `q`: until then `again` tells them. Whoever leaves before the
    others may leave them without a majority.

    Every call may raise `OutOfMemoryError`. After each refusal the node is as before. A number that does not fit where
    it goes raises `ValueError`. """

    @abstractmethod
    def _take(self, call: Callable[..., int], *words: Any) -> None:
        """Makes a call."""

    @abstractmethod
    def _told(self, number: int) -> Number:
        """What a submission answers, by its number."""

    def _submit(self, call: Callable[..., int], object_number: int, *words: Any) -> Number:
        place = ctypes.c_uint32()
        self._take(call, within(object_number, 16, "object_number"), *words, place)
        return self._told(place.value)

    def add(self, object_number: int, kind: Kind) -> None:
        """Adds an object under a number, the same at all nodes. One that is added later has what was learnt before. It
        is in no journal.

        `TakenError` comes where the number has an object.
        """
        self._take(LIBRARY.lattice_add, within(object_number, 16, "object_number"), Kind(kind))

    def inc(self, object_number: int, by: int = 1) -> Number:
        """Adds so much, of 32 bits, to a counter, and answers the update's number among this node's. It counts once
        it is learnt.

        `FullError` comes where the node has submitted its cap; so it does from every call that submits.
        """
        return self._submit(LIBRARY.lattice_inc, object_number, within(by, 32, "by"))

    def dec(self, object_number: int, by: int = 1) -> Number:
        """Takes so much, of 32 bits, off a counter."""
        return self._submit(LIBRARY.lattice_dec, object_number, within(by, 32, "by"))

    def raise_to(self, object_number: int, value: int) -> Number:
        """Makes a max register at least this value, of 64 bits."""
        return self._submit(LIBRARY.lattice_raise, object_number, within(value, 64, "value"))

    def put(self, object_number: int, element: int) -> Number:
        """Puts an element, of 64 bits, into a set."""
        return self._submit(LIBRARY.lattice_put, object_number, within(element, 64, "element"))

    def remove(self, object_number: int, element: int) -> Number:
        """Takes an element out of a set, as far as this node's view has it: what another node puts in at the same
        time stays, and so does a put of this node's own that the view lacks.

        `NoObjectError` comes where there is no such object, `TooManyTagsError` where the view has over 64 puts of the
        element that stand.
        """
        return self._submit(LIBRARY.lattice_remove, object_number, within(element, 64, "element"))

    def mark(self, object_number: int) -> Number:
        """Submits what changes no object. Once it is learnt, the view has all that anybody had learnt before it was
        submitted."""
        return self._submit(LIBRARY.lattice_mark, object_number)

    def own(self, object_number: int, operation: bytes) -> Number:
        """Submits an operation of one's own, which `next_learnt` and `absorb_into` hand out at every node.

        `TooLargeError` comes exactly above `OWN_BYTES` bytes.
        """
        return self._submit(LIBRARY.lattice_own, object_number, copied(operation), len(operation))

    def submit_at(
        self, number: int, object_number: int, operation: Operation, value: int = 0, own: bytes = b""
    ) -> None:
        """Submits an operation as this node's update with this number, so that it counts once, however often it is
        asked for: under a number that has this very operation nothing changes. It has a value of 64 bits, or bytes of
        one's own.

        `BadKindError` comes for a removal and a vote, `TooLargeError` where an amount has more than 32 bits or there
        are over `OWN_BYTES` bytes, `StaleError` where something else has this number, and `AheadError` where nothing
        has it and it is not the next.
        """
        words = within(number, 32, "number"), within(object_number, 16, "object_number"), Operation(operation)
        self._take(LIBRARY.lattice_submit_at, *words, within(value, 64, "value"), copied(own), len(own))

    def propose(self, commit: int, value: int) -> None:
        """Proposes a value, of 64 bits, to an adopt-commit object.

        `NoCommitError` comes where there is no such object, `AlreadyProposedError` where this node has proposed to
        it. """
        self._take(LIBRARY.lattice_propose, within(commit, 8, "commit"), within(value, 64, "value"))

    def receive(self, line: bytes) -> None:
        """Takes a line that another node wanted sent here, without its end. Lines may be lost, come again and in any
        order. None may be shortened or changed, or made up by whoever is no node of the group: what a broken connection
        left of a line is dropped, as it may be another valid message.

        These refusals are harmless: the line is passed over. `TooLongError`, `BadLineError` and `BadNumberError` come
        where it is no message, `NoMessageError` where it is what a client asks of a node, `ElsewhereError` where it is
        for another replica or group. `OutOfMemoryError` loses it, as a transport may.

        `ClashError` and `GapError` say that a node came back with less than it had, that a line was changed on its way,
        or that somebody lies. Then what nodes tell may be wrong: the program stops, and a person has to look. The same
        holds of any other refusal, as of `NoInstanceError`, which comes where a node was made with other `commits`. """
        self._take(LIBRARY.lattice_receive, copied(line), len(line))

    def again(self) -> None:
        """Wants all that waits for an answer sent once more, but what the others are known to have. It is to be
        called by a timer at each node, as one call may not do: without it, what a transport loses stays lost. Where
        all is known, it sends nothing."""
        self._take(LIBRARY.lattice_again)
