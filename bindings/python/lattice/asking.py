"""What a node tells."""
from __future__ import annotations

import ctypes
from collections.abc import Callable, Iterator
from typing import Any

from . import _calls
from ._library import LIBRARY
from .errors import check
from .handle import Handle
from .values import OWN_BYTES, Absorbs, Mail, Operation, Outcome, Update, within

Place = ctypes.c_uint8 | ctypes.c_uint32 | ctypes.c_uint64 | ctypes.c_int64


class Asking:
    """What a node tells: its mail, what it has learnt, and answers by its view.

    `next_mail` and questions about an object may raise `OutOfMemoryError`. """

    _handle: Handle

    def _call(self, call: Callable[..., Any], *words: Any) -> Any:
        """What a call of the library answers for this node."""
        return self._handle.call(call, *words)

    def _answer(self, place: Place, call: Callable[..., int], *words: int) -> int:
        """The number that a call puts into a place."""
        check(self._call(call, *words, place))
        return int(place.value)

    def _ask(self, place: Place, call: Callable[..., int], object_number: int, *words: int) -> int:
        return self._answer(place, call, within(object_number, 16, "object_number"), *words)

    def next_mail(self) -> Mail | None:
        """The next message that is to be sent, which then is no longer there; `None` where there is none."""
        return self._handle.next_mail()

    def mail(self) -> Iterator[Mail]:
        """The messages that are to be sent, one by one, until there is none."""
        while mail := self.next_mail():
            yield mail

    def next_learnt(self) -> Update | None:
        """The next update that was learnt and not yet handed out; `None` where there is none further. Each is
        handed out once, of each replica in the order of numbers. A node that is opened anew begins with the first."""
        told, length = _calls.Learnt(), ctypes.c_size_t()
        data = (ctypes.c_uint8 * OWN_BYTES)()
        status = self._call(LIBRARY.lattice_next_learnt, told, data, len(data), length)
        if status == _calls.NONE:
            return None
        check(status)
        own = bytes(memoryview(data)[: length.value])
        return Update(told.replica, told.number, told.object, Operation(told.kind), told.value, own)

    def learnt(self) -> Iterator[Update]:
        """The updates that were learnt and not yet handed out, one by one."""
        while update := self.next_learnt():
            yield update

    def absorb_into(self, absorbing: Absorbs) -> int:
        """Hands all updates that were learnt and not yet handed out to an object of one's own, and answers how many
        there were. An object has to be handed all from the first on, so that a node has one such object, which may
        hold others, and which begins anew where the node is opened anew."""
        count = 0
        for update in self.learnt():
            absorbing.absorb(update)
            count += 1
        return count

    def view(self) -> list[int]:
        """How many updates of each of the replicas 0 to 7 this node's view has."""
        counts = (ctypes.c_uint32 * 8)()
        check(self._call(LIBRARY.lattice_view, counts))
        return list(counts)

    def known(self, replica: int) -> list[int]:
        """How many updates of each replica another node's view has at least, as far as was heard: it may stay behind,
        once the group is silent. Of this node itself `view` says it."""
        counts = (ctypes.c_uint32 * 8)()
        check(self._call(LIBRARY.lattice_known, within(replica, 8, "replica"), counts))
        return list(counts)

    def submitted(self) -> int:
        """How many updates this node has submitted: the number of the last."""
        return self._answer(ctypes.c_uint32(), LIBRARY.lattice_submitted)

    def outcome(self, commit: int) -> Outcome | None:
        """What this node returned from an adopt-commit object; `None` before it did, and where there is none."""
        value, committed = ctypes.c_uint64(), ctypes.c_uint8()
        status = self._call(LIBRARY.lattice_outcome, within(commit, 8, "commit"), value, committed)
        if status == _calls.NONE:
            return None
        check(status)
        return Outcome(value.value, committed.value == 1)

    def total(self, object_number: int) -> int:
        """A counter's total, by the view: what was added less what was taken off.

        `NoObjectError` comes where there is no such object, `ForeignError` where it is of another kind; so it is of
        each question. """
        return self._ask(ctypes.c_int64(), LIBRARY.lattice_total, object_number)

    def at_least(self, object_number: int, bound: int) -> bool:
        """Whether a counter's total is at least this number, of 64 bits."""
        return self._ask(ctypes.c_uint8(), LIBRARY.lattice_at_least, object_number, within(bound, 64, "bound")) == 1

    def largest(self, object_number: int) -> int:
        """The largest value that a max register was raised to, or 0."""
        return self._ask(ctypes.c_uint64(), LIBRARY.lattice_largest, object_number)

    def has(self, object_number: int, element: int) -> bool:
        """Whether a set has an element."""
        return self._ask(ctypes.c_uint8(), LIBRARY.lattice_has, object_number, within(element, 64, "element")) == 1

    def size(self, object_number: int) -> int:
        """How many elements a set has."""
        return self._ask(ctypes.c_uint64(), LIBRARY.lattice_size, object_number)

    def items(self, object_number: int) -> list[int]:
        """A set's elements, in ascending order."""
        room, length = 16, ctypes.c_size_t()
        while True:
            buffer = (ctypes.c_uint64 * room)()
            status = self._call(LIBRARY.lattice_items, within(object_number, 16, "object_number"), buffer, room, length)
            if status != _calls.SMALL:
                check(status)
                return list(buffer[: length.value])
            room = length.value
