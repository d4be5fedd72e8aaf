"""An example of an object of one's own."""
from __future__ import annotations

from collections.abc import Iterator
from dataclasses import dataclass

from .errors import TooLargeError
from .values import OWN_BYTES, Operation, Update

# How many bytes a key and its value may have together.
KEYED_BYTES = OWN_BYTES - 9


@dataclass(frozen=True, order=True, slots=True)
class Write:
    """A write: of two, the one that is larger is the last."""

    stamp: int
    id: tuple[int, int]
    value: bytes


class WriteMap:
    """A map from keys to values, both of them bytes, in which the last write to a key wins.

    The last is the one with the largest stamp, and of several with one stamp the one with the largest id; so
    updates of different replicas lead to the same map in any order. A good stamp is one more than the largest that
    the writer knows, or its clock's time. """

    def __init__(self, object_number: int) -> None:
        """The map of an object's number, in which nothing was written."""
        self._object = object_number
        self._last: dict[bytes, Write] = {}

    @staticmethod
    def write(stamp: int, key: bytes, value: bytes) -> bytes:
        """The operation that writes a value, for `own`: the stamp in eight bytes, the lowest first, the key's
        length, the key and the value, as `la_types::WriteMap` in Rattle has it.

        `TooLargeError` comes exactly where key and value have more than `KEYED_BYTES` bytes.
        """
        if len(key) + len(value) > KEYED_BYTES:
            raise TooLargeError
        return stamp.to_bytes(8, "little") + bytes([len(key)]) + key + value

    def absorb(self, update: Update) -> None:
        """Takes an update, where it is a write to this map."""
        own = update.own
        if update.object != self._object or update.operation != Operation.OWN or len(own) < 9 or len(own) < 9 + own[8]:
            return
        key, value = own[9 : 9 + own[8]], own[9 + own[8] :]
        write = Write(int.from_bytes(own[:8], "little"), update.id, value)
        if key not in self._last or self._last[key] < write:
            self._last[key] = write

    def get(self, key: bytes) -> bytes | None:
        """The value that was last written to a key."""
        write = self._last.get(key)
        return write.value if write else None

    def items(self) -> Iterator[tuple[bytes, bytes]]:
        """The keys that were written to, in ascending order, each with its value."""
        for key in sorted(self._last):
            yield key, self._last[key].value
