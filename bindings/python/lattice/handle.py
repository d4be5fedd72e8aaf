"""A handle of the library."""
from __future__ import annotations

import ctypes
import threading
from collections.abc import Callable
from typing import Any

from . import _calls
from ._library import LIBRARY
from .errors import check
from .values import Mail

# For how long a line of a message there is room at first.
LINE_BYTES = 512


def closed() -> Exception:
    return ValueError("the node is closed")


class Handle:
    """What the library made into a place: threads make one call at a time, and none once it is freed.

    `refusal` makes what a call raises in the place of being made, where it is not `None`. """

    def __init__(self, place: _calls.Node) -> None:
        self.lock = threading.RLock()
        self.place = place
        self.refusal: Callable[[], Exception] | None = None
        self._line = (ctypes.c_uint8 * LINE_BYTES)()

    def check(self) -> None:
        """Raises why no call is made; whoever asks has the lock."""
        if self.refusal:
            raise self.refusal()

    def call(self, call: Callable[..., Any], *words: Any) -> Any:
        """What a call answers."""
        with self.lock:
            self.check()
            return call(self.place, *words)

    def next_mail(self) -> Mail | None:
        """The next message that is to be sent."""
        to, length = ctypes.c_uint8(), ctypes.c_size_t()
        with self.lock:
            self.check()
            while True:
                status = LIBRARY.lattice_next_mail(self.place, to, self._line, len(self._line), length)
                if status != _calls.SMALL:
                    break
                self._line = (ctypes.c_uint8 * length.value)()
            if status == _calls.NONE:
                return None
            check(status)
            return Mail(to.value, bytes(memoryview(self._line)[: length.value]))

    def free(self) -> None:
        """Frees what the handle leads to, once."""
        with self.lock:
            if self.place.at:
                LIBRARY.lattice_node_free(self.place)
                self.place.at = None
            self.refusal = closed
