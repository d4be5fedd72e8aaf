"""A node with a journal on a disk."""
from __future__ import annotations

import ctypes
import os
from collections.abc import Callable, Iterator, Sequence
from contextlib import contextmanager
from pathlib import Path
from typing import Any

from . import _calls
from ._library import LIBRARY
from .errors import DamagedError, LatticeError, UnkeptError, check
from .folder import Folder
from .handle import Handle
from .node import Replica
from .taking import Taking
from .values import copied, votes_of, within

# For how long a record there is room at first.
RECORD_BYTES = 4096
# More than the bytes that a journal begins with.
FIRST_BYTES = 256


class LockedError(LatticeError):
    """This process or another has the folder."""

    text = "this process or another has the folder"


class JournalMissingError(LatticeError):
    """No `journal` is in the folder to be opened, and none was made: its disk may not be mounted. If it is lost, the
    replica must never run again. A first start is `Durable.create`."""

    text = (
        "nothing here: mount its disk; if it is lost, never run this replica again; a first start is `Durable.create`"
    )


class JournalThereError(LatticeError):
    """A `journal` is in the folder where one was to be made, though perhaps an empty one. It is as before: `Durable`
    opens it."""

    text = "there is a journal: a journal is made once, and `Durable` opens it"


class ClosedError(LatticeError):
    """The node is closed by an earlier failure of its disk, and has to be opened anew."""

    text = "the node is closed by an earlier failure of its disk, and has to be opened anew"


def batching() -> Exception:
    return ValueError("a batch has begun: until it ends only its own calls are made")


class Pending:
    """A submission of a batch."""

    def __init__(self, number: int, batch: Batch) -> None:
        self._number = number
        self._batch = batch

    @property
    def number(self) -> int:
        """The submission's number among those of the node; before it is on the disk `UnkeptError` comes."""
        if not self._batch.is_kept:
            raise UnkeptError
        return self._number


class Batch(Taking[Pending]):
    """Calls of a `Durable` that have one sync: they take, and nothing is told before they have ended."""

    def __init__(self, handle: Handle) -> None:
        self._place: _calls.Node | None = handle.place
        self.is_kept = False

    def _take(self, call: Callable[..., int], *words: Any) -> None:
        if self._place is None:
            raise ValueError("the batch has ended")
        check(call(self._place, *words))

    def _told(self, number: int) -> Pending:
        return Pending(number, self)

    def _end(self) -> None:
        self._place = None


class Durable(Replica):
    """A replica of a group with a journal on a disk, by which it comes back under its number after its process has
    ended, at whatever moment.

    Every call that takes something answers once it is on the disk, and nothing is told before. One sync for several
    calls is `batch`. Where a write or a sync fails, the call raises an `OSError`, and every further one
    `ClosedError`: the last calls are in the journal or not, and the node has to be opened anew.

    The journal is a file in a folder, which is the same as a folder of `lattice init` and `lattice node --journal`:
    each of the two may go on where the other ended. It has neither the objects nor what `next_learnt` handed out:
    after each start the objects are added again, and all that the view has is handed out again, so that an object of
    one's own is built anew.

    **A node whose journal is lost, or is older than the node, must never come back under its number.** It would give
    an id to two updates, or accept what it had refused. So a journal is made once, by `create`, where a person says
    that the replica never was. Every other start is `Durable(..)`, which opens and makes none: a folder may be empty
    because its disk is not mounted. And a copy of a journal is never started, but where the folder moves, and is then
    used nowhere else. """

    def __init__(
        self,
        replicas: int,
        own: int,
        path: str | os.PathLike[str],
        *,
        commits: int = 0,
        cap: int = 1_000_000,
        votes: Sequence[int] = (),
    ) -> None:
        """Opens the journal of a folder, which was made once, by `create` or `lattice init`: the replica by it. What a
        crash left of a record goes. The numbers are as of a `Node`.

        `JournalMissingError` comes where no journal is in the folder, and none is made, `LockedError` where this
        process or another has the folder, and `OSError` where there is no folder, or a file can't be opened, read or
        written. Else `BadGroupError`, `NoReplicaError`, `NoJournalError`, as of an empty file, `OtherJournalError`,
        `DamagedError`, with its `line`, or `OutOfMemoryError`, and then the journal is as before.
        """
        self._start(words_of(replicas, own, commits, cap, votes), Path(path), is_first=False)

    @classmethod
    def create(
        cls,
        replicas: int,
        own: int,
        path: str | os.PathLike[str],
        *,
        commits: int = 0,
        cap: int = 1_000_000,
        votes: Sequence[int] = (),
    ) -> Durable:
        """Makes the journal of a folder where none stands, and opens it: a replica in which nothing has happened. It is
        for the first start of a replica that never was, once: one whose journal is lost must not begin anew. The folder
        has to exist, and the numbers are as of a `Node`.

        `JournalThereError` comes where anything stands under the name `journal`, also an empty file, and `LockedError`
        where this process or another has the folder. Else `BadGroupError`, `NoReplicaError` or `OutOfMemoryError`, and
        no journal was made. A crash, or an `OSError`, leaves no journal, and this may be called again, or the whole,
        which `Durable(..)` opens.
        """
        node = cls.__new__(cls)
        node._start(words_of(replicas, own, commits, cap, votes), Path(path), is_first=True)
        return node

    def _start(self, words: tuple[Any, ...], path: Path, is_first: bool) -> None:
        """Makes the node by what was found in its journal, or is to be the first there. A new file comes in the
        journal's place, on the disk: what was found need not be there yet."""
        try:
            self._folder = Folder(path)
        except BlockingIOError:
            raise LockedError from None
        try:
            found = first_for(self._folder, path, words) if is_first else found_in(self._folder, path)
            self._handle, keep = recovered(found, words)
            self._record = (ctypes.c_uint8 * RECORD_BYTES)()
            self._folder.replace(found[:keep])
        except BaseException:
            self.close()
            raise

    def close(self) -> None:
        """Frees the node, and lets another process have its folder."""
        if hasattr(self, "_handle"):
            with self._handle.lock:
                if self._handle.refusal is batching:
                    raise batching()
                self._handle.free()
        if hasattr(self, "_folder"):
            self._folder.close()
            del self._folder

    @contextmanager
    def batch(self) -> Iterator[Batch]:
        """Calls with one sync: whatever they took is on the disk once the `with` block has ended.

            with node.batch() as batch:
                for line in lines:
                    try:
                        batch.receive(line)
                    except LatticeError as refused:
                        print(refused)  # `receive` says which are harmless
                made = batch.inc(7, 5)
            print(made.number)

        Until then nothing of it is to be told to anybody, so that a submission answers a `Pending`, whose `number` is
        told afterwards; other calls of the node raise `ValueError` where the block makes them, and wait in other
        threads. A call that is refused changes nothing, and what was taken before it stays, as where the block raises.

        `OSError` and `ClosedError` come as from each call.
        """
        with self._handle.lock:
            self._handle.check()
            batch = Batch(self._handle)
            self._handle.refusal = batching
            try:
                yield batch
            finally:
                batch._end()
                # So it stays where the disk fails.
                self._handle.refusal = ClosedError
                self._keep()
                self._handle.refusal = None
                batch.is_kept = True

    def _take(self, call: Callable[..., int], *words: Any) -> None:
        with self.batch() as batch:
            batch._take(call, *words)

    def _next_record(self) -> bytes:
        """What is to be put behind the journal's bytes next; nothing where nothing was taken."""
        length = ctypes.c_size_t()
        while True:
            status = LIBRARY.lattice_next_record(self._handle.place, self._record, len(self._record), length)
            if status != _calls.SMALL:
                break
            self._record = (ctypes.c_uint8 * length.value)()
        if status == _calls.NONE:
            return b""
        check(status)
        return bytes(memoryview(self._record)[: length.value])

    def _keep(self) -> None:
        """Has on the disk what was taken since the last record."""
        record = self._next_record()
        if record:
            self._folder.append(record)
            check(LIBRARY.lattice_synced(self._handle.place))


def words_of(replicas: int, own: int, commits: int, cap: int, votes: Sequence[int]) -> tuple[Any, ...]:
    """The numbers of a group, and of a replica of it, as the library takes them."""
    counts = votes_of(votes)
    numbers = within(replicas, 8, "replicas"), within(own, 8, "own"), within(commits, 8, "commits")
    return *numbers, within(cap, 32, "cap"), counts, len(votes)


def found_in(folder: Folder, path: Path) -> bytes:
    """The bytes of a folder's journal."""
    try:
        return folder.read()
    except FileNotFoundError:
        raise JournalMissingError(f"{path}: {JournalMissingError.text}") from None


def first_for(folder: Folder, path: Path, words: tuple[Any, ...]) -> bytes:
    """The bytes of the journal that a node begins with, where its folder has none."""
    if folder.has_journal():
        raise JournalThereError(f"{path}: {JournalThereError.text}")
    first, length = (ctypes.c_uint8 * FIRST_BYTES)(), ctypes.c_size_t()
    check(LIBRARY.lattice_first_journal(*words, first, len(first), length))
    return bytes(memoryview(first)[: length.value])


def recovered(found: bytes, words: tuple[Any, ...]) -> tuple[Handle, int]:
    """A node by what was found in its journal, and how many of these bytes the file is to keep."""
    place, keep, line = _calls.Node(), ctypes.c_size_t(), ctypes.c_size_t()
    status = LIBRARY.lattice_node_recover(*words, copied(found), len(found), keep, line, place)
    if status == _calls.DAMAGED:
        what = "No older copy may be put in its place: the replica stays away"
        error = DamagedError(f"the journal is damaged from line {line.value} on. {what}")
        error.line = line.value
        raise error
    check(status)
    return Handle(place), keep.value
