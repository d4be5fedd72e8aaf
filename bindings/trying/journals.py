"""What is known of a node's journal: the bytes of its program's file, and what was taken that is not among them."""
from __future__ import annotations

from dataclasses import dataclass, field


@dataclass(frozen=True)
class Taken:
    """What a node took: a submission, by its number, or something else, by its line. It is not sure of a message, which
    may have left the node as it was."""

    line: bytes = b""
    number: int = 0
    is_sure: bool = True


@dataclass(frozen=True)
class Kept:
    """How much of what the program told the node is in a file: how many submissions, and proposals to what objects."""

    submissions: int = 0
    commits: frozenset[int] = frozenset()


@dataclass
class Journal:
    """The file of a node's program, and what is known of the records to come."""

    # What is on the disk, at first what each journal begins with, and what of that was told by the program.
    disk: bytes
    kept: Kept = Kept()
    # How long the record is that was made, where that was told, and what it was when it was handed over.
    length: int | None = None
    record: bytes | None = None
    kept_then: Kept = Kept()
    # Whether it was handed over since `synced` was last called.
    is_handed: bool = False
    # What it is made of, until it is seen, and what was taken since.
    made: list[Taken] = field(default_factory=list)
    taken: list[Taken] = field(default_factory=list)
    # Whether the node may have taken something since that it sent to itself, and whether it said that it took any.
    may_have_own: bool = False
    has_some: bool = False

    def restart(self, disk: bytes, kept: Kept) -> None:
        """A node was made of these bytes."""
        self.disk, self.kept, self.kept_then = disk, kept, kept
        self.length, self.record, self.is_handed = None, None, False
        self.made.clear()
        self.all_is_kept()

    def all_is_kept(self) -> None:
        """Nothing was taken since the last record."""
        self.taken.clear()
        self.may_have_own = self.has_some = False

    def is_kept(self) -> bool | None:
        """Whether all that was taken is on the disk: none, where that may be or not."""
        if self.length is not None or self.has_some or any(it.is_sure for it in self.taken):
            return False
        return None if self.taken or self.may_have_own else True

    def make(self, length: int) -> None:
        """A record was made of what was taken."""
        if self.length is None:
            self.made, self.taken = self.taken, []
            self.may_have_own = self.has_some = False
        self.length = length

    def synced(self) -> None:
        """The record is on the disk."""
        self.disk += self.record or b""
        self.kept = self.kept_then
        self.length, self.record, self.is_handed = None, None, False
