"""What disks do to a node's folder: the power is lost, and bits flip."""
from __future__ import annotations

import os
import random
import re
import struct
from pathlib import Path

from journals import with_record

# What tools/note-syncs.c notes: an inode and a length.
NOTE = "qq"
RECORD = re.compile(rb"~ ([0-9]+) ([0-9a-f]{16}) [0-9a-f]{16}\n")


def is_damage(tail: bytes) -> bool:
    """Whether bytes behind a journal's groups are what no crash leaves: a record that has a line behind it, or one of
    the lines right before it."""
    lines = [it + b"\n" for it in tail.split(b"\n")[:-1]]
    if any(it.startswith(b"~") for it in lines[:-1]):
        return True
    found = RECORD.fullmatch(lines[-1]) if lines else None
    if not found or int(found[1]) >= len(lines):
        return False
    group = b"".join(lines[len(lines) - 1 - int(found[1]): -1])
    return with_record(group, found[2]) == group + lines[-1]


def left_of(draw: random.Random, unsynced: bytes) -> bytes:
    """What a disk may leave of bytes that were not synced: all, none, a first part, and other bytes in places."""
    while True:
        left = bytearray(unsynced[: draw.choice((0, len(unsynced), *(draw.randint(0, len(unsynced)) for _ in "ab")))])
        begin, end = sorted(draw.randint(0, len(left)) for _ in "ab")
        how = draw.choice(("as written", "as written", "zeros", "any", "some"))
        if how in ("zeros", "any"):
            left[begin:end] = bytes(end - begin) if how == "zeros" else draw.randbytes(end - begin)
        for at in draw.sample(range(len(left)), min(len(left), draw.randint(1, 9))) if how == "some" else ():
            left[at] = draw.choice((0, 10, 126, left[at] ^ 1, draw.randint(0, 255)))
        if left == unsynced or not is_damage(left):
            return bytes(left)


def groups_of(journal: bytes) -> tuple[int, int]:
    """Where the last group that has its record begins, and where it ends; both behind the head, where none has."""
    before, *lines = re.findall(rb"[^\n]*\n|[^\n]+", journal) or [b""]
    last = begin = at = len(before)
    for line in lines:
        at += len(line)
        if line.startswith(b"~"):
            if with_record(journal[begin : at - len(line)], before) != journal[begin:at]:
                break
            last, begin, before = begin, at, line
    return last, begin


def flipped(draw: random.Random, journal: bytes) -> bytes:
    """A journal one bit of which has flipped, in front of its last group, and of the records of no lines before that."""
    before = journal[: groups_of(journal)[0]]
    while (end := groups_of(before)[0]) < len(before) and before[end:].startswith(b"~"):
        before = before[:end]
    bit, found = draw.randrange(8 * len(before)), bytearray(journal)
    found[bit // 8] ^= 1 << bit % 8
    return bytes(found)


class Disk:
    """A node's folder, and what is noted of it."""

    def __init__(self, folder: Path) -> None:
        self.journal, self.new = folder / "journal", folder / "journal.new"
        self.notes, self.old = folder.with_suffix(".synced"), folder.with_suffix(".old")
        self.notes.touch()

    def synced(self) -> dict[int, int]:
        """How much of each file was synced, by its inode."""
        return dict(struct.iter_unpack(NOTE, self.notes.read_bytes()))

    def note(self, synced: dict[int, int]) -> None:
        """Notes this of the files that are there, since another may get the inode of one that is gone."""
        here = {it.stat().st_ino for it in (self.journal, self.old) if it.exists()}
        self.notes.write_bytes(b"".join(struct.pack(NOTE, *it) for it in synced.items() if it[0] in here))

    def found(self) -> bytes:
        """The journal, which was made before the first life."""
        return self.journal.read_bytes()

    def lose_power(self, draw: random.Random) -> str:
        """Leaves what a disk may have where the power was lost, and tells it."""
        back = self.old.exists() and not self.old.samefile(self.journal) and draw.random() < 0.6
        if back:
            os.replace(self.journal, self.new)
            os.replace(self.old, self.journal)
        self.old.unlink(missing_ok=True)
        found, inode = self.found(), self.journal.stat().st_ino
        unsynced = found[self.synced().get(inode, 0):]
        left = left_of(draw, unsynced)
        self.journal.write_bytes(found[: len(found) - len(unsynced)] + left)
        self.note({inode: len(found) - len(unsynced) + len(left)})
        return f"{'the old' if back else 'the'} journal, and of {len(unsynced)} bytes behind it {left!r}"
