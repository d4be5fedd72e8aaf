"""What the bytes of a journal say: a head, groups of lines with a record behind each, and what a crash left of one."""
from __future__ import annotations

import re
from collections.abc import Sequence
from dataclasses import dataclass
from hashlib import sha256
from typing import NamedTuple

HEXADECIMAL = re.compile(rb"[0-9a-fA-F]*")
COUNTED = re.compile(rb"~ ([0-9]{1,9}) ")
# The digest that a head or a record ends in, and that with the space before it.
DIGITS, BEHIND = 16, 17
# Lines that no node plays: none is a call, and no state stands in such a journal.
UNPLAYED = (b"no call", b"", b"=no state", b"tick", b"ask 0 1 total")


class Outcome(NamedTuple):
    """How a start on a file ends: the status, and then how many bytes are kept, or at which line there is damage."""

    status: str
    keep: int | None = None
    line: int | None = None


@dataclass(frozen=True)
class Found:
    """A head's text, the lines of each group, and where the last of them begins and ends: both are the head's end where
    there is none."""

    text: bytes
    groups: tuple[bytes, ...]
    start: int
    end: int


def digest(text: bytes) -> bytes:
    return sha256(text).hexdigest()[:DIGITS].encode()


def without_end(line: bytes) -> bytes:
    return line[: max(len(line) - BEHIND, 0)]


def link(line: bytes) -> bytes:
    """The digest that a line ends in: none, where these are no digits."""
    end = line[-DIGITS:]
    return end if HEXADECIMAL.fullmatch(end) else b""


def record_of(count: int, before: bytes, lines: bytes) -> bytes:
    return b"~ %d %s %s" % (count, before, digest(before + lines))


def with_record(last: bytes, lines: bytes) -> bytes:
    """A group behind a line, with its record."""
    return lines + record_of(lines.count(b"\n"), link(last), lines) + b"\n"


def head_line(text: bytes) -> bytes:
    return text + b" " + digest(text)


def head_text(replicas: int, own: int, commits: int, cap: int, votes: Sequence[int]) -> bytes:
    """What the head of a node's journal says."""
    spaced = "".join(f" {it}" for it in votes or (1,) * replicas)
    return f"lattice 2 replica {own} of {replicas} votes{spaced} commits {commits} cap {cap}".encode()


def last_line(file: bytes) -> bytes:
    return file[:-1].rpartition(b"\n")[2]


def read_file(file: bytes) -> Found | None:
    """What a file has: nothing, where its first line is no head."""
    last, newline, _ = file.partition(b"\n")
    text = without_end(last)
    if not newline or head_line(text) != last:
        return None
    groups: list[bytes] = []
    start = end = at = len(last) + 1
    while (stop := file.find(b"\n", at)) >= 0:
        line = file[at:stop]
        if line.startswith(b"~"):
            lines = file[end:at]
            if with_record(last, lines) != file[end : stop + 1]:
                break
            groups.append(lines)
            last, start, end = line, end, stop + 1
        at = stop + 1
    return Found(text, tuple(groups), start, end)


def is_record_of_last(before: list[bytes], line: bytes) -> bool:
    """Whether a line is the record of some last lines of those before it."""
    counted = COUNTED.match(line)
    count = int(counted[1]) if counted else len(before) + 1
    if count > len(before):
        return False
    lines = b"".join(it + b"\n" for it in before[len(before) - count:])
    return line == record_of(count, link(without_end(line)), lines)


def is_damage(rest: bytes) -> bool:
    """Whether something stands behind the groups that no crash leaves: a record with a line behind it, or a group."""
    lines = rest.split(b"\n")[:-1]
    if any(line.startswith(b"~") for line in lines[:-1]):
        return True
    return any(is_record_of_last(lines[:at], line) for at, line in enumerate(lines))


def unplayed_line(text: bytes, groups: Sequence[bytes]) -> int | None:
    """The number of the first line that the node of a head does not play: none at all does, or it is a submission of
    another replica or above the cap. Of others it is not known."""
    words = text.split(b" ")
    own, left, number = words[3], int(words[-1]), 1
    for lines in groups:
        for line in lines.split(b"\n")[:-1]:
            number += 1
            if line.startswith(b"submit "):
                left -= 1
            if left < 0 or line in UNPLAYED or (line.startswith(b"submit ") and line.split(b" ")[1] != own):
                return number
        number += 1
    return None


def outcome(text: bytes, file: bytes) -> Outcome:
    """How a start of a node, whose head says this, on a file ends."""
    found = read_file(file)
    if found is None:
        return Outcome("NO_JOURNAL")
    if found.text != text:
        return Outcome("OTHER_JOURNAL")
    line = unplayed_line(text, found.groups)
    if line is not None:
        return Outcome("DAMAGED", line=line)
    if is_damage(file[found.end:]):
        return Outcome("DAMAGED", line=file.count(b"\n", 0, found.end) + 1)
    return Outcome("OK", keep=found.end)
