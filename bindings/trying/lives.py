"""Crashes of nodes with a journal: what they leave of a file, what else may be found of one, and new starts on that."""
from __future__ import annotations

from collections.abc import Callable
from typing import TYPE_CHECKING

from . import files, starting
from .drawing import Draw
from .groups import Member, require
from .journals import Journal, Kept
from .playing import Arguments

if TYPE_CHECKING:
    from .sequences import Sequence


def head_text(arguments: Arguments) -> bytes:
    """What the head of the journal of a node says, of which these are the numbers."""
    replicas, own, commits, cap, votes = arguments
    assert isinstance(replicas, int) and isinstance(own, int) and isinstance(commits, int) and isinstance(cap, int)
    assert isinstance(votes, tuple)
    return files.head_text(replicas, own, commits, cap, votes)


def first_journal(arguments: Arguments) -> bytes:
    """The bytes that the journal of a node begins with, of which these are the numbers."""
    return files.head_line(head_text(arguments)) + b"\n"


def outcome(arguments: Arguments, file: bytes) -> files.Outcome:
    """How lattice_node_recover ends."""
    status = starting.status_of(arguments)
    return files.outcome(head_text(arguments), file) if status == "OK" else files.Outcome(status)


# ## What a crash leaves


def front(draw: Draw, record: bytes) -> bytes:
    """What there is of a record that was being written, often all of it or nearly."""
    length = draw.one_of([0, len(record) - 1, len(record), len(record), draw.below(len(record) + 1)])
    return record[:length]


def blotted(draw: Draw, record: bytes) -> bytes:
    """That, with zeros where some bytes were not written."""
    left = bytearray(front(draw, record))
    for _ in range(draw.one_of([1, 1, 5])):
        start = draw.below(len(left) + 1)
        end = min(len(left), start + draw.one_of([1, 1, 16, 512]))
        left[start:end] = bytes(end - start)
    return bytes(left)


def spoilt(draw: Draw, record: bytes) -> bytes:
    """That, with any bytes at some places."""
    left = bytearray(front(draw, record))
    for _ in range(draw.one_of([1, 1, 5])):
        if left:
            left[draw.below(len(left))] = draw.one_of([draw.below(256), draw.below(256), 10, 126])
    return bytes(left)


def left_behind(draw: Draw, journal: Journal) -> bytes:
    """What a crash leaves behind what is on the disk."""
    record = journal.record
    if record is None:
        return b""
    return draw.one_of([front, front, blotted, blotted, spoilt])(draw, record)


def crash(sequence: Sequence, member: Member) -> None:
    """The process of a node ends at any moment, and the node comes back by what is left of its journal."""
    journal = member.journal
    assert journal is not None
    if sequence.draw.chance(70):
        # Often while a record is written.
        sequence.call(member, "mark", (1,))
        sequence.call(member, "next_record", (1 << 16,))
    if sequence.draw.chance(50):
        sequence.free_slot(member.slot)
    else:
        sequence.forgotten.append(member.slot)
    for _ in range(sequence.draw.one_of([0, 0, 1, 3])):
        try_damaged(sequence, member, journal)
    left = left_behind(sequence.draw, journal)
    arguments = starting.start(member.group.config, member.own)
    while outcome(arguments, journal.disk + left).status != "OK":
        # Only bytes that no crash writes look like damage.
        require(is_written(left, journal.record), "a start on what a crash left: {!r}", left)
        sequence.recover_node(arguments, journal.disk + left)
        left = front(sequence.draw, journal.record or b"")
    come_back(sequence, member, journal, left)


def is_written(left: bytes, record: bytes | None) -> bool:
    """Whether a byte is neither what was to be written there nor a zero."""
    return any(it not in (0, wanted) for it, wanted in zip(left, record or b""))


def come_back(sequence: Sequence, member: Member, journal: Journal, left: bytes) -> None:
    """Makes the node anew: it has all that was on the disk, and the record that was being written, or none of it."""
    is_whole = left != b"" and left == journal.record
    disk, kept = (journal.disk + left, journal.kept_then) if is_whole else (journal.disk, journal.kept)
    slot, keep = sequence.recover_node(starting.start(member.group.config, member.own), journal.disk + left)
    require(slot is not None and keep == len(disk), "a node of the first {} bytes, not of {}", len(disk), keep)
    assert slot is not None
    journal.restart(disk, kept)
    member.restart(slot)
    sequence.add_objects(member)
    for name in ("view", "submitted"):
        sequence.call(member, name, ())
    for commit in range(member.group.config.commits):
        sequence.call(member, "outcome", (commit,))


# ## What else may be found


def flipped(draw: Draw, file: bytes) -> bytes:
    """One byte is another one, often in the first lines or in the last."""
    place = draw.one_of([draw.below(len(file)), draw.below(min(len(file), 300)), len(file) - 1 - draw.below(20)])
    place = min(max(place, 0), len(file) - 1)
    return file[:place] + bytes([file[place] ^ (1 << draw.below(8))]) + file[place + 1:]


def flipped_early(draw: Draw, arguments: Arguments, file: bytes) -> bytes:
    """The same, but before the last group, or before the head's end where there is none: then it is told."""
    found = files.read_file(file)
    start = found.start if found else len(file)
    file = flipped(draw, file[:start]) + file[start:]
    require(outcome(arguments, file).status != "OK", "damage before the last group to be told: {!r}", file)
    return file


def cut(draw: Draw, file: bytes) -> bytes:
    return file[: draw.below(len(file) + 1)]


def without_some(draw: Draw, file: bytes) -> bytes:
    """Some bytes are missing."""
    place = draw.below(len(file))
    return file[:place] + file[place + draw.one_of([1, 1, 100, 512]):]


def lines_moved(draw: Draw, file: bytes) -> bytes:
    """A line is missing, or there twice, or is somewhere else."""
    lines = file.split(b"\n")[:-1]
    line = lines.pop(draw.below(len(lines)))
    for _ in range(draw.one_of([0, 1, 2])):
        lines.insert(draw.below(len(lines) + 1), line)
    return b"".join(it + b"\n" for it in lines)


def forged(draw: Draw, file: bytes) -> bytes:
    """A further group stands there with its record, and in it a line that no node plays."""
    own = file.split(b" ")[3]
    lines = [b"submit %s 1 inc 5" % own] * draw.below(3)
    lines.insert(draw.below(len(lines) + 1), draw.one_of([*files.UNPLAYED, b"submit 8 1 inc 5"]))
    group = files.with_record(files.last_line(file), b"".join(it + b"\n" for it in lines))
    return file + group + draw.one_of([b"", b"", b"more", b"more\n"])


def with_group_elsewhere(draw: Draw, file: bytes) -> bytes:
    """Behind all stands a group of another journal, and maybe something else between."""
    elsewhere = files.head_line(b"another") if draw.chance(50) else b"no digest"
    return file + draw.one_of([b"", b"torn\n", b"~ torn"]) + files.with_record(elsewhere, b"submit 0 1 inc 5\n")


def emptied(_draw: Draw, _file: bytes) -> bytes:
    """Nothing is there: no node begins anew."""
    return b""


def noise(draw: Draw, _file: bytes) -> bytes:
    return draw.random.randbytes(draw.below(100)) + draw.one_of([b"", b"\n"])


WAYS: tuple[Callable[[Draw, bytes], bytes], ...] = (
    flipped, cut, without_some, lines_moved, forged, with_group_elsewhere, emptied, noise,
)


def other_numbers(draw: Draw, member: Member) -> Arguments:
    """The numbers of another replica, or of another group, whose journal this is not."""
    arguments = list(starting.start(member.group.config, member.own))
    place = draw.below(5)
    if place == 4:
        arguments[4] = (2,) * member.group.config.replicas
    else:
        number = arguments[place]
        assert isinstance(number, int)
        arguments[place] = max(number + draw.one_of([1, -1]), 0)
    return tuple(arguments)


def try_damaged(sequence: Sequence, member: Member, journal: Journal) -> None:
    """Starts on a copy that no crash leaves, or as somebody else. Where that makes a node, it has what its file has."""
    draw, arguments = sequence.draw, starting.start(member.group.config, member.own)
    file = journal.disk
    if draw.chance(20):
        arguments = other_numbers(draw, member)
    elif draw.chance(40):
        file = flipped_early(draw, arguments, file)
    else:
        file = draw.one_of(WAYS)(draw, file)
    slot, keep = sequence.recover_node(arguments, file)
    if slot is None:
        return
    submitted = sum(line.startswith(b"submit ") for line in file[:keep].split(b"\n"))
    sequence.check_submitted(slot, submitted)
    sequence.free_slot(slot)
