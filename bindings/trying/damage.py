"""Lines to hand to a node: what others sent to it, late, again or never, and what nobody sent."""
from __future__ import annotations

import re
from collections.abc import Callable

from .drawing import Draw
from .groups import Member
from .reading import MAX_LINE, U8, U16, U32, U64

NUMBER = re.compile(rb"[0-9]+")
VALUES = (0, 1, 2, 7, 8, 16, 33, U8, U8 + 1, U16 + 1, U32, U32 + 1, U64, U64 + 1)
NUMBERS = [*(b"%d" % it for it in VALUES), b"01", b""]
WORDS = b"offer yes no tell known has view base tick inc remove own mark vote sole".split()
PARTS = (b";", b";0.1 1 inc 5", b";1.1 1 dec 5", b" ", b"\n", b"\0", b" 1", b";0.0 1 mark", b";9.1 1 mark", b",1")
# What clients ask of a node, and what is like it.
REQUESTS = (
    b"tick", b"tick ", b"submit 1 1 inc 5", b"submit 1 1 inc 4294967296", b"submit 1 3 remove 0.1 1.2",
    b"submit 1 9 own -", b"submit 1 9 own 0a0", b"submit 1 9 own 0a0b", b"submit 1 3 remove 0.0", b"decide 0 1 2",
    b"decide 0 256 2", b"ask 0 1 total", b"ask 0 1 atleast 5", b"ask 0 1 atleast", b"ask  1 total", b"deliver 0",
    b"deliver x", b"submit", b"status 0", b"ask 0 3 tags 7", b"update 0 0.1", b"", b"known", b"offer", b"tell;",
    b"known 1 0 0 has 0 view 0 offer 0 tell 0;",
)


def flipped(draw: Draw, line: bytes) -> bytes:
    """The line with another byte at one place."""
    place = draw.below(len(line) + 1)
    return line[:place] + bytes([draw.below(256)]) + line[place + 1:]


def cut(draw: Draw, line: bytes) -> bytes:
    return line[: draw.below(len(line) + 1)]


def renumbered(draw: Draw, line: bytes) -> bytes:
    """The line with another number at the place of one, mostly in its head."""
    found = list(NUMBER.finditer(line))
    if not found:
        return line
    match = found[draw.below(min(len(found), draw.one_of([3, 8, len(found)])))]
    new = draw.one_of(NUMBERS) if draw.chance(70) else b"%d" % (int(match[0]) + draw.one_of([1, -1]))
    return line[: match.start()] + new + line[match.end():]


def reworded(draw: Draw, line: bytes) -> bytes:
    """The line with another word at the place of one."""
    words = line.split(b" ")
    words[draw.below(len(words))] = draw.one_of(WORDS)
    return b" ".join(words)


def joined(draw: Draw, line: bytes) -> bytes:
    """The line with something put in."""
    place = len(line) if draw.chance(60) else draw.below(len(line) + 1)
    return line[:place] + draw.one_of(PARTS) + line[place:]


def shuffled(draw: Draw, line: bytes) -> bytes:
    """The line with its parts in another order, or one of them twice."""
    head, *parts = line.split(b";")
    if draw.chance(50):
        draw.random.shuffle(parts)
    elif parts:
        parts.insert(draw.below(len(parts)), draw.one_of(parts))
    return b";".join([head, *parts])


def noise(draw: Draw, _line: bytes) -> bytes:
    return draw.random.randbytes(draw.below(60))


def request(draw: Draw, _line: bytes) -> bytes:
    return draw.one_of(REQUESTS)


def too_long(draw: Draw, line: bytes) -> bytes:
    """A line longer than most may be: seldom, since it takes its time."""
    return b"x" * (MAX_LINE + draw.below(2)) if draw.below(300) == 0 else line + b"x" * draw.below(2000)


WAYS: tuple[Callable[[Draw, bytes], bytes], ...] = (
    flipped, flipped, cut, renumbered, renumbered, renumbered, renumbered, reworded, joined, shuffled, noise, request,
    too_long,
)


def altered(draw: Draw, member: Member) -> bytes:
    """A line made of one that was sent: for this node, for another one, or in another group."""
    line = draw.one_of(draw.lines) if draw.lines else b"tell 3 0 1 0 1 has 1 view 1 base 0;0.1 1 inc 5"
    if member.inbox and draw.chance(50):
        line = draw.one_of(member.inbox)
    for _ in range(draw.one_of([0, 1, 1, 1, 2])):
        line = draw.one_of(WAYS)(draw, line)
    return line


def draw_line(draw: Draw, member: Member) -> bytes:
    """A line to hand to a node. What nobody sent is handed to it in a group that may be lied to; in any other only
    where it has to be refused."""
    inbox = member.inbox
    while inbox and draw.chance(draw.lost):
        inbox.pop(draw.below(len(inbox)))
    if inbox and not draw.chance(draw.altered):
        place = draw.below(len(inbox)) if draw.chance(80) else 0
        return inbox[place] if draw.chance(draw.twice) else inbox.pop(place)
    for _ in range(8):
        line = altered(draw, member)
        if member.group.may_lie or (member.own, line) in member.group.sent or "OK" not in member.statuses(line):
            return line
    return b""
