"""Byte strings that are hardly scripts: damaged stored scripts, random bytes, and scripts of absurd size."""
from __future__ import annotations

import random
from collections.abc import Callable, Iterable

from .rules import LIMIT

HEADER = b"lattice 1\nreplicas 3 commits 1 cap 1000000\n"
MILLION = 1_000_000
WORDS = (
    b"submit deliver decide ask inc dec raise put remove mark total atleast largest has size items lattice replicas "
    b"commits cap votes 0 1 2 3 7 8 00 01 +1 -1 1.1 0.1 2.7 1. .1 1.0 255 256 65535 65536 4294967295 4294967296 "
    b"18446744073709551615 18446744073709551616 \xff \xc3\xa9 # \0 \r \t 1e3 0x1 Submit"
).split(b" ") + [b"", b"9" * 300, b"0" * 300]
MARKS = (b"\n", b" ", b"\n\n", b"  ", b"\r\n", b"\0", b"\t", b"#", b".")


def place(draw: random.Random, text: bytes) -> int:
    """A place in a text, or its end."""
    return draw.randint(0, len(text))


def put(draw: random.Random, text: bytes, piece: bytes, over: int = 0) -> bytes:
    """Puts a piece in at a place, over so many bytes."""
    at = place(draw, text)
    return text[:at] + piece + text[at + over :]


def turn_bit(draw: random.Random, text: bytes) -> bytes:
    """Turns one bit."""
    at = place(draw, text[1:])
    return text[:at] + bytes(it ^ 1 << draw.randrange(8) for it in text[at : at + 1]) + text[at + 1 :]


def change_word(draw: random.Random, text: bytes) -> bytes:
    """Puts another word for one of a line, or a number for it."""
    lines = text.split(b"\n")
    at = draw.randrange(len(lines))
    words = lines[at].split(b" ")
    words[draw.randrange(len(words))] = draw.choice((draw.choice(WORDS), b"%d" % draw.randrange(40)))
    lines[at] = b" ".join(words)
    return b"\n".join(lines)


def move_line(draw: random.Random, text: bytes) -> bytes:
    """Takes a line out, and puts it in somewhere, up to three times."""
    lines = text.split(b"\n")
    line = lines.pop(draw.randrange(len(lines)))
    for _ in range(draw.randrange(4)):
        lines.insert(draw.randint(0, len(lines)), line)
    return b"\n".join(lines)


def random_event(draw: random.Random) -> bytes:
    """An event of a group of three, or one that is refused."""
    replica, kind, number = draw.randrange(3), draw.randint(1, 3), draw.randrange(30)
    what = {1: b"inc %d", 2: b"raise %d", 3: b"put %d"}[kind] % number
    return draw.choice((
        b"deliver %d" % number, b"deliver %d" % number, b"deliver %d" % draw.randrange(300),
        b"submit %d %d %s" % (replica, kind, what), b"submit %d 3 remove %d.%d" % (replica, kind, 1 + number % 4),
        b"decide %d 0 %d" % (replica, number % 3), b"submit %d 1 mark" % replica,
        b"ask %d %d %s" % (replica, kind, draw.choice((b"total", b"largest", b"items", b"size", b"has 7"))),
    ))


def put_events(draw: random.Random, text: bytes) -> bytes:
    """Puts events in somewhere behind the header, each in place of a line or between two."""
    lines = text.split(b"\n")
    for _ in range(draw.randint(1, 9)):
        at = draw.randint(min(3, len(lines)), len(lines))
        lines[at : at + draw.randrange(2)] = [random_event(draw)]
    return b"\n".join(lines)


DAMAGES: list[Callable[[random.Random, bytes], bytes]] = [
    turn_bit, change_word, change_word, change_word, move_line, move_line,
    lambda draw, text: text[: place(draw, text)],
    lambda draw, text: text[place(draw, text) :],
    lambda draw, text: put(draw, text, b"", draw.randrange(20)),
    lambda draw, text: put(draw, text, draw.choice(WORDS)),
    lambda draw, text: put(draw, text, draw.choice(MARKS), draw.randrange(2)),
    lambda draw, text: put(draw, text, draw.randbytes(draw.randrange(9)), draw.randrange(9)),
    lambda draw, text: put(draw, text, text[place(draw, text) :][: draw.randrange(200)]),
]


def random_line(draw: random.Random) -> bytes:
    """A line of words that scripts have, or almost."""
    return b" ".join(draw.choice(WORDS) for _ in range(draw.randrange(8)))


def small(seed: int, number: int, stored: tuple[list[bytes], list[bytes]]) -> bytes:
    """The byte string of this number: three of ten are random, three are scripts of the first of these lists with
    other events in them, and four are damaged scripts, of either list as often."""
    draw = random.Random(f"{seed} {number}")
    kind = draw.randrange(10)
    if kind == 0:
        return draw.randbytes(draw.randrange(300))
    if kind == 1:
        return HEADER + draw.randbytes(draw.randrange(100))
    if kind == 2:
        return HEADER + b"\n".join(random_line(draw) for _ in range(draw.randrange(12)))
    if kind < 6:
        return put_events(draw, draw.choice(stored[0]))
    text = draw.choice(draw.choice(stored))
    for _ in range(draw.choice((1, 1, 1, 2, 3, 8))):
        text = draw.choice(DAMAGES)(draw, text)
    return text


def filled(front: bytes, piece: bytes, size: int = LIMIT) -> bytes:
    """A front, and pieces behind it, of so many bytes."""
    return (front + piece * -(-(size - len(front)) // len(piece)))[:size]


def report(answers: Iterable[bytes]) -> bytes:
    """The report of a script with this header, in which nothing is learnt, of what its events did."""
    lines = (b"%d %s\n" % it for it in enumerate(answers, 1))
    return HEADER + b"".join(lines) + b"view 0 {}\nview 1 {}\nview 2 {}\n"


def million(line: bytes) -> bytes:
    """A script of a million such lines."""
    return HEADER + line * MILLION


# Scripts of absurd size that have a fault, by what they are.
FAULTY: dict[str, Callable[[], bytes]] = {
    "empty lines alone": lambda: filled(b"", b"\n"),
    "a word of 16 MB": lambda: filled(HEADER, b"x"),
    "a number of 16 MB": lambda: filled(HEADER + b"deliver ", b"1"),
    "noughts of 16 MB": lambda: filled(HEADER + b"deliver ", b"0"),
    "zero bytes of 16 MB": lambda: filled(HEADER, b"\0"),
    "spaces of 16 MB": lambda: filled(HEADER, b" "),
    "tags of 16 MB": lambda: filled(HEADER + b"submit 0 3 remove", b" 1.1"),
    "a tag of 16 MB": lambda: filled(HEADER + b"submit 0 3 remove 1.", b"1"),
    "line 1 of 16 MB": lambda: filled(b"lattice 1", b" "),
    "line 2 of 16 MB": lambda: filled(b"lattice 1\nreplicas ", b"1"),
    "votes of 16 MB": lambda: filled(b"lattice 2\nreplicas 3 commits 0 cap 1\nvotes", b" 1"),
    "no end of a line in 16 MB": lambda: filled(b"", b"lattice 1"),
    "one byte too many": lambda: filled(HEADER, b"#", LIMIT + 1),
    "four times too many bytes": lambda: filled(HEADER, b"deliver 0\n", 4 * LIMIT),
    "65 tags": lambda: HEADER + b"submit 0 3 remove" + b" 1.1" * 65,
    "numbers of 300 digits": lambda: HEADER + b"submit %s 0 inc %s" % (b"9" * 300, b"1" * 300),
    "a million faults": lambda: million(b"deliver x\n"),
    "a fault behind a million deliveries": lambda: million(b"deliver 0\n") + b"x\n",
}
# Those that have none, and what their events did.
FAULTLESS: dict[str, tuple[Callable[[], bytes], Callable[[], Iterable[bytes]]]] = {
    "a million empty lines": (lambda: million(b"\n"), lambda: ()),
    "empty lines of 16 MB": (lambda: filled(HEADER, b"\n"), lambda: ()),
    "a comment of 16 MB": (lambda: filled(HEADER, b"#"), lambda: ()),
    "a million deliveries": (lambda: million(b"deliver 0\n"), lambda: [b"refused NoSuchMessage"] * MILLION),
    "a million questions": (lambda: million(b"ask 2 1 total\n"), lambda: [b"total 0"] * MILLION),
    "a million submissions": (
        lambda: million(b"submit 0 0 mark\n"),
        lambda: (b"held 0.%d" % it if it > 1 else b"opened r0 i0 b1 {0.1} m0-m2" for it in range(1, MILLION + 1)),
    ),
    "a million proposals": (
        lambda: million(b"decide 0 0 0\n"),
        lambda: [b"opened r0 i1 b1 {0.1} m0-m2"] + [b"refused AlreadyProposed"] * (MILLION - 1),
    ),
}
