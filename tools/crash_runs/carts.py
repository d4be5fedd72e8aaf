"""The cart program beside a node, and what it has to answer, by a map of its own in which adds win."""
from __future__ import annotations

import os
import random
import select
import struct
import subprocess
import time

# Objects that have carts, one of which has other operations of one's own too; and their articles.
CARTS = ("8", "9")
ARTICLES = ("apple", "pear", "k" * 215)
# A key has no more bytes, and an answer takes no longer.
LONGEST, SECONDS = 215, 20
# Lines that are refused, whatever was told.
REFUSED = {
    "": "BadLine",
    "tick": "BadLine",
    "cart 8": "BadLine",
    "cart 8 apple ": "BadLine",
    "take 0 apple": "BadLine",
    "carts 8 apple": "BadLine",
    "cart 08 apple": "BadNumber",
    "take 256 8 apple": "BadNumber",
    "put 0 65536 1 apple": "BadNumber",
    "put 0 8 4294967296 apple": "BadNumber",
    "put 0 8 -1 apple": "BadNumber",
    f"put 0 8 1 {'k' * (LONGEST + 1)}": "TooLong",
    f"take 0 8 {'k' * (LONGEST + 1)}": "TooLong",
    "#": "BadLine",
    "# r0 view 1 0 0 0 0 0 0 0": "BadLine",
    "# r0 waiting 0.1 @a": "BadLine",
    "# r0 update 0.0 8 inc 1": "BadNumber",
    "# r0 update 0.999999 8 inc 1": "Gap",
    "# r0 update 8.1 8 inc 1": "Gap",
}
# What was told: by id what an update does, as written.
Told = dict[tuple[int, int], str]


class Silent(Exception):
    """A cart program that does not answer."""


class Cart:
    """The program, which is told what one node tells."""

    def __init__(self, words: list[str]) -> None:
        self.process = subprocess.Popen(words, 0, stdin=subprocess.PIPE, stdout=subprocess.PIPE)

    def write(self, line: str) -> None:
        try:
            self.process.stdin.write(f"{line}\n".encode())
        except BrokenPipeError:
            raise Silent(f"the cart program has ended: {line}") from None

    def ask(self, line: str) -> str:
        self.write(line)
        found, until = b"", time.monotonic() + SECONDS
        while not found.endswith(b"\n"):
            if not select.select([self.process.stdout], [], [], max(0, until - time.monotonic()))[0]:
                raise Silent(f"the cart program does not answer {line}")
            if not (data := os.read(self.process.stdout.fileno(), 2**16)):
                raise Silent(f"the cart program ended at {line}")
            found += data
        return found[:-1].decode(errors="replace")

    def end(self) -> tuple[bytes, int]:
        """What it prints besides, and its status."""
        self.process.stdin.close()
        rest = self.process.stdout.read()
        self.process.stdout.close()
        return rest, self.process.wait()


def command(draw: random.Random, own: int) -> str:
    """What a client of a node puts, takes or asks; now and then what is refused."""
    if draw.random() < 0.1:
        return draw.choice([*REFUSED])
    number, article = draw.choice(CARTS), draw.choice(ARTICLES)
    if (drawn := draw.random()) < 0.5:
        return f"take {own} {number} {article}" if drawn < 0.3 else f"cart {number} {article}"
    return f"put {own} {number} {draw.randint(1, 5) if draw.random() < 0.9 else 2**32 - 1} {article}"


def many(told: Told, number: str, article: bytes) -> int:
    """How many are in a cart: what was put that no taking out of the article had seen."""
    puts, takes = [], []
    for (replica, at), text in told.items():
        owner, word, *rest = text.split(" ")
        done = bytes.fromhex(rest[0]) if (owner, word) == (number, "own") and rest[0] != "-" else b""
        if done[:1] == b"\1" and len(done) >= 5 and done[5:] == article:
            puts.append((replica, at, int.from_bytes(done[1:5], "little")))
        if done[:1] == b"\2" and len(done) >= 33 and done[33:] == article:
            takes.append(struct.unpack("<8I", done[1:33]))
    return sum(amount for replica, at, amount in puts if not any(seen[replica] >= at for seen in takes))


def answer(told: Told, line: str) -> str:
    """What a line is answered behind what was told."""
    if line in REFUSED:
        return f"refused {REFUSED[line]}"
    word, *places, article = line.split(" ")
    if word == "cart":
        return str(many(told, places[0], article.encode()))
    if word == "put":
        done = struct.pack("<BI", 1, int(places[2]))
    else:
        done = struct.pack("<B8I", 2, *(sum(replica == it for replica, _ in told) for it in range(8)))
    return f"submit {places[0]} {places[1]} own {(done + article.encode()).hex()}"
