"""A program compiled with no proof, for who waits for it: it is told what is done, how far it is, and for how long."""
from __future__ import annotations

import sys
import tempfile
import time
from pathlib import Path

from crates import listed, unproved, workspace

# What is said again after so many seconds in which nothing else was.
AGAIN = 10


class Telling:
    """What a tool says on standard error of a compiler at work: each step as it begins, and that it goes on."""

    def __init__(self, tool: str) -> None:
        self.tool, self.began = tool, time.monotonic()
        self.phase, self.said = "", 0.0

    def tell(self, phase: str) -> None:
        now = time.monotonic()
        if phase != self.phase or now - self.said > AGAIN:
            self.phase, self.said = phase, now
            print(f"{self.tool}: {now - self.began:3.0f} s: {phase}", file=sys.stderr, flush=True)


def build(tool: str, crate: str, path: Path, plain: bool) -> bool:
    """Compiles a crate's program to a path, with checks of memory or plain, and answers whether it could."""
    path.parent.mkdir(parents=True, exist_ok=True)
    unproved.end_with_this()
    with tempfile.TemporaryDirectory() as scratch:
        root = Path(scratch)
        made = workspace.make(root, [crate])
        lines = sum(it.read_bytes().count(b"\n") for it in root.rglob("*.rt"))
        print(f"{tool}: compiles {crate} with no proof: {len(made)} crates, {lines:,} lines:", file=sys.stderr)
        print(f"{tool}: {' '.join(made)}", file=sys.stderr, flush=True)
        places = (None, path) if plain else (path, None)
        try:
            unproved.compile_to(unproved.Wanted(root, crate), *places, tell=Telling(tool).tell)
        except unproved.NotCompiled as error:
            print(f"{tool}: {error}", file=sys.stderr)
            return False
    return True
