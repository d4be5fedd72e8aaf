"""What it costs to play a script: allocations, bytes that are held, reads, and time."""
from __future__ import annotations

import os
import resource
import struct
import subprocess
from collections.abc import Callable, Iterable
from dataclasses import dataclass

from .calls import ROOT
from .preloading import build

SECONDS = 60
COUNTED = struct.Struct("4l")


@dataclass(frozen=True)
class Costs:
    """Allocations, bytes held at the end and at most, and reads of standard input, by tools/count-costs.c."""

    allocations: int
    held: int
    most: int
    reads: int


class Player:
    """A program that plays scripts, read from a file. Its reports go nowhere."""

    def __init__(self, program: str, folder: str) -> None:
        self.program, self.script, self.counts = program, f"{folder}/script", f"{folder}/counts"
        self.library = build(ROOT / "tools/count-costs.c", folder)

    def write(self, lines: Iterable[str]) -> None:
        """Writes a script of these lines."""
        with open(self.script, "w", encoding="ascii") as file:
            file.writelines(f"{it}\n" for it in lines)

    def play(self, environment: dict[str, str], output: int = subprocess.DEVNULL) -> None:
        """Plays the script that was written."""
        with open(self.script, "rb") as file:
            call = [self.program, "play"]
            subprocess.run(call, stdin=file, stdout=output, env=environment, timeout=SECONDS, check=True)

    def costs(self, lines: Iterable[str]) -> Costs:
        """What it takes to play these lines."""
        self.write(lines)
        with open(self.counts, "w+b") as file:
            file.truncate(COUNTED.size)
            self.play({"LD_PRELOAD": self.library, "COUNT_COSTS": self.counts})
            return Costs(*COUNTED.unpack(file.read()))

    def printed(self, lines: Iterable[str]) -> int:
        """How many bytes a script's report has."""
        self.write(lines)
        with open(self.counts, "w+b") as file:
            self.play({}, file.fileno())
            return os.fstat(file.fileno()).st_size

    def seconds(self, scripts: list[list[str]]) -> list[float]:
        """The processor's time to play each of these scripts, the best of five, which take turns."""
        turns = [[self.timed(it) for it in scripts] for _ in range(5)]
        return [min(it) for it in zip(*turns)]

    def timed(self, lines: Iterable[str]) -> float:
        """The processor's time to play these lines once."""
        self.write(lines)
        return processor_seconds(lambda: self.play({}))


def processor_seconds(work: Callable[[], object]) -> float:
    """The processor's time of the programs that this starts and waits for."""
    before = resource.getrusage(resource.RUSAGE_CHILDREN)
    work()
    after = resource.getrusage(resource.RUSAGE_CHILDREN)
    return after.ru_utime + after.ru_stime - before.ru_utime - before.ru_stime
