"""A node as a process over a folder, life after life."""
from __future__ import annotations

import os
import select
import subprocess
import time
from collections.abc import Callable

from folders import Replica

from .check import Entry
from .disks import Disk, groups_of

# A node is given no longer than this for its lines.
SECONDS = 20
# A pipe takes no more at once.
PIPE = 2**16
# No shelf has such an object: the refusal shows that all lines before were handled.
FENCE = "ask {} 9 total"


class Stuck(Exception):
    """A node that does not answer, or is not there."""


class Node:
    """Its lines go into the log. Each call returns the messages that it printed."""

    def __init__(
        self, replica: Replica, own: int, more: list[str], note: Callable[[Entry], None], preload: dict[str, str]
    ) -> None:
        replica.folder.mkdir(parents=True)
        self.words, self.own, self.disk, self.note = replica.node_words(*more), own, Disk(replica.folder), note
        paths = {"SYNC_NOTES": str(self.disk.notes), "SYNC_OLD": str(self.disk.old)}
        self.environment = {**os.environ, **preload, **paths}
        self.errors = replica.folder.with_suffix(".errors")
        replica.make(self.environment)
        self.process: subprocess.Popen[bytes] | None = None
        self.line, self.held, self.lives = 0, b"", 0
        # What it printed while lines were written to it.
        self.early = b""

    def start(self) -> None:
        found = self.disk.found()
        self.note(("start", self.own, str(len(found) - groups_of(found)[1])))
        self.line, self.held, self.early = 0, b"", b""
        self.lives += 1
        self.disk.note(self.disk.synced())
        with self.errors.open("wb") as errors:
            self.process = subprocess.Popen(
                self.words, 0, stdin=subprocess.PIPE, stdout=subprocess.PIPE, stderr=errors, env=self.environment
            )
        os.set_blocking(self.process.stdin.fileno(), False)

    def over(self, given: bytes) -> subprocess.CompletedProcess[bytes]:
        """What another process comes to on its folder, over this input."""
        return subprocess.run(
            self.words, input=given, capture_output=True, timeout=SECONDS, env=self.environment, check=False
        )

    def write(self, lines: list[str], half: str = "") -> None:
        for line in lines:
            self.note(("given", self.own, line))
        self.line += len(lines)
        try:
            self.write_all("".join(f"{it}\n" for it in lines).encode() + half.encode())
        except BrokenPipeError:
            self.end_of_life("ended", str(self.process.wait()))
            raise Stuck(f"node {self.own} has ended") from None

    def write_all(self, data: bytes) -> None:
        """Writes as its pipe takes it, and reads what it prints meanwhile: else a node that prints more than a pipe
        holds would wait for us, and we for it."""
        given, taken, until = self.process.stdin, self.process.stdout, time.monotonic() + SECONDS
        while data:
            came, takes, _ = select.select([taken], [given], [], max(0, until - time.monotonic()))
            if not came and not takes:
                raise Stuck(f"node {self.own} does not read")
            self.early += taken.read(PIPE) if came else b""
            data = data[os.write(given.fileno(), data[:PIPE]) :] if takes else data

    def lines_of(self, data: bytes) -> list[str]:
        """The whole lines that have come, each of which is noted."""
        *whole, self.held = (self.held + data).split(b"\n")
        lines = [it.decode(errors="replace") for it in whole]
        for line in lines:
            self.note(("out", self.own, line))
        return [it for it in lines if not it.startswith("#")]

    def give(self, lines: list[str]) -> list[str]:
        """Gives lines, and waits until all are handled."""
        self.write([*lines, FENCE.format(self.own)])
        wanted, until = f"# r{self.own} refused {self.line} NoSuchObject\n".encode(), time.monotonic() + SECONDS
        seen, self.early = self.early, b""
        found, seen = self.lines_of(seen), seen[-100:]
        while not seen.endswith(wanted):
            if not select.select([self.process.stdout], [], [], max(0, until - time.monotonic()))[0]:
                raise Stuck(f"node {self.own} does not answer {lines}")
            data = self.process.stdout.read(PIPE)
            if not data:
                self.end_of_life("ended", str(self.process.wait()))
                raise Stuck(f"node {self.own} ended at one of {lines}: {self.errors.read_text()}")
            seen = (seen + data)[-100:]
            found += self.lines_of(data)
        return found

    def end_of_life(self, word: str, status: str) -> list[str]:
        found = self.lines_of(self.early + self.process.stdout.read())
        self.early = b""
        for line in self.errors.read_text(errors="replace").splitlines():
            self.note(("said", self.own, line.removeprefix(f"lattice node: r{self.own}: ")))
        self.note((word, self.own, status))
        self.process.stdin.close()
        self.process.stdout.close()
        self.process = None
        return found

    def kill(self, lines: list[str], half: str, seconds: float) -> list[str]:
        """Kills it so long after it was given lines, and half a line."""
        self.write(lines, half)
        time.sleep(seconds)
        self.process.kill()
        self.process.wait()
        return self.end_of_life("killed", "")

    def end(self) -> None:
        """Ends its input."""
        self.process.stdin.close()
        try:
            status = self.process.wait(SECONDS)
        except subprocess.TimeoutExpired:
            self.process.kill()
            raise Stuck(f"node {self.own} does not end") from None
        self.end_of_life("ended", str(status))
