"""A program called with words and bytes, what came of it, and the calls that are stored in a folder of runs."""
from __future__ import annotations

import os
import shlex
import signal
from dataclasses import dataclass
from pathlib import Path

ROOT = Path(__file__).resolve().parent.parent.parent


@dataclass(frozen=True)
class Call:
    """The words of a call, without the program's name, and what it reads, with the file that holds it."""

    name: str
    words: tuple[str, ...]
    given: bytes = b""
    path: str = "/dev/null"

    def in_shell(self, program: str) -> str:
        """The call as it is written in a shell."""
        return f"{shlex.join([program, *self.words])} <{shlex.quote(self.path)}"


@dataclass(frozen=True)
class Came:
    """What was printed and what was said on standard error, and the status: below 0 that of a signal, and
    None where the program did not end in time."""

    printed: bytes
    said: bytes
    status: int | None

    def __str__(self) -> str:
        ended = "not ended" if self.status is None else f"status {self.status}"
        return f"{ended}, printed {self.printed[-80:]!r}, said {self.said[-200:]!r}"


class Caller:
    """Calls a program again and again, whose streams are files in memory."""

    def __init__(self, program: str, seconds: float) -> None:
        self.program, self.seconds = program, seconds
        self.files = [os.memfd_create(name) for name in ("input", "output", "errors")]
        self.process: int | None = None
        self.in_time = True
        signal.signal(signal.SIGALRM, lambda *_: self.end())

    def end(self) -> None:
        """Ends a call that takes too long."""
        if self.process is not None:
            self.in_time = False
            os.kill(self.process, signal.SIGKILL)

    def start(self, words: tuple[str, ...], environment: dict[str, str], space: int) -> None:
        """Starts the program, which may have so many KiB of address space; 0 stands for any."""
        streams = [(os.POSIX_SPAWN_DUP2, file, number) for number, file in enumerate(self.files)]
        front = ("/bin/sh", "-c", f'ulimit -v {space} && exec "$0" "$@"') if space else ()
        line = [*front, self.program, *words]
        self.process = os.posix_spawn(line[0], line, environment, file_actions=streams)

    def call(self, words: tuple[str, ...], given: bytes, environment: dict[str, str], space: int = 0) -> Came:
        """Calls the program, and waits for its end."""
        for file, text in zip(self.files, (given, b"", b"")):
            os.ftruncate(file, 0)
            os.pwrite(file, text, 0)
            os.lseek(file, 0, os.SEEK_SET)
        self.in_time = True
        self.start(words, environment, space)
        signal.setitimer(signal.ITIMER_REAL, self.seconds)
        _, status = os.waitpid(self.process, 0)
        self.process = None
        signal.setitimer(signal.ITIMER_REAL, 0)
        printed, said = (os.pread(file, os.fstat(file).st_size, 0) for file in self.files[1:])
        return Came(printed, said, os.waitstatus_to_exitcode(status) if self.in_time else None)


def stored_calls(runs: Path) -> list[Call]:
    """The stored runs: each script, and the words that stand beside one or alone in a folder below."""
    scripts = [*sorted(runs.glob("*.script")), *sorted(runs.glob("faults/*.script"))]
    calls = [Call(it.stem, ("play",), it.read_bytes(), os.path.relpath(it)) for it in scripts]
    worded = [*sorted(runs.glob("*.args")), *sorted(runs.glob("*/*.args"))]
    return calls + [Call(it.stem, tuple(it.read_text().splitlines())) for it in worded]
