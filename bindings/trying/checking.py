"""The other program that plays the calls: built of C, and run where it is seen what memory it touches."""
from __future__ import annotations

import shutil
import subprocess
import tempfile
from collections.abc import Callable
from pathlib import Path

from generating.table import Table

from .harness import source
from .playing import Wrong

WARNINGS = ("-std=c11", "-O1", "-g", "-Wall", "-Wextra", "-Werror", "-pedantic")
LEAKS = "--leak-check=full --show-leak-kinds=all --errors-for-leak-kinds=all".split()
VALGRIND = ("valgrind", "--quiet", "--error-exitcode=1", *LEAKS)
# By what memory is watched: flags for the compiler, and what the program runs under. valgrind sees what the library
# itself reads and writes; the sanitizer only what goes through malloc and the C program.
CHECKERS: dict[str, tuple[tuple[str, ...], tuple[str, ...]]] = {
    "valgrind": ((), VALGRIND),
    "sanitizer": (("-fsanitize=address,undefined", "-fno-sanitize-recover=all"), ()),
}
Changed = Callable[[str], str]


def found_checker() -> str:
    return "valgrind" if shutil.which("valgrind") else "sanitizer"


def compiler_for(checker: str) -> str:
    """A compiler that is there, or the end of the program."""
    names = ("clang", "gcc", "cc") if checker == "sanitizer" else ("cc", "gcc", "clang")
    found = next((it for it in names if shutil.which(it)), None)
    if not found:
        raise SystemExit("try-calls: there is no C compiler: install gcc or clang")
    if checker == "valgrind" and not shutil.which("valgrind"):
        raise SystemExit("try-calls: there is no valgrind: install it, or name --checker sanitizer")
    return found


class Checker:
    """The C program while it runs: calls go to its input."""

    def __init__(self, table: Table, library: Path, checker: str, changed: Changed = lambda text: text) -> None:
        self.folder = tempfile.TemporaryDirectory()
        flags, front = CHECKERS[checker]
        program, text = Path(self.folder.name) / "replay", Path(self.folder.name) / "replay.c"
        text.write_text(changed(source(table)), encoding="utf-8")
        words = [compiler_for(checker), *WARNINGS, *flags, f"-I{library}", "-o", str(program), str(text)]
        subprocess.run([*words, str(library / "liblattice.a")], check=True)
        self.told = (Path(self.folder.name) / "told").open("w+b")
        pipe = subprocess.PIPE
        self.process = subprocess.Popen([*front, str(program)], stdin=pipe, stdout=pipe, stderr=self.told)
        self.pending = bytearray()
        self.calls = 0

    def write(self, frame: bytes) -> None:
        """Hands a call over."""
        self.calls += 1
        self.pending += frame
        if len(self.pending) > 1 << 16:
            self.flush()

    def flush(self) -> None:
        assert self.process.stdin
        try:
            self.process.stdin.write(self.pending)
            self.process.stdin.flush()
        except BrokenPipeError:
            self.fail()
        self.pending.clear()

    def fail(self) -> None:
        """Says what the program told before it stopped."""
        self.process.wait()
        self.told.seek(0)
        raise Wrong(f"the C program: {self.told.read().decode(errors='replace').strip()}")

    def finish(self) -> None:
        """Waits for the end: the program has to have played all calls, and no memory to be left."""
        self.flush()
        out, _ = self.process.communicate()
        if self.process.returncode != 0 or out.decode().strip() != str(self.calls):
            self.fail()

    def close(self) -> None:
        """Ends the program where it still runs."""
        if self.process.poll() is None:
            self.process.kill()
        self.process.communicate()
        self.told.close()
        self.folder.cleanup()
