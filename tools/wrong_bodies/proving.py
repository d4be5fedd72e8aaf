"""Proves the functions that a wrong body changes, on a copy of their crate, over libraries that are built."""
from __future__ import annotations

import os
import re
import shutil
import subprocess
import tempfile
import time
from collections.abc import Iterator
from contextlib import suppress
from dataclasses import dataclass, replace
from functools import partial
from pathlib import Path

from wrong_bodies.edits import PARTS, Function, Unfit, apply, changed
from wrong_bodies.judging import Verdict, asked_again, judge

SECONDS = 1800
ROW = re.compile(r"(\w+)([^:#]*):([^#]*)")


@dataclass(frozen=True)
class Tried:
    """What a wrong body came to, which functions were proved, and what that took."""

    verdict: Verdict
    functions: str
    processor: float


class Workspace:
    """A checkout, the kit, and where the libraries are built."""

    def __init__(self, root: Path, built: Path, kit: Path) -> None:
        self.root, self.built, self.kit = root, built, kit
        self.below: dict[str, list[str]] = {}
        self.static: set[str] = set()
        for line in (root / "crates.txt").read_text(encoding="utf-8").split("\n"):
            row = ROW.match(line)
            if row:
                self.below[row[1]] = row[3].split()
                self.static |= {row[1]} if "staticlib" in row[2] else set()

    def rlib(self, name: str) -> Path:
        if name in self.below:
            return self.built / "crates" / name / "out" / "rlib" / f"{name}.rlib"
        return self.kit / "rlibs" / f"{name}.rlib"

    def all_below(self, crate: str) -> list[str]:
        """The libraries of the workspace below a crate."""
        found, left = [], list(self.below[crate])
        while left:
            it = left.pop()
            if it in self.below and it not in found:
                found.append(it)
                left += self.below[it]
        return sorted(found)

    def words(self, crate: str, folder: Path, functions: list[Function] | None) -> list[str]:
        """The check's command, for a crate that lies in a folder."""
        lacking = [it for it in self.all_below(crate) if not self.rlib(it).exists()]
        if lacking:
            raise Unfit(f"no {self.rlib(lacking[0])}: build it, `cd crates/{lacking[0]} && rt lib`, or name by RLIBS a "
                        f"checkout that has it")
        top = "src/main.rt" if (folder / "src/main.rt").is_file() else "src/lib.rt"
        externs = [f"{it}={self.rlib(it)}" for it in ["std", *self.below[crate]]]
        places = [self.kit / "rlibs", *(self.rlib(it).parent for it in self.all_below(crate))]
        return [
            str(self.kit / "bin/rattle"), "check", "--crate-name", crate, top,
            *(word for it in externs for word in ("--extern", it)),
            *(word for it in places for word in ("-L", f"dependency={it}")),
            "--antt-project", str(self.kit / "rattle/logic/antt-project.json"),
            "--logic-built", str(self.kit / "logic_built"), "--links", f"{crate}=", "--jobs", "1",
            *(["--crate-type", "staticlib"] if crate in self.static else []),
            *(word for it in functions or [] for word in ("--only", it.path)),
        ]

    def try_group(self, edits: list[Path]) -> Iterator[tuple[Path, Tried]]:
        """Tries wrong bodies that may be tried together, and alone each that is not refused so."""
        together: dict[Path, Tried] = {}
        if len(edits) > 1:
            with suppress(Unfit, OSError, UnicodeDecodeError):
                together = self.try_all(edits)
        for it in edits:
            before = together.get(it)
            if before and before.verdict.refused:
                yield it, before
                continue
            try:
                alone = self.try_all([it])[it]
            except (Unfit, OSError, UnicodeDecodeError) as why:
                alone = Tried(Verdict(False, str(why)), "", 0.0)
            yield it, replace(alone, processor=alone.processor + (before.processor if before else 0.0))

    def try_all(self, edits: list[Path]) -> dict[Path, Tried]:
        """Puts wrong bodies into one copy of their crate, and proves the functions that they change, or all if one of
        them changes other text. Where a search gave up these functions are proved once more."""
        crate = edits[0].parent.parent
        with tempfile.TemporaryDirectory(prefix="wrong-body-") as scratch:
            folder = Path(scratch)
            copy(crate, folder)
            applied, functions = {}, {}
            for it in edits:
                applied[it] = apply(it.read_text(encoding="utf-8"), folder)
                write(applied[it].texts, folder)
                functions[it] = changed(applied[it], folder)
            found, left = {}, edits
            while left:
                only = None if None in functions.values() else [f for it in left for f in functions[it] or []]
                said, status, processor = call(self.words(crate.name, folder, only), folder)
                again: dict[str, str] = {}
                asked = []
                for it in left:
                    verdict = judge(said, status, functions[it] or [], frozenset(applied[it].texts))
                    told = "by a whole check" if only is None else " ".join(f.path for f in functions[it] or [])
                    before = found[it].processor if it in found else 0.0
                    if verdict.gave_up and it not in found:
                        new = asked_again(said, verdict.gave_up, functions[it] or [], partial(text_of, folder))
                        asked += [it] if new else []
                        again |= new
                    found[it] = Tried(verdict, told, before + processor / len(left))
                write(again, folder)
                left = asked
        return found


def groups(edits: list[Path]) -> list[list[Path]]:
    """Wrong bodies that may be tried together: those of one crate that change different functions, and no other text.
    What a function calls it knows by contracts alone, so that one wrong body changes no verdict on another."""
    found: list[tuple[list[Path], set[str]]] = []
    for edit in edits:
        crate = edit.parent.parent
        try:
            paths = {it.path for it in changed(apply(edit.read_text(encoding="utf-8"), crate), crate) or []}
        except (Unfit, OSError, UnicodeDecodeError):
            paths = set()
        for others, taken in found:
            if paths and taken and crate == others[0].parent.parent and not paths & taken:
                others.append(edit)
                taken |= paths
                break
        else:
            found.append(([edit], paths))
    return [others for others, _ in found]


def copy(crate: Path, folder: Path) -> None:
    for part in PARTS:
        if (crate / part).is_dir():
            shutil.copytree(crate / part, folder / part)


def write(texts: dict[str, str], folder: Path) -> None:
    for file, text in texts.items():
        (folder / file).parent.mkdir(parents=True, exist_ok=True)
        (folder / file).write_text(text, encoding="utf-8")


def text_of(folder: Path, file: str) -> str:
    """The text of a file, or none where there is no such file."""
    return (folder / file).read_text(encoding="utf-8") if (folder / file).is_file() else ""


def call(words: list[str], folder: Path) -> tuple[str, int, float]:
    """What a command says, its status, below 0 that of a signal, and its processor seconds."""
    with tempfile.TemporaryFile("w+", errors="replace") as output:
        process = subprocess.Popen(words, cwd=folder, stdin=subprocess.DEVNULL, stdout=output, stderr=subprocess.STDOUT)
        limit = time.monotonic() + SECONDS
        while True:
            ended, status, used = os.wait4(process.pid, os.WNOHANG)
            if ended:
                break
            if time.monotonic() > limit:
                process.kill()
            time.sleep(0.1)
        process.returncode = os.waitstatus_to_exitcode(status)
        output.seek(0)
        return output.read(), process.returncode, used.ru_utime + used.ru_stime
