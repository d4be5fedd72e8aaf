"""What the commands beside this file share: programs to build, runs to measure, tables to print."""
from __future__ import annotations

import contextlib
import os
import shutil
import statistics
import subprocess
import sys
import time
from collections.abc import Iterable, Sequence
from pathlib import Path
from subprocess import PIPE, Popen
from typing import NamedTuple

BENCH = Path(__file__).resolve().parent
TOP = BENCH.parent
SYNCS = 300
MEBIBYTE = 2**20
# Where Debian's packages put the sources of crates.
REGISTRY = Path("/usr/share/cargo/registry")
MANIFEST = """[package]
name = "{name}"
version = "0.1.0"
edition = "2021"
[dependencies]
crdts = {{ version = "7.2.0", default-features = false, features = ["num"] }}
"""
OBJECTS = ("la_set", "la_shelf", "la_object")
REPLICA = (*OBJECTS, "la_acceptor", "la_proposer", "la_commit", "la_replica", "la_node", "la_world")
EMBED = ("la_own", "la_orset", "la_script", "la_io", "la_journal", "la_wire", "la_durable", "la_embed")
# The Rattle programs, and which of our crates each stands on.
PROGRAMS = {
    "deltas": REPLICA,
    "embed": (*REPLICA, *EMBED),
    "growth": (*REPLICA, "la_script"),
    "questions": REPLICA,
    "sets": (*OBJECTS, "la_orset"),
    "shared": ("la_set", "la_acceptor", "la_shared"),
    "shelf": OBJECTS,
    "threads": (*OBJECTS, "la_acceptor", "la_shared", "la_proposer", "la_commit", "la_runner"),
    "types": ("la_set", "la_own", "la_shelf", "la_types", "la_list"),
}
# What a program stands on of the kit, where that is more than anyhow.
KIT = {"growth": "anyhow smallvec"}


class Cost(NamedTuple):
    """What a run took: the processor's seconds, and the most resident memory in bytes."""

    seconds: float
    memory: float


def build_plain(folder: Path, name: str, *flags: str) -> Path:
    """Builds the plain program of this name."""
    program = folder / name
    words = ["rustc", "--edition", "2021", "-O", *flags, str(BENCH / f"{name}.rs"), "-o", str(program)]
    subprocess.run(words, check=True)
    return program


def build_with_crdts(folder: Path, name: str, more: str = "") -> Path:
    """Builds the program of this name over the crate crdts, by the sources of Debian's package librust-crdts-dev, and
    over more, by lines of a manifest."""
    crate = folder / "beside" / name
    (crate / "src").mkdir(parents=True)
    (crate / "Cargo.toml").write_text(MANIFEST.format(name=name) + more)
    shutil.copy(BENCH / f"{name}.rs", crate / "src" / "main.rs")
    sources = ['source.crates-io.replace-with="debian"', f'source.debian.directory="{REGISTRY}"']
    words = ["cargo", "build", "-q", "--release", "--offline"]
    words += [word for source in sources for word in ("--config", source)]
    subprocess.run(words, cwd=crate, check=True)
    return crate / "target" / "release" / name


def make_workspace(folder: Path, names: Sequence[str]) -> None:
    """Makes a workspace of the programs NAME.rt.txt, with their proofs in proofs/NAME, over a copy of our crates that
    they stand on, and of what is proved of these in crates/*/out."""
    ours = {library for name in names for library in PROGRAMS[name]}
    lines = (TOP / "crates.txt").read_text().splitlines()
    lines = [line for line in lines if line.split(":")[0].split(" ")[0] in ours]
    for library in ours:
        shutil.copytree(TOP / "crates" / library, folder / "crates" / library)
    for name in names:
        crate = folder / "crates" / name
        (crate / "src").mkdir(parents=True)
        shutil.copy(BENCH / f"{name}.rt.txt", crate / "src" / "main.rt")
        for file in (BENCH / "proofs" / name).glob("*/*.antt.txt"):
            (crate / "proofs" / file.parent.name).mkdir(parents=True, exist_ok=True)
            shutil.copy(file, crate / "proofs" / file.parent.name / file.stem)
        lines.append(f"{name}: {' '.join(PROGRAMS[name])} {KIT.get(name, 'anyhow')}")
    (folder / "crates.txt").write_text("\n".join([*lines, ""]))
    shutil.copy(TOP / "HANDLES", folder)
    subprocess.run(["git", "init", "-q", "."], cwd=folder, check=True)


def build_rattle(folder: Path, name: str, *words: str) -> Path:
    """Proves and builds the program of NAME.rt.txt by LLVM, and runs it once, with these words."""
    make_workspace(folder, [name])
    crate = folder / "crates" / name
    subprocess.run(["rt", "run", "--", *words], cwd=crate, stdout=sys.stderr, check=True)
    return crate / "out" / name


class Runner:
    """Runs programs by that of timed.rs, which takes little memory: this process would count as theirs."""

    def __init__(self, folder: Path) -> None:
        self.folder = folder
        self.timed = build_plain(folder, "timed", "-C", "target-feature=+crt-static")

    def run(self, words: Sequence[str | Path], given: Path | str, written: Path | str) -> Cost:
        """Runs these words once, which read one file and write another."""
        called = [self.timed, given, written, *words]
        ran = subprocess.run(called, stdout=PIPE, text=True)
        if ran.returncode != 0:
            sys.exit(f"{' '.join(map(str, words))} failed on {given}")
        seconds, kibibytes = ran.stdout.split()
        return Cost(float(seconds), int(kibibytes) * 1024)

    def compare(self, programs: Sequence[Path], script: Path) -> None:
        """Stops where two programs' reports of a script differ, which are read as they come."""
        with contextlib.ExitStack() as opened:
            files = [opened.enter_context(open(script, "rb")) for _ in programs]
            calls = [(str(program), file) for program, file in zip(programs, files)]
            played = [opened.enter_context(Popen([it, "play"], stdin=file, stdout=PIPE)) for it, file in calls]
            outputs = [it.stdout for it in played if it.stdout]
            while True:
                chunks = [it.read(MEBIBYTE) for it in outputs]
                if chunks[0] != chunks[1]:
                    sys.exit(f"the reports of {script.name} differ")
                if not chunks[0]:
                    break
            if any(it.wait() for it in played):
                sys.exit(f"a program failed on {script.name}")

    def play(self, programs: Iterable[Path], script: Path, runs: int) -> list[Cost]:
        """For each program the median cost of several runs of a script, which take turns."""
        turns = [[self.run([it, "play"], script, os.devnull) for it in programs] for _ in range(runs)]
        return [median(taken) for taken in zip(*turns)]


def sync_seconds(folder: Path) -> float:
    """The median of an append of a line to a file there, with its fdatasync."""
    spent = []
    with (folder / "syncs").open("wb", buffering=0) as file:
        for _ in range(SYNCS):
            began = time.perf_counter()
            file.write(b"submit 0 1 inc 1\n")
            os.fdatasync(file.fileno())
            spent.append(time.perf_counter() - began)
    return statistics.median(spent)


def median(costs: Iterable[Cost]) -> Cost:
    """The median of the seconds, and that of the memory."""
    seconds, memory = zip(*costs)
    return Cost(statistics.median(seconds), statistics.median(memory))


def generate(counts: Path, folder: Path, schedule: str, size: int) -> Path:
    """A script of so many submissions, by the program of counts.rs."""
    script = folder / f"{schedule}.{size}"
    with open(script, "wb") as out:
        subprocess.run([counts, "generate", schedule, str(size)], stdout=out, check=True)
    return script


def print_table(heads: Sequence[str], lines: Iterable[Sequence[str]]) -> None:
    """Prints a table in Markdown, with the first column to the left."""
    for cells in [heads, ["---"] + ["---:"] * (len(heads) - 1), *lines]:
        print("| " + " | ".join(cells) + " |")
    print()
