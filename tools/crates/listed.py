"""Which crates there are, and where the files of each stand.

The product's crates are the lines of crates.txt; they stand in crates/, and `rt ci` proves them. Beside the product
stand crates of tests and of callers, each a folder of tests/ or callers/ with a line in crates.list there. Their files
end in .txt, as lib.rt.txt, since `rt ci` takes a .rt file only of a crate that it proves.
"""
from __future__ import annotations

import os
import re
from collections.abc import Iterable, Iterator
from pathlib import Path
from typing import NamedTuple

TOP = Path(__file__).resolve().parent.parent.parent
# The folders beside the product's.
BESIDE = ("tests", "callers")
PARTS = ("src", "specs", "proofs")
# What lies beside a crate's sources and goes with them into a repository.
STREAMS = ("stdin", "stdout", "args", "status")
SUFFIX = ".txt"


class Crate(NamedTuple):
    """A crate: its line as crates.txt has it, the libraries that it names, its folder, and whether it is the
    product's."""

    name: str
    line: str
    uses: tuple[str, ...]
    folder: Path
    is_product: bool

    def files(self) -> Iterator[tuple[Path, str]]:
        """Each file of src, specs and proofs, with its path in the crate as a repository has it."""
        for part in PARTS:
            for at, folders, names in os.walk(self.folder / part):
                folders.sort()
                for name in sorted(names):
                    path = Path(at) / name
                    yield path, str(path.relative_to(self.folder)).removesuffix("" if self.is_product else SUFFIX)


def read(file: Path, folder: Path, is_product: bool) -> Iterator[Crate]:
    """The crates of one list."""
    for line in file.read_text(encoding="utf-8").splitlines():
        if named := re.match(r"(\w+)[^:#]*:([^#]*)", line):
            yield Crate(named[1], line, tuple(named[2].split()), folder / named[1], is_product)


def listed() -> dict[str, Crate]:
    """All crates by name: the product's first."""
    found = [*read(TOP / "crates.txt", TOP / "crates", True)]
    for place in BESIDE:
        found += read(TOP / place / "crates.list", TOP / place, False)
    return {it.name: it for it in found}


def in_folder(place: str) -> list[str]:
    """The names of the crates of tests/ or callers/."""
    return [it.name for it in read(TOP / place / "crates.list", TOP / place, False)]


def with_below(crates: dict[str, Crate], names: Iterable[str]) -> list[str]:
    """These crates and all of the repository that they stand on, in the order in which they are listed."""
    found: set[str] = set()
    left = [*names]
    while left:
        name = left.pop()
        if name in crates and name not in found:
            found.add(name)
            left += crates[name].uses
    return [it for it in crates if it in found]
