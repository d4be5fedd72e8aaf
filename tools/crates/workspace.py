"""Repositories in which crates of tests/ and callers/ are crates like the product's, so that `rt` takes them."""
from __future__ import annotations

import hashlib
import json
import shutil
import subprocess
from collections.abc import Iterable
from pathlib import Path

from crates.listed import PARTS, STREAMS, SUFFIX, TOP, Crate, listed, with_below

LIST = "crates.txt"
# What a repository's files of tests and callers were when it was made, by their paths there.
MADE = ".made"


def make(folder: Path, names: Iterable[str] | None = None) -> list[str]:
    """Makes a repository in a new or empty folder: a copy of these crates, or of all, and of those below them.
    Answers their names."""
    crates = listed()
    made = with_below(crates, crates if names is None else names)
    for name in made:
        crate = crates[name]
        for path, inner in crate.files():
            to = folder / "crates" / name / inner
            to.parent.mkdir(parents=True, exist_ok=True)
            shutil.copyfile(path, to)
        if (crate.folder / "wrong-bodies").is_dir():
            shutil.copytree(crate.folder / "wrong-bodies", folder / "crates" / name / "wrong-bodies")
        for name_of_stream in STREAMS:
            if (crate.folder / name_of_stream).is_file():
                shutil.copyfile(crate.folder / name_of_stream, folder / "crates" / name / name_of_stream)
    write_made(folder, [crates[it] for it in made if not crates[it].is_product])
    (folder / LIST).write_text("".join(f"{crates[it].line}\n" for it in made), encoding="utf-8")
    shutil.copyfile(TOP / "HANDLES", folder / "HANDLES")
    # (what marks the top of a repository)
    subprocess.run(["git", "init", "-q", folder], check=True)
    return made


def files_below(folder: Path, crate: Crate) -> dict[str, str]:
    """A sum of each file of a crate in a repository, by its path there."""
    within = folder / "crates" / crate.name
    found = [it for part in PARTS for it in sorted((within / part).rglob("*")) if it.is_file()]
    return {str(it.relative_to(folder)): hashlib.sha256(it.read_bytes()).hexdigest() for it in found}


def write_made(folder: Path, beside: Iterable[Crate]) -> None:
    """Notes what the files of these crates are."""
    sums = {path: it for crate in beside for path, it in files_below(folder, crate).items()}
    (folder / MADE).write_text(json.dumps(sums), encoding="utf-8")


def take_back(folder: Path) -> list[str]:
    """Writes the files that were changed, added or removed in a repository since `make` made it into tests/ and
    callers/. Of the product's crates nothing is taken. Answers what was changed."""
    before = json.loads((folder / MADE).read_text(encoding="utf-8"))
    changed = []
    for crate in (it for it in listed().values() if not it.is_product):
        start = f"crates/{crate.name}/"
        now = files_below(folder, crate)
        was = {path: it for path, it in before.items() if path.startswith(start)}
        for path in sorted(it for it in {*was, *now} if was.get(it) != now.get(it)):
            to = crate.folder / f"{path.removeprefix(start)}{SUFFIX}"
            if path in now:
                to.parent.mkdir(parents=True, exist_ok=True)
                shutil.copyfile(folder / path, to)
            else:
                to.unlink(missing_ok=True)
            changed.append(str(to.relative_to(TOP)))
    write_made(folder, [it for it in listed().values() if (folder / "crates" / it.name).is_dir() and not it.is_product])
    return changed
