"""What a crate of callers/ cites: its own files, and of each library below it all that is stated.

A built library has, in out/rlib, its interface: every item with its contract, without bodies and comments. That, its
definitions (specs/) and the lemmas that upper crates may use (proofs/lemmas/) are what a caller's proof can stand on. As
long as they and the caller's own files stay, and the kit, the caller is proved.
"""
from __future__ import annotations

import hashlib
import subprocess
from pathlib import Path

from crates.listed import TOP, Crate, with_below

# Of a built library's folder.
STATED = ("lang/src", "lang/antt/specs", "lang/antt/specs.antt", "lang/antt/proofs/lemmas")


class NotBuilt(Exception):
    """A library that `rt ci` has not built here."""


def files_of(rlib: Path) -> list[Path]:
    """The files of a built library that state something."""
    places = [rlib / it for it in STATED]
    return sorted(it for place in places for it in ([place] if place.is_file() else place.rglob("*")) if it.is_file())


def stated_by(name: str) -> str:
    """A sum of all that a library of the product states, as it was built here."""
    rlib = TOP / "crates" / name / "out" / "rlib" / f"{name}.rlib"
    found = files_of(rlib)
    if not found:
        raise NotBuilt(f"{rlib.relative_to(TOP)} is not there: `rt ci` at the top builds it")
    total = hashlib.sha256()
    for it in found:
        total.update(repr((str(it.relative_to(rlib)), it.read_bytes())).encode())
    return total.hexdigest()


def cited_by(name: str, crates: dict[str, Crate], known: dict[str, str]) -> str:
    """A sum of all on which the proof of a crate beside the product stands."""
    total = hashlib.sha256(subprocess.run(["rt", "version"], stdout=subprocess.PIPE, check=True).stdout)
    for it in with_below(crates, [name]):
        crate = crates[it]
        if crate.is_product:
            known[it] = known.get(it) or stated_by(it)
            total.update(f"{it} {known[it]}\n".encode())
        else:
            total.update(crate.line.encode())
            for path, inner in crate.files():
                total.update(repr((inner, path.read_bytes())).encode())
    return total.hexdigest()
