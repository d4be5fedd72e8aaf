"""Loads liblattice."""
from __future__ import annotations

import ctypes
import os
from pathlib import Path

from . import _calls

HERE = Path(__file__).resolve().parent


def places() -> list[Path]:
    """Where the library may be: what `LATTICE_LIBRARY` names, else in the package or where `bindings/build` left it."""
    named = os.environ.get("LATTICE_LIBRARY")
    if named:
        return [Path(named)]
    tree = HERE.parent.parent
    built = [tree / "out" / "liblattice.so"] if (tree / "calls").is_file() else []
    return [HERE / "liblattice.so", *built]


def load() -> ctypes.CDLL:
    """The library, with its calls declared."""
    for place in places():
        if place.is_file():
            library = ctypes.CDLL(str(place))
            _calls.declare(library)
            return library
    looked = " and no ".join(map(str, places()))
    raise ImportError(f"LATTICE_LIBRARY has to name liblattice.so, or bindings/build to make it: there is no {looked}")


LIBRARY = load()
