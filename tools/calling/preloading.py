"""Libraries that are loaded into a program before it begins."""
from __future__ import annotations

import os
import shlex
import shutil
import subprocess
from pathlib import Path


def compiler() -> list[str]:
    """The C compiler that the environment names, else the machine's, else the kit's."""
    named = shlex.split(os.environ.get("CC", "")) or ["cc"]
    if shutil.which(named[0]):
        return named
    page = subprocess.run(["rt", "doc"], stdout=subprocess.PIPE, text=True, check=True).stdout.strip()
    return [f"{Path(page).parent}/toolchain/bin/clang", "-fuse-ld=lld"]


def build(source: Path, folder: str) -> str:
    """Builds the library of a C file into a folder."""
    library = f"{folder}/{source.stem}.so"
    options = ("-O2", "-shared", "-fPIC", "-nostdlib", "-fno-builtin")
    subprocess.run([*compiler(), *options, "-o", library, source], check=True)
    return library
