"""The folder of a replica's journal, and how the program is called on it: `lattice init` makes the journal, once, and
`lattice node` runs the replica on it, life after life. Whoever starts nodes takes the words from here."""
from __future__ import annotations

import subprocess
from collections.abc import Mapping
from pathlib import Path


class Replica:
    """One replica of a group, and the folder that is its own. Further options say what else the group has, such as
    `--commits 1`."""

    def __init__(self, program: str | Path, folder: str | Path, replicas: int, own: int, *more: str) -> None:
        # An empty name stays one, which is no folder: as a path it would be the current one.
        self.program, self.name, self.folder = str(program), str(folder), Path(folder)
        self.options = ["--replicas", str(replicas), "--own", str(own), *more]

    def init_words(self) -> list[str]:
        """The call that makes its journal."""
        return [self.program, "init", self.name, *self.options]

    def node_words(self, *more: str) -> list[str]:
        """The call that runs it, with options that are of this run alone, such as `--tick 1`."""
        return [self.program, "node", *self.options, "--journal", self.name, *more]

    def make(self, environment: Mapping[str, str] | None = None) -> Replica:
        """Makes the folder, where it is not there yet, and the journal. Only a first start needs it: a node that was
        killed is started again without."""
        self.folder.mkdir(parents=True, exist_ok=True)
        subprocess.run(self.init_words(), env=environment, check=True)
        return self
