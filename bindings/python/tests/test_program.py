"""The program `lattice node` and a `Durable` go on where the other ended, by one folder.

`LATTICE_PROGRAM` names the program, else it is what the build of crates/lattice left, or what is handed out with this
package. Where there is none these tests are skipped; .ci/check-bindings fails.
"""
from __future__ import annotations

import os
import subprocess
import unittest
from pathlib import Path

import lattice
from lattice import Durable, Kind

from .test_durable import InFolder

# Objects that the program has where it is told none.
COUNTER, SET = 1, 3

BESIDE = Path(__file__).resolve().parents[2]
PLACES = [BESIDE.parent / "crates" / "lattice" / "out" / "lattice", BESIDE / "lattice"]
PROGRAM = os.environ.get("LATTICE_PROGRAM", next((str(place) for place in PLACES if place.is_file()), ""))


def made_by_program(folder: Path) -> None:
    """What a person makes a node's folder with, once."""
    words = [PROGRAM, "init", str(folder), "--own", "0", "--replicas", "1", "--commits", "1"]
    subprocess.run(words, check=True, stderr=subprocess.DEVNULL)


def made_by_library(folder: Path) -> None:
    Durable.create(1, 0, folder, commits=1).close()


class Process:
    """A `lattice node` that is alone in its group, and gets back what it sends to itself."""

    def __init__(self, folder: Path) -> None:
        words = [PROGRAM, "node", "--own", "0", "--replicas", "1", "--commits", "1", "--journal", str(folder)]
        pipe = subprocess.PIPE
        self.process = subprocess.Popen(words, stdin=pipe, stdout=pipe, stderr=pipe, bufsize=0)

    def call(self, line: str, until: str) -> str:
        """Gives it a line, and answers what it says with this, once it does."""
        assert self.process.stdin and self.process.stdout
        self.process.stdin.write(f"{line}\n".encode())
        while said := self.process.stdout.readline():
            if not said.startswith(b"#"):
                self.process.stdin.write(said)
            elif until in said.decode():
                return said.decode().strip()
        raise AssertionError("the program ended")

    def end(self) -> tuple[int, str]:
        """Ends its input: its status, and what it said on standard error."""
        _, told = self.process.communicate()
        return self.process.returncode, told.decode()


@unittest.skipUnless(PROGRAM, "there is no program `lattice`")
class Folders(InFolder):
    def opened(self) -> Durable:
        node = Durable(1, 0, self.folder, commits=1)
        node.add(COUNTER, Kind.COUNTER)
        node.add(SET, Kind.OR_SET)
        return node

    def by_program(self, life: int) -> None:
        """The program adds 7, after it found all that was before."""
        process = Process(self.folder)
        if life:
            self.assertIn(f"total {12 * life}", process.call(f"ask 0 {COUNTER} total", "answered"))
            self.assertIn("items [4 8]", process.call(f"ask 0 {SET} items", "answered"))
            self.assertIn("commit 42", process.call("decide 0 0 42", "outcome 0"))
        process.call(f"submit 0 {COUNTER} inc 7", f"view {4 * life + 1} ")
        process.call(f"submit 0 {SET} put 4", f"view {4 * life + 2} ")
        self.assertEqual(process.end(), (0, ""))

    def by_library(self, life: int) -> None:
        """The library adds 5, after it found all that was before."""
        with self.opened() as node:
            self.assertEqual((node.submitted(), node.total(COUNTER)), (4 * life + 2, 12 * life + 7))
            self.assertEqual([update.number for update in node.learnt()], list(range(1, 4 * life + 3)))
            node.inc(COUNTER, 5)
            node.put(SET, 8)
            if not life:
                node.propose(0, 42)
            self.assertEqual((node.view()[0], node.outcome(0)), (4 * life + 4, lattice.Outcome(42, True)))

    def test_each_goes_on_where_the_other_ended(self) -> None:
        made_by_library(self.folder)
        for life in range(3):
            self.by_program(life)
            self.by_library(life)

    def test_both_make_the_same_journal(self) -> None:
        folders = [self.folder / name for name in ("program", "library")]
        for folder, make in zip(folders, (made_by_program, made_by_library)):
            folder.mkdir()
            make(folder)
        one, other = [(it / "journal").read_bytes() for it in folders]
        self.assertEqual(one, other)
        for folder in folders:
            with self.assertRaises(lattice.JournalThereError):
                made_by_library(folder)
            with self.assertRaises(subprocess.CalledProcessError):
                made_by_program(folder)
            with Durable(1, 0, folder, commits=1) as node:
                node.inc(COUNTER)

    def test_the_library_goes_on_from_what_the_program_made(self) -> None:
        made_by_program(self.folder)
        self.by_program(0)
        self.by_library(0)

    def test_neither_begins_where_nothing_is(self) -> None:
        with self.assertRaises(lattice.JournalMissingError):
            self.opened()
        status, told = Process(self.folder).end()
        self.assertEqual(status, 5)
        self.assertIn("nothing here: mount its disk; if it is lost, never run this replica again", told)
        self.assertFalse((self.folder / "journal").exists())

    def test_what_one_has_locked_the_other_does_not_open(self) -> None:
        made_by_program(self.folder)
        with self.opened():
            status, told = Process(self.folder).end()
            self.assertEqual(status, 5)
            self.assertIn("another process has it", told)
        process = Process(self.folder)
        process.call(f"submit 0 {COUNTER} inc 7", "view 1 ")
        with self.assertRaises(lattice.LockedError):
            self.opened()
        self.assertEqual(process.end(), (0, ""))
        with self.opened() as node:
            self.assertEqual(node.total(COUNTER), 7)


if __name__ == "__main__":
    unittest.main()
