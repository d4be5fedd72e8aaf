"""Nodes that end at any moment, and come back by their journals."""
from __future__ import annotations

import os
import signal
import subprocess
import sys
import tempfile
import unittest
from collections.abc import Callable
from concurrent.futures import ThreadPoolExecutor
from contextlib import ExitStack
from itertools import combinations
from pathlib import Path
from random import Random
from unittest import mock

import lattice
from lattice import Durable, Kind, Mail, Node, Operation

COUNTER, SET, OWN = 1, 2, 3
PACKAGE = Path(__file__).resolve().parent.parent
# What a process does until it is killed: it tells the number of each update that is on its disk.
CHILD = """
import sys
from lattice import Durable
with Durable(1, 0, sys.argv[1], commits=1) as node:
    while True:
        print(node.inc(1, 5), flush=True)
        with node.batch() as batch:
            batch.inc(1, 5)
            made = batch.inc(1, 5)
        print(made.number, flush=True)
"""


def with_objects(node: Durable) -> Durable:
    node.add(COUNTER, Kind.COUNTER)
    node.add(SET, Kind.OR_SET)
    return node


def created(folder: Path, replicas: int = 1, own: int = 0) -> Durable:
    return with_objects(Durable.create(replicas, own, folder, commits=1))


def opened(folder: Path, replicas: int = 1, own: int = 0) -> Durable:
    return with_objects(Durable(replicas, own, folder, commits=1))


def noted(name: str, made: list[str]) -> Callable[..., object]:
    """A call of `os` that is noted and made."""
    call: Callable[..., object] = getattr(os, name)

    def note(*words: object) -> object:
        made.append(name)
        return call(*words)

    return note


class InFolder(unittest.TestCase):
    """Tests that have a folder."""

    def setUp(self) -> None:
        scratch = tempfile.TemporaryDirectory()
        self.addCleanup(scratch.cleanup)
        self.folder = Path(scratch.name)

    def journal(self) -> bytes:
        return (self.folder / "journal").read_bytes()

    def give(self, data: bytes) -> None:
        (self.folder / "journal").write_bytes(data)


class WithJournal(InFolder):
    """Tests whose folder has the journal of a node that has taken nothing."""

    def setUp(self) -> None:
        super().setUp()
        created(self.folder).close()


class Firsts(InFolder):
    def names(self) -> list[str]:
        return sorted(it.name for it in self.folder.iterdir())

    def test_a_start_makes_no_journal(self) -> None:
        told = "nothing here: mount its disk; if it is lost, never run this replica again; a first start is"
        for _ in range(2):
            with self.assertRaises(lattice.JournalMissingError) as raised:
                opened(self.folder)
            self.assertEqual(str(raised.exception), f"{self.folder}: {told} `Durable.create`")
            self.assertEqual(self.names(), ["lock"])
        created(self.folder).close()
        opened(self.folder).close()

    def test_a_journal_is_made_once(self) -> None:
        with created(self.folder) as node:
            first = self.journal()
            with self.assertRaises(lattice.LockedError):
                created(self.folder)
            node.inc(COUNTER, 5)
        self.assertRegex(first, rb"\Alattice 2 replica 0 of 1 votes 1 commits 1 cap 1000000 [0-9a-f]{16}\n\Z")
        whole = self.journal()
        for data in (b"", b"hello", first, whole):
            self.give(data)
            with self.assertRaisesRegex(lattice.JournalThereError, f"^{self.folder}: there is a journal"):
                created(self.folder)
            self.assertEqual((self.journal(), self.names()), (data, ["journal", "lock"]))
        with opened(self.folder) as node:
            self.assertEqual(node.total(COUNTER), 5)

    def test_a_node_in_memory_has_no_journal(self) -> None:
        with Node(1, 0) as node:
            node.inc(COUNTER)
            self.assertEqual(node.submitted(), 1)
        self.assertEqual(self.names(), [])

    def test_an_empty_journal_is_none(self) -> None:
        self.give(b"")
        with self.assertRaises(lattice.NoJournalError):
            opened(self.folder)
        self.assertEqual(self.journal(), b"")

    def test_a_link_to_nowhere_is_a_journal_whose_disk_is_not_there(self) -> None:
        (self.folder / "journal").symlink_to(self.folder / "elsewhere")
        with self.assertRaises(lattice.JournalMissingError):
            opened(self.folder)
        with self.assertRaises(lattice.JournalThereError):
            created(self.folder)
        self.assertEqual(self.names(), ["journal", "lock"])

    def test_what_is_refused_makes_no_journal(self) -> None:
        calls: list[tuple[Callable[[], object], type[Exception]]] = [
            (lambda: Durable.create(9, 0, self.folder), lattice.BadGroupError),
            (lambda: Durable.create(3, 0, self.folder, votes=[1, 2]), lattice.BadGroupError),
            (lambda: Durable.create(3, 3, self.folder), lattice.NoReplicaError),
            (lambda: Durable.create(300, 0, self.folder), ValueError),
        ]
        for call, error in calls:
            with self.assertRaises(error):
                call()
            self.assertIn(self.names(), ([], ["lock"]))

    def test_a_failure_leaves_none_or_the_whole(self) -> None:
        for call in ("os.write", "os.fsync", "os.replace"):
            with mock.patch(call, side_effect=OSError(5, "Input/output error")), self.assertRaises(OSError):
                created(self.folder)
            self.assertNotIn("journal", self.names())
            with self.assertRaises(lattice.JournalMissingError):
                opened(self.folder)
        with mock.patch("lattice.folder.Folder._sync_folder", side_effect=OSError(5, "Input/output error")):
            with self.assertRaises(OSError):
                created(self.folder)
        with self.assertRaises(lattice.JournalThereError):
            created(self.folder)
        opened(self.folder).close()
        self.assertEqual(self.names(), ["journal", "lock"])

    def test_it_is_on_the_disk_before_it_has_its_name(self) -> None:
        made: list[str] = []
        with ExitStack() as stack:
            for name in ("write", "fsync", "fdatasync", "replace"):
                stack.enter_context(mock.patch(f"os.{name}", noted(name, made)))
            created(self.folder).close()
        self.assertEqual(made, ["write", "fsync", "replace", "fsync"])


class Lives(WithJournal):
    def test_a_node_comes_back_with_all_that_it_answered(self) -> None:
        for life in range(4):
            with opened(self.folder) as node:
                self.assertEqual((node.submitted(), node.total(COUNTER)), (4 * life, 7 * life))
                self.assertEqual(node.items(SET), [9] if life else [])
                self.assertEqual(len(list(node.learnt())), 4 * life)
                self.assertEqual(node.outcome(0), lattice.Outcome(42, True) if life else None)
                self.assertEqual([node.inc(COUNTER, 7), node.put(SET, 9)], [4 * life + 1, 4 * life + 2])
                self.assertEqual([node.put(SET, life), node.remove(SET, life)], [4 * life + 3, 4 * life + 4])
                if life:
                    with self.assertRaises(lattice.AlreadyProposedError):
                        node.propose(0, 43)
                else:
                    node.propose(0, 42)

    def test_what_a_crash_cut_goes_and_nothing_else(self) -> None:
        with opened(self.folder) as node:
            node.inc(COUNTER, 5)
            told = self.journal()
            with node.batch() as batch:
                batch.inc(COUNTER)
                made = batch.own(OWN, b"of one's own")
            self.assertEqual(made.number, 3)
        written = self.journal()
        self.assertTrue(written.startswith(told))
        for length in range(len(told), len(written) + 1):
            whole = length == len(written)
            self.give(written[:length])
            with opened(self.folder) as node, self.subTest(length=length):
                self.assertEqual(self.journal(), written if whole else told)
                self.assertEqual((node.submitted(), node.total(COUNTER)), (3, 6) if whole else (1, 5))
                node.inc(COUNTER, 10)
            with opened(self.folder) as node:
                self.assertEqual(node.total(COUNTER), 16 if whole else 15)

    def test_a_killed_process_comes_back_with_all_that_it_told(self) -> None:
        words, before = [sys.executable, "-B", "-c", CHILD, str(self.folder)], 0
        for round_number in range(6):
            child = subprocess.Popen(words, stdout=subprocess.PIPE, cwd=PACKAGE, text=True)
            assert child.stdout
            for _ in range(1 + 7 * round_number % 23):
                child.stdout.readline()
            child.send_signal(signal.SIGKILL)
            told = [int(line) for line in child.stdout if line.endswith("\n")]
            child.stdout.close()
            child.wait()
            with opened(self.folder) as node:
                submitted = node.submitted()
                self.assertGreater(submitted, before)
                if told:
                    self.assertIn(submitted, range(told[-1], told[-1] + 3))
                self.assertEqual(node.total(COUNTER), 5 * submitted)
                before = submitted

    def test_what_a_start_left_is_passed_over(self) -> None:
        with opened(self.folder) as node:
            node.inc(COUNTER, 5)
        (self.folder / "journal.new").write_bytes(b"lattice")
        (self.folder / "journal").chmod(0o640)
        with opened(self.folder) as node:
            self.assertEqual(node.total(COUNTER), 5)
        self.assertFalse((self.folder / "journal.new").exists())
        modes = [(self.folder / name).stat().st_mode & 0o777 for name in ("journal", "lock")]
        self.assertEqual(modes, [0o640, 0o600])


class Groups(InFolder):
    def setUp(self) -> None:
        super().setUp()
        self.nodes: list[Durable] = []
        for own in range(3):
            (self.folder / str(own)).mkdir()
            self.nodes.append(created(self.folder / str(own), 3, own))
        self.addCleanup(self.close)
        self.told = [[0] * 8] * 3
        self.bag: list[Mail] = []

    def close(self) -> None:
        for node in self.nodes:
            node.close()

    def start(self, own: int) -> Durable:
        return opened(self.folder / str(own), 3, own)

    def collect(self) -> None:
        """Takes in the mail: no view is smaller than it was, and each two are comparable."""
        for own, node in enumerate(self.nodes):
            self.bag += node.mail()
            view = node.view()
            self.assertTrue(all(told <= now for told, now in zip(self.told[own], view)))
            self.told[own] = view
        for one, other in combinations(self.told, 2):
            pairs = list(zip(one, other))
            self.assertTrue(all(x <= y for x, y in pairs) or all(x >= y for x, y in pairs))

    def hand_over(self, random: Random, lost: float = 0.0, twice: float = 0.0) -> None:
        """Hands all messages for some node over with one sync, in any order: some not, some twice."""
        to = random.choice(self.bag).to
        mail = [it for it in self.bag if it.to == to]
        self.bag = [it for it in self.bag if it.to != to] + [it for it in mail if random.random() < twice]
        random.shuffle(mail)
        with self.nodes[to].batch() as batch:
            for it in mail:
                if random.random() >= lost:
                    batch.receive(it.line)
        self.collect()

    def settle(self, random: Random, submitted: int) -> None:
        for _ in range(100):
            self.collect()
            while self.bag:
                self.hand_over(random)
            if all(sum(view) == submitted for view in self.told):
                return
            for node in self.nodes:
                node.again()
        raise AssertionError("not all is learnt after 100 rounds")

    def test_a_group_goes_on_whoever_ends_and_comes_back(self) -> None:
        random, made = Random(1), 0
        while made < 40:
            way = random.randrange(16)
            if way < 3:
                self.nodes[way].inc(COUNTER)
                made += 1
            elif way == 3:
                random.choice(self.nodes).again()
            elif way < 7:
                self.nodes[way - 4].close()
                self.nodes[way - 4] = self.start(way - 4)
            elif self.bag:
                self.hand_over(random, 0.2, 0.2)
            self.collect()
        self.settle(random, made)
        self.assertEqual([node.total(COUNTER) for node in self.nodes], [made] * 3)


class Refusals(WithJournal):
    def test_damage_is_told_with_its_line(self) -> None:
        with opened(self.folder) as node:
            ends = [len(self.journal()) for _ in range(3) if node.inc(COUNTER, 5)]
        written = self.journal()
        line = written[: ends[0]].count(b"\n") + 1
        for at in range(ends[0], ends[1]):
            damaged = written[:at] + bytes([written[at] ^ 1]) + written[at + 1 :]
            self.give(damaged)
            with self.assertRaisesRegex(lattice.DamagedError, f"from line {line} on. No older copy") as raised:
                opened(self.folder)
            self.assertEqual((raised.exception.line, self.journal()), (line, damaged))

    def test_a_folder_that_is_not_there_is_told_by_its_path(self) -> None:
        missing = self.folder / "missing"
        starts: list[Callable[..., Durable]] = [Durable, Durable.create]
        for call in starts:
            with self.assertRaisesRegex(FileNotFoundError, f"the folder has to exist: '{missing}'"):
                call(1, 0, missing)
        missing.write_text("")
        for call in starts:
            with self.assertRaisesRegex(NotADirectoryError, str(missing)):
                call(1, 0, missing)

    def test_other_journals(self) -> None:
        with opened(self.folder) as node:
            node.inc(COUNTER, 5)
        written = self.journal()
        calls: list[tuple[bytes, Callable[[], object], type[Exception]]] = [
            (written, lambda: Durable(1, 0, self.folder, commits=1, cap=7), lattice.OtherJournalError),
            (written, lambda: Durable(1, 0, self.folder), lattice.OtherJournalError),
            (written, lambda: Durable(1, 0, self.folder, commits=1, votes=[2]), lattice.OtherJournalError),
            (written, lambda: Durable(2, 1, self.folder, commits=1), lattice.OtherJournalError),
            (written, lambda: Durable(9, 0, self.folder), lattice.BadGroupError),
            (written, lambda: Durable(3, 3, self.folder), lattice.NoReplicaError),
            (written, lambda: Durable(300, 0, self.folder), ValueError),
            (written[1:], lambda: opened(self.folder), lattice.NoJournalError),
            (b"", lambda: opened(self.folder), lattice.NoJournalError),
            (b"hello", lambda: opened(self.folder), lattice.NoJournalError),
            (b"\n", lambda: opened(self.folder), lattice.NoJournalError),
        ]
        for data, call, error in calls:
            self.give(data)
            with self.assertRaises(error):
                call()
            self.assertEqual(self.journal(), data)
        self.give(written)
        opened(self.folder).close()

    def test_one_process_has_a_folder(self) -> None:
        with opened(self.folder):
            with self.assertRaisesRegex(lattice.LockedError, "this process or another"):
                opened(self.folder)
        node = opened(self.folder)
        child = os.fork()
        if not child:
            signal.pause()
        self.addCleanup(os.waitpid, child, 0)
        self.addCleanup(os.kill, child, signal.SIGKILL)
        node.close()
        opened(self.folder).close()

    def test_a_batch_tells_nothing_before_it_ends(self) -> None:
        with opened(self.folder) as node:
            before = self.journal()
            with node.batch() as batch:
                made = batch.inc(COUNTER, 5)
                self.assertEqual(self.journal(), before)
                with self.assertRaises(lattice.UnkeptError):
                    made.number
                calls: list[Callable[[], object]] = [
                    node.submitted,
                    node.next_mail,
                    node.close,
                    lambda: node.inc(COUNTER),
                    lambda: node.batch().__enter__(),
                ]
                for call in calls:
                    with self.assertRaisesRegex(ValueError, "a batch has begun"):
                        call()
            self.assertEqual((made.number, node.total(COUNTER)), (1, 5))
            with self.assertRaisesRegex(ValueError, "the batch has ended"):
                batch.inc(COUNTER)

    def test_what_a_batch_took_before_a_refusal_stays(self) -> None:
        with opened(self.folder) as node:
            before = self.journal()
            with self.assertRaises(lattice.BadLineError):
                node.receive(b"hello")
            node.again()
            self.assertEqual(self.journal(), before)
            with self.assertRaises(lattice.TooLargeError), node.batch() as batch:
                batch.submit_at(1, COUNTER, Operation.INC, 5)
                batch.own(OWN, bytes(249))
            self.assertEqual(node.submitted(), 1)
        with opened(self.folder) as node:
            self.assertEqual(node.total(COUNTER), 5)

    def test_threads_share_a_node(self) -> None:
        with opened(self.folder) as node:
            with ThreadPoolExecutor(4) as pool:
                numbers = list(pool.map(lambda _: node.inc(COUNTER), range(100)))
            self.assertEqual(sorted(numbers), list(range(1, 101)))
        with opened(self.folder) as node:
            self.assertEqual(node.total(COUNTER), 100)


class Disks(WithJournal):
    def check_closed(self, node: Durable) -> None:
        calls: list[Callable[[], object]] = [
            lambda: node.inc(COUNTER),
            lambda: node.total(COUNTER),
            lambda: node.batch().__enter__(),
            node.again,
            node.view,
            node.next_mail,
            node.next_learnt,
        ]
        for call in calls:
            with self.assertRaisesRegex(lattice.ClosedError, "opened anew"):
                call()
        node.close()
        with opened(self.folder) as node:
            self.assertIn(node.submitted(), (1, 2))
            self.assertEqual(node.total(COUNTER), 5 * node.submitted())

    def test_files_are_written_and_synced_in_this_order(self) -> None:
        made: list[str] = []
        start = ["write", "fsync", "replace", "fsync"]
        with ExitStack() as stack:
            for name in ("write", "fsync", "fdatasync", "replace"):
                stack.enter_context(mock.patch(f"os.{name}", noted(name, made)))
            for _ in range(2):
                with opened(self.folder) as node:
                    self.assertEqual(made, start)
                    node.inc(COUNTER)
                    self.assertEqual(made, [*start, "write", "fdatasync"])
                    with node.batch() as batch:
                        batch.inc(COUNTER)
                        batch.inc(COUNTER)
                    node.again()
                    self.assertEqual(made, [*start, *["write", "fdatasync"] * 2])
                made.clear()

    def test_a_sync_that_fails_closes_the_node(self) -> None:
        node = opened(self.folder)
        node.inc(COUNTER, 5)
        with mock.patch("os.fdatasync", side_effect=OSError(5, "Input/output error")):
            with self.assertRaisesRegex(OSError, "Input/output"), node.batch() as batch:
                made = batch.inc(COUNTER, 5)
        with self.assertRaises(lattice.UnkeptError):
            made.number
        self.check_closed(node)

    def test_a_write_that_fails_closes_the_node(self) -> None:
        node = opened(self.folder)
        node.inc(COUNTER, 5)
        write = os.write
        written: list[int] = []

        def half(file: int, data: bytes) -> int:
            """The disk is full in the middle of a record."""
            if written:
                raise OSError(28, "No space left on device")
            written.append(write(file, data[: len(data) // 2]))
            return written[0]

        with mock.patch("os.write", half), self.assertRaisesRegex(OSError, "No space"):
            node.inc(COUNTER, 5)
        self.check_closed(node)

    def test_a_start_that_fails_leaves_the_journal(self) -> None:
        with opened(self.folder) as node:
            node.inc(COUNTER, 5)
        before = self.journal()
        for call in ("os.write", "os.fsync", "os.replace"):
            with mock.patch(call, side_effect=OSError(5, "Input/output error")):
                with self.assertRaises(OSError):
                    opened(self.folder)
            self.assertEqual(self.journal(), before)
        opened(self.folder).close()

if __name__ == "__main__":
    unittest.main()
