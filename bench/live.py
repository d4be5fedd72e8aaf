"""Nodes of the built program over pipes, and what their updates cost."""
from __future__ import annotations

import os
import selectors
import statistics
import subprocess
import sys
import time
from collections import Counter, deque
from collections.abc import Callable, Sequence
from dataclasses import dataclass
from pathlib import Path

sys.path.append(str(Path(__file__).resolve().parent.parent / "tools"))

from folders import Replica

MEBIBYTE = 1 << 20
# A pipe takes no more at once.
PIPE = 1 << 16
PAGE = os.sysconf("SC_PAGE_SIZE")
# A group that is silent for so long sends nothing more.
QUIET = 0.3
# A group that is silent for so long while something is awaited has lost it.
PATIENCE = 60
# How many updates are in flight while a history is made.
HURRY = 1_024
# How many updates of each node come before those where all submit: the first of a node learns the history.
WARMING = 5
# After so many ticks of each node all views are to be equal, once one that was away is back.
MOST_TICKS = 10
KINDS = ("offer", "yes", "no", "tell", "known")


class Node:
    """A node's process, its pipes, what of them is not written or not a whole line yet, and what it has noted. More
    options may be given to it."""

    def __init__(self, program: Path, folder: Path, count: int, own: int, *more: str) -> None:
        self.own, self.folder = own, folder / f"journal{own}"
        self.words = Replica(program, self.folder, count, own).make().node_words(*more)
        # How many updates its view has, and how many of its own are in the last set that it learnt.
        self.view = self.learnt = 0
        self.status: list[str] = []
        self.run()

    def run(self) -> None:
        """Starts its process on its journal."""
        self.process = subprocess.Popen(self.words, stdin=subprocess.PIPE, stdout=subprocess.PIPE)
        assert self.process.stdin and self.process.stdout
        self.input, self.output = self.process.stdin.fileno(), self.process.stdout.fileno()
        for pipe in (self.input, self.output):
            os.set_blocking(pipe, False)
        self.unwritten, self.held = bytearray(), bytearray()

    def kill(self) -> None:
        """Kills its process, and closes the pipes."""
        self.process.kill()
        self.process.wait()
        assert self.process.stdin and self.process.stdout
        self.process.stdin.close()
        self.process.stdout.close()

    def submit(self, count: int) -> None:
        self.unwritten += b"submit %d 1 inc 1\n" % self.own * count

    def note(self, line: bytes) -> None:
        """Takes what it says of itself."""
        words = line.split(b" ")
        if words[2] == b"view":
            self.view = int(words[3])
        elif words[2] == b"learnt" and len(words) > 5 + self.own:
            self.learnt = int(words[5 + self.own])
        elif words[2] == b"status":
            self.status = line.decode().split()

    def journal(self) -> int:
        """The bytes in its folder."""
        return sum(file.stat().st_size for file in self.folder.iterdir())

    def memory(self) -> int:
        """The bytes that are resident."""
        return int(Path(f"/proc/{self.process.pid}/statm").read_text().split()[1]) * PAGE

    def start(self, *more: str) -> tuple[float, float]:
        """The seconds and the mebibytes of a start on its journal, over an input that is at its end."""
        began = time.perf_counter()
        process = subprocess.Popen([*self.words, *more], stdin=subprocess.DEVNULL)
        _, status, usage = os.wait4(process.pid, 0)
        process.returncode = os.waitstatus_to_exitcode(status)
        if process.returncode:
            sys.exit("a node does not start")
        return time.perf_counter() - began, usage.ru_maxrss / 1024

    def write(self) -> None:
        """Writes as much as the pipe takes."""
        while self.unwritten:
            try:
                del self.unwritten[: os.write(self.input, self.unwritten[:PIPE])]
            except BlockingIOError:
                return

    def lines(self) -> list[bytes]:
        """The whole lines that have come."""
        while True:
            try:
                came = os.read(self.output, MEBIBYTE)
            except BlockingIOError:
                break
            if not came:
                sys.exit("a node ended")
            self.held += came
        *whole, rest = bytes(self.held).split(b"\n") if b"\n" in self.held else [bytes(self.held)]
        self.held = bytearray(rest)
        return whole


class Group:
    """Nodes, the pipes between them, how many lines and bytes of each kind of message went over these, and who is away:
    what goes to that is counted, and lost. More options may be given to each node."""

    def __init__(self, program: Path, folder: Path, count: int, *more: str) -> None:
        self.nodes = [Node(program, folder, count, own, *more) for own in range(count)]
        self.lines: Counter[str] = Counter()
        self.bytes: Counter[str] = Counter()
        self.away: set[int] = set()
        self.poll = selectors.DefaultSelector()
        for own, it in enumerate(self.nodes):
            self.poll.register(it.output, selectors.EVENT_READ, own)

    def hand_on(self, own: int) -> None:
        """Hands on the lines that a node has written for others or itself."""
        for line in self.nodes[own].lines():
            if line.startswith(b"#"):
                self.nodes[own].note(line)
                continue
            verb, _, _, to, _ = line.split(b" ", 4)
            self.send(own, int(to), line + b"\n")
            self.lines[verb.decode()] += 1
            self.bytes[verb.decode()] += len(line) + 1

    def send(self, _own: int, to: int, line: bytes) -> None:
        """Hands one line of a node on to the node that it is for."""
        if to not in self.away:
            self.nodes[to].unwritten += line

    def turn(self, patience: float) -> bool:
        """Moves what there is to move, and returns whether there was any before the patience was at its end."""
        for it in self.nodes:
            it.write()
        keys = self.poll.select(0.001 if any(it.unwritten for it in self.nodes) else patience)
        for key, _ in keys:
            self.hand_on(key.data)
        return bool(keys) or any(it.unwritten for it in self.nodes)

    def await_that(self, done: Callable[[], bool]) -> None:
        """Moves lines until this is so."""
        while not done():
            if not self.turn(PATIENCE):
                sys.exit("a group does not go on")

    def everywhere(self) -> int:
        """How many updates all views have, but of those that are away."""
        return min(it.view for it in self.nodes if it.own not in self.away)

    def journals(self) -> list[int]:
        """The bytes in the folder of each node."""
        return [it.journal() for it in self.nodes]

    def submit_to_one(self, count: int, flight: int) -> list[float]:
        """Node 0 submits so many updates, at most so many of which are not in all views yet. Returns the seconds of
        each, until it is."""
        sent = done = self.everywhere()
        end, spent, flying = done + count, list[float](), deque[tuple[int, float]]()
        while done < end:
            if more := min(end, done + flight) - sent:
                self.nodes[0].submit(more)
                sent += more
                flying.append((sent, time.perf_counter()))
            self.await_that(lambda: self.everywhere() > done)
            seen, now = self.everywhere(), time.perf_counter()
            while done < seen:
                last, since = flying[0]
                spent += [now - since] * (min(last, seen) - done)
                done = min(last, seen)
                if done == last:
                    flying.popleft()
        return spent

    def submit_to_all(self, count: int) -> list[float]:
        """Each node submits so many updates, each once it has learnt the last. Returns the seconds of each."""
        sent, since, spent = [it.learnt for it in self.nodes], [0.0] * len(self.nodes), list[float]()
        ends = [it + count for it in sent]

        def submit_next() -> bool:
            now = time.perf_counter()
            for own, it in enumerate(self.nodes):
                if it.learnt == sent[own]:
                    if since[own]:
                        spent.append(now - since[own])
                    since[own] = 0.0
                    if sent[own] < ends[own]:
                        it.submit(1)
                        sent[own], since[own] = sent[own] + 1, now
            return not any(since)

        self.await_that(submit_next)
        return spent

    def settle(self) -> None:
        """Moves lines until all are silent."""
        while self.turn(QUIET):
            pass

    def ask_status(self) -> None:
        """Has each node say how it stands, once it has handled all lines that came before."""
        for it in self.nodes:
            it.status = []
            it.unwritten += b"status %d\n" % it.own
        self.await_that(lambda: all(it.status for it in self.nodes))

    def tick(self) -> int:
        """The bytes of lines that come of a tick of each node, until all are handled and no more come of that."""
        before = self.bytes.total()
        for it in self.nodes:
            it.unwritten += b"tick\n"
        lines = -1
        while lines != self.lines.total():
            lines = self.lines.total()
            self.ask_status()
        return self.bytes.total() - before

    def check_counts(self) -> None:
        """Stops where the nodes have not sent as many lines of each kind as were handed on."""
        self.ask_status()
        for kind in KINDS:
            said = sum(number_behind(it.status[it.status.index("out"):], kind) for it in self.nodes)
            if said != self.lines[kind]:
                sys.exit(f"the nodes say that they sent {said} times {kind}, and {self.lines[kind]} were handed on")

    def end(self) -> None:
        self.poll.close()
        for it in self.nodes:
            it.kill()


def number_behind(words: list[str], name: str) -> int:
    return int(words[words.index(name) + 1])


@dataclass
class Figures:
    """What an update costs: how many are done a second, the milliseconds until one is, the lines and bytes of each kind
    of message, the bytes in the journal of each node, and the memory of node 0, of all updates since its start."""

    rate: float
    milliseconds: float
    lines: dict[str, float]
    bytes: dict[str, float]
    journals: list[float]
    memory: float


def measure(group: Group, history: int, count: int, flight: int, warming: int = 0) -> Figures:
    """What so many updates cost behind a history that node 0 submits: of node 0, with so many in flight; or of each
    node, one at a time, where the flight is 0. The last of the history, so many, come one at a time."""
    group.submit_to_one(1, 1)
    node, empty = group.nodes[0], group.nodes[0].memory()
    group.submit_to_one(history - 1 - warming, HURRY)
    group.submit_to_one(warming, 1)
    if not flight:
        group.submit_to_all(WARMING)
    group.settle()
    lines, sizes, journals = group.lines.copy(), group.bytes.copy(), group.journals()
    began = time.perf_counter()
    spent = group.submit_to_one(count, flight) if flight else group.submit_to_all(count)
    rate = len(spent) / (time.perf_counter() - began)
    grown = node.memory() - empty
    group.settle()
    group.check_counts()
    return Figures(
        rate,
        1000 * statistics.median(spent),
        {kind: (group.lines[kind] - lines[kind]) / len(spent) for kind in KINDS},
        {kind: (group.bytes[kind] - sizes[kind]) / len(spent) for kind in KINDS},
        [(now - before) / len(spent) for now, before in zip(group.journals(), journals)],
        grown / (history + len(spent)),
    )


@dataclass
class Absence:
    """What it costs that the last node is away: the bytes that are sent for an update, behind so many since; and once
    it is back, after how many ticks of each node all views are equal, and the bytes that these send."""

    sent: list[float]
    ticks: int
    caught_up: int


def measure_away(group: Group, history: int, counts: Sequence[int], count: int) -> Absence:
    """Node 0 submits a history, and then, while the last node is away, one update after the other: of so many the
    bytes are counted, behind each of these counts."""
    group.submit_to_one(history, HURRY)
    group.settle()
    group.away.add(len(group.nodes) - 1)
    sent = list[float]()
    for since in counts:
        group.submit_to_one(history + since - group.everywhere(), 1)
        group.settle()
        before = group.bytes.total()
        group.submit_to_one(count, 1)
        group.settle()
        sent.append((group.bytes.total() - before) / count)
    group.away.clear()
    ticks = caught_up = 0
    while len({it.view for it in group.nodes}) > 1:
        if ticks == MOST_TICKS:
            sys.exit(f"a node that is back has not caught up after {ticks} ticks")
        ticks, caught_up = ticks + 1, caught_up + group.tick()
    return Absence(sent, ticks, caught_up)


def median_of(runs: list[Figures]) -> Figures:
    """The median of each figure."""
    def medians(of: Callable[[Figures], dict[str, float]]) -> dict[str, float]:
        return {kind: statistics.median(of(it)[kind] for it in runs) for kind in KINDS}

    def median(of: Callable[[Figures], float]) -> float:
        return statistics.median(map(of, runs))

    return Figures(
        median(lambda it: it.rate),
        median(lambda it: it.milliseconds),
        medians(lambda it: it.lines),
        medians(lambda it: it.bytes),
        [statistics.median(each) for each in zip(*(it.journals for it in runs))],
        median(lambda it: it.memory),
    )
