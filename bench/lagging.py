"""Groups of three nodes over pipes of which node 2 is behind, is stopped again and again, or was away, or whose links
lose lines, and what updates cost there."""
from __future__ import annotations

import random
import selectors
import signal
import statistics
import time
from collections import deque
from collections.abc import Callable, Sequence
from dataclasses import dataclass
from pathlib import Path

from live import HURRY, QUIET, Group, Node

NODES = 3
# The node that is behind, is stopped or was away. Node 0 submits, and has a majority with node 1.
BEHIND = 2
# A node that is stopped again and again runs for so many seconds, and then is stopped for as many.
HALF = 0.05
# So many updates come before those that are measured, over links that are as they should be: so that all have heard of
# each other.
FIRST = 100
# The seconds between two ticks of a node that ticks, and of one that is not to tick while it is measured.
TICK, NO_TICK = "1", "3600"
# A group whose nodes tick has nothing more to send where it is silent for so long: the next tick but one has come.
SILENT = 3.5


class Late(Exception):
    """A run that did not end in its time."""


@dataclass(frozen=True)
class Weather:
    """What is wrong with the links of a group: by how many milliseconds each line to node 2 and each line of node 2 is
    late, how many of each hundred lines between two nodes are lost, and whether node 2 is stopped half of the time."""

    delay: float = 0
    lost: float = 0
    is_stopped: bool = False

    def __str__(self) -> str:
        parts = [f"{self.delay:g} ms each way"] if self.delay else []
        parts += [f"{self.lost:g} % lost"] if self.lost else []
        parts += [f"stopped {1000 * HALF:.0f} of {2000 * HALF:.0f} ms"] if self.is_stopped else []
        return ", ".join(parts) or "as it is"


CALM = Weather()


class Links(Group):
    """A group whose lines have some weather, which is drawn from a seed, and a time until which all has to be done.

    It counts the lines that each node sent to each, and their bytes, with those that were lost, and the bytes of these.
    A line that is late waits here until its time has come; one that a pipe does not take yet waits too."""

    def __init__(self, program: Path, folder: Path, tick: str, limit: float, seed: int = 1) -> None:
        super().__init__(program, folder, NODES, "--tick", tick)
        self.weather, self.draw = CALM, random.Random(seed)
        self.until, self.heard = time.monotonic() + limit, time.monotonic()
        # Lines that are late: when each is due, for whom it is, and the line.
        self.late: deque[tuple[float, int, bytes]] = deque()
        # By sender and receiver.
        self.counts, self.sent, self.lost = ([[0] * NODES for _ in range(NODES)] for _ in range(3))
        # To whom more is to be written than its pipe takes.
        self.full: set[int] = set()
        self.began, self.is_stopped = 0.0, False

    def begin(self, weather: Weather) -> None:
        """From here on the links have this weather, and what is sent is counted anew."""
        self.weather, self.began = weather, time.monotonic()
        for row in (*self.counts, *self.sent, *self.lost):
            row[:] = [0] * NODES

    def send(self, own: int, to: int, line: bytes) -> None:
        """Hands a line on, or lets it wait, or loses it. What a node sends to itself is never late or lost."""
        self.counts[own][to] += 1
        self.sent[own][to] += len(line)
        if own != to and self.weather.lost and self.draw.random() * 100 < self.weather.lost:
            self.lost[own][to] += len(line)
        elif own != to and self.weather.delay and BEHIND in (own, to):
            self.late.append((time.monotonic() + self.weather.delay / 1000, to, line))
        else:
            super().send(own, to, line)

    def turn(self, patience: float) -> bool:
        """Moves what there is to move, and returns whether there was any before the patience was at its end, or the
        next moment came at which something is due."""
        self.pass_time()
        for it in self.nodes:
            it.write()
            self.watch(it)
        keys = self.poll.select(self.next_due(patience))
        for key, events in keys:
            if events & selectors.EVENT_READ:
                self.hand_on(key.data)
        if keys:
            self.heard = time.monotonic()
        return bool(keys)

    def watch(self, node: Node) -> None:
        """Wakes a later turn once the pipe of a node takes more, if there is more for it."""
        if bool(node.unwritten) == (node.own in self.full):
            return
        if node.unwritten:
            self.full.add(node.own)
            self.poll.register(node.input, selectors.EVENT_WRITE, node.own)
        else:
            self.full.remove(node.own)
            self.poll.unregister(node.input)

    def pass_time(self) -> None:
        """Hands on the lines that were late and are due, and stops node 2, or lets it run again, when it is time."""
        now = time.monotonic()
        if now > self.until:
            raise Late
        while self.late and self.late[0][0] <= now:
            _, to, line = self.late.popleft()
            super().send(BEHIND, to, line)
        is_stopped = self.weather.is_stopped and int((now - self.began) / HALF) % 2 == 1
        if is_stopped != self.is_stopped:
            self.is_stopped = is_stopped
            self.nodes[BEHIND].process.send_signal(signal.SIGSTOP if is_stopped else signal.SIGCONT)

    def next_due(self, patience: float) -> float:
        """How many seconds from now something is due by itself, or the patience is at its end."""
        now = time.monotonic()
        moments = [now + patience, self.until, *(due for due, _, _ in list(self.late)[:1])]
        if self.weather.is_stopped:
            moments.append(now + HALF - (now - self.began) % HALF)
        return max(0.0, min(moments) - now)

    def await_that(self, done: Callable[[], bool]) -> None:
        """Moves lines until this is so, or the time is over."""
        while not done():
            self.turn(QUIET)

    def settle(self, quiet: float = QUIET) -> None:
        """Moves lines until all are silent for so many seconds and nothing waits."""
        self.heard = time.monotonic()
        self.await_that(lambda: not self.late and not self.full and time.monotonic() > self.heard + quiet)

    def submit_fast(self, count: int, flight: int) -> None:
        """Node 0 submits so many updates, at most so many of which its own view lacks: so it waits for no node that is
        behind."""
        node = self.nodes[0]
        sent = seen = node.view
        end = seen + count
        while seen < end:
            if more := min(end, seen + flight) - sent:
                node.submit(more)
                sent += more
            self.await_that(lambda: node.view > seen)
            seen = node.view

    def await_whole(self) -> None:
        """Moves lines until all views have all that the view of node 0 has."""
        self.await_that(lambda: self.everywhere() == self.nodes[0].view)

    def waiting(self) -> int:
        """How many bytes wait here for node 2."""
        return len(self.nodes[BEHIND].unwritten) + sum(len(line) for _, to, line in self.late if to == BEHIND)

    @staticmethod
    def got(counts: list[list[int]]) -> int:
        """How much of this the others have sent to node 2."""
        return sum(row[BEHIND] for row in counts[:BEHIND])


def processor_seconds(node: Node) -> float:
    """The time of the processor that a node's process has taken, by the clock that the system keeps of each process:
    it is finer than the hundredths of /proc/PID/stat."""
    return time.clock_gettime((~node.process.pid << 3) | 2)


@dataclass
class Lag:
    """What an update costs where node 2 is behind: the bytes that the others send to node 2, and those of them that
    were lost; the bytes in the journal of each node; how many updates a second the view of node 0 takes in; how many
    bytes waited for node 2 when it had all; the processor's seconds of both others, for all updates; and for how much
    of the time until then this process was busy, which hands on all lines: where it is busy all the time, it is what
    limits the updates a second."""

    sent: float
    lost: float
    journals: list[float]
    rate: float
    waiting: float
    seconds: float
    busy: float


def measure_lag(links: Links, weather: Weather, count: int, flight: int) -> Lag:
    """What so many updates of node 0 cost in this weather, with so many in flight, until all views have them."""
    links.submit_fast(FIRST, flight)
    links.await_whole()
    links.settle()
    journals, spent = links.journals(), [processor_seconds(it) for it in links.nodes[:BEHIND]]
    links.begin(weather)
    began, was_busy = time.perf_counter(), time.process_time()
    links.submit_fast(count, flight)
    elapsed, busy = time.perf_counter() - began, time.process_time() - was_busy
    waiting = links.waiting()
    links.await_whole()
    links.settle()
    return Lag(
        links.got(links.sent) / count,
        links.got(links.lost) / count,
        [(now - before) / count for now, before in zip(links.journals(), journals)],
        count / elapsed,
        waiting,
        sum(processor_seconds(it) - before for it, before in zip(links.nodes, spent)),
        busy / elapsed,
    )


def median_lag(runs: Sequence[Lag]) -> Lag:
    """The median of each figure."""
    def median(of: Callable[[Lag], float]) -> float:
        return statistics.median(map(of, runs))

    journals = [statistics.median(each) for each in zip(*(it.journals for it in runs))]
    sent, lost = median(lambda it: it.sent), median(lambda it: it.lost)
    rate, waiting = median(lambda it: it.rate), median(lambda it: it.waiting)
    return Lag(sent, lost, journals, rate, waiting, median(lambda it: it.seconds), median(lambda it: it.busy))


@dataclass
class Return:
    """What node 2 gets from its start until its view is whole: the lines and bytes of the others, and the bytes of its
    own to itself; the seconds that it takes; and the bytes of the others until all are silent."""

    lines: int
    bytes: int
    own_bytes: int
    seconds: float
    bytes_in_all: int


def measure_return(links: Links, count: int, flight: int, submits: bool) -> Return:
    """Node 2 is killed, node 0 submits so many updates, and node 2 is started again: what it then gets until its view
    has them. It may submit an update of its own as it starts."""
    node = links.nodes[BEHIND]
    links.submit_fast(FIRST, flight)
    links.await_whole()
    links.settle()
    links.away.add(BEHIND)
    links.poll.unregister(node.output)
    node.kill()
    links.submit_fast(count, flight)
    links.await_that(lambda: links.nodes[1].view == links.nodes[0].view)
    links.settle()
    links.begin(CALM)
    began = time.perf_counter()
    links.away.clear()
    node.run()
    links.poll.register(node.output, selectors.EVENT_READ, BEHIND)
    if submits:
        node.submit(1)
    links.await_whole()
    seconds, own_bytes = time.perf_counter() - began, links.sent[BEHIND][BEHIND]
    lines, others = links.got(links.counts), links.got(links.sent)
    links.settle(SILENT)
    return Return(lines, others, own_bytes, seconds, links.got(links.sent))


def measure_plain_run(links: Links, count: int) -> tuple[float, list[int], bool]:
    """The seconds until so many updates of node 0, with as many in flight as a history has, are in all views, the bytes
    of each journal then, and whether it ended in its time."""
    began, has_ended = time.perf_counter(), True
    try:
        links.submit_fast(count, HURRY)
        links.await_whole()
    except Late:
        has_ended = False
    return time.perf_counter() - began, links.journals(), has_ended
