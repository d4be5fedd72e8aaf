"""The network between the nodes of a run, and its weather: what of the lines is lost, comes again, comes late or in
another order, and which node stands still."""
from __future__ import annotations

import random
from dataclasses import dataclass, replace

# How many of all lines that a node is given are lost, and how many come again, in calm weather.
LOST = REPEATED = 0.1
# Of the seeds, how many have calm weather; of the others, how many have a slow node, one that stands still half of the
# time, and lines that come in the order in which they were sent.
IS_CALM, HAS_SLOW, HAS_STILL, IS_IN_ORDER = 0.4, 0.7, 0.5, 0.5


def sender(line: str) -> int:
    return int(line.split(" ")[2])


def receiver(line: str) -> int:
    return int(line.split(" ")[3])


@dataclass(frozen=True)
class Weather:
    """How the network is in one run. A round is one step of the run, at which one node is given some lines.

    Each line to the slow node and each line of it takes so many rounds, `delay`; lines of other nodes may come at once.
    The node that stands still is given nothing for so many rounds, `span`, then runs for as many, and so on. Where
    lines come in order, a node is given the lines that are due in the order in which they were sent, else in any."""

    lost: float = LOST
    in_order: bool = False
    slow: int | None = None
    delay: int = 0
    still: int | None = None
    span: int = 0

    def __str__(self) -> str:
        parts = [f"{100 * self.lost:.0f} % lost", "in order" if self.in_order else "in any order"]
        parts += [] if self.slow is None else [f"node {self.slow} is slow by {self.delay} rounds"]
        parts += [] if self.still is None else [f"node {self.still} stands still for {self.span} of {2 * self.span}"]
        return ", ".join(parts)


def drawn_weather(seed: int, replicas: int) -> Weather:
    """The weather of a run. It is drawn apart from all else of the run, which so stays the same in any weather."""
    draw = random.Random(f"weather {seed}")
    if draw.random() < IS_CALM:
        return Weather()
    weather = Weather(lost=draw.uniform(0.01, 0.1), in_order=draw.random() < IS_IN_ORDER)
    if draw.random() < HAS_SLOW:
        weather = replace(weather, slow=draw.randrange(replicas), delay=draw.randint(10, 120))
    if draw.random() < HAS_STILL:
        weather = replace(weather, still=draw.randrange(replicas), span=draw.randint(5, 40))
    return weather


@dataclass
class Mail:
    """A line that is under way, and the round from which on it may come."""

    line: str
    due: int


class Network:
    """All lines that are under way. The run's draw says what is lost, comes again, or comes in another order."""

    def __init__(self, draw: random.Random, weather: Weather) -> None:
        self.draw, self.weather, self.round = draw, weather, 0
        self.pool: list[Mail] = []

    def post(self, lines: list[str]) -> None:
        """Takes lines that nodes have sent."""
        self.pool += [Mail(it, self.round + self.delay_of(it)) for it in lines]

    def delay_of(self, line: str) -> int:
        """How many rounds a line takes: those of a node to itself take none."""
        ends = sender(line), receiver(line)
        return self.weather.delay if ends[0] != ends[1] and self.weather.slow in ends else 0

    def is_still(self, own: int) -> bool:
        """Whether a node stands still in this round."""
        return own == self.weather.still and self.round // self.weather.span % 2 == 1

    def due(self) -> list[str]:
        """The lines that may come in this round, in the order in which they were sent."""
        return [it.line for it in self.pool if it.due <= self.round]

    def next_receiver(self) -> int | None:
        """Who may be given a line in this round: of the lines that are due and for a node that runs, the receiver of
        the first; or none."""
        return next((own for own in map(receiver, self.due()) if not self.is_still(own)), None)

    def taken(self, own: int, most: int) -> list[str]:
        """Takes so many lines for a node off the network. Some of them are lost, and some stay there, to come again."""
        mine = [at for at, it in enumerate(self.pool) if it.due <= self.round and receiver(it.line) == own]
        count = min(most, len(mine))
        chosen = mine[:count] if self.weather.in_order else self.draw.sample(mine, count)
        lines = [self.pool[at].line for at in chosen if self.draw.random() >= self.weather.lost]
        again = {at for at in chosen if self.draw.random() < REPEATED}
        gone = set(chosen) if self.weather.in_order else set(chosen) - again
        # Where lines come in order, one that comes again does so behind those that are under way.
        behind = [self.pool[at].line for at in sorted(again)] if self.weather.in_order else []
        self.pool = [it for at, it in enumerate(self.pool) if at not in gone]
        self.post(behind)
        return lines

    def lose_of(self, gone: int) -> None:
        """Loses all lines of a node that is away, and all for it that are due but the last four."""
        late = [it for it in self.due() if receiver(it) == gone][:-4]
        self.pool = [it for it in self.pool if sender(it.line) != gone and it.line not in late]
