"""Where the crates stand: each over all on which it stands, in an order with few crossings, and lines clear of boxes.

A line that leads over several levels has a place in each of them, as a crate has, so that it passes between the boxes;
the lines that lead up from one crate share these places.
"""
from __future__ import annotations

from collections.abc import Iterable
from dataclasses import dataclass, field

from .crates import Below

SWEEPS = 12
ROUNDS = 200
# How much a line should be upright, by how many of its ends are crates.
PULLS = (8, 2, 1)


@dataclass
class Spot:
    """A place in a level: a crate's, or one where the lines from a crate pass by."""

    name: str
    level: int
    is_crate: bool
    lower: list[Spot] = field(default_factory=list)
    upper: list[Spot] = field(default_factory=list)
    x: float = 0

    def pull(self, other: Spot) -> int:
        """How much a line to a neighbour should be upright: most, where both ends pass by."""
        return PULLS[self.is_crate + other.is_crate]

    def mean(self, places: dict[int, float], neighbours: list[Spot]) -> float:
        """The middle of where neighbours are, or its own place where there are none."""
        if not neighbours:
            return places[id(self)]
        return sum(self.pull(it) * places[id(it)] for it in neighbours) / sum(map(self.pull, neighbours))

    def hold(self) -> int:
        """How much it should stand where it wishes to."""
        return max(1, sum(map(self.pull, self.lower + self.upper)))


Levels = list[list[Spot]]


def heights(below: Below) -> dict[str, int]:
    """Each crate's level: as low as may be, or right under what stands on it, where that makes its lines shorter."""
    height: dict[str, int] = {}

    def lowest(name: str) -> int:
        if name not in height:
            height[name] = 1 + max((lowest(it) for it in below[name]), default=-1)
        return height[name]

    for name in sorted(sorted(below), key=lowest, reverse=True):
        above = [height[it] for it in below if name in below[it]]
        if above and len(below[name]) <= len(above):
            height[name] = min(above) - 1
    return height


def join(lower: Spot, upper: Spot) -> None:
    """A line from a spot to one in the next level."""
    lower.upper.append(upper)
    upper.lower.append(lower)


def levels_of(below: Below, order: Iterable[str]) -> Levels:
    """All spots, by levels from the lowest on, and the lines between them."""
    height = heights(below)
    spots = {name: Spot(name, height[name], True) for name in order}
    levels: Levels = [[] for _ in range(1 + max(height.values(), default=-1))]
    for spot in spots.values():
        levels[spot.level].append(spot)
    for name, spot in spots.items():
        above = [it for it in spots.values() if name in below[it.name]]
        last = spot
        for level in range(spot.level + 1, 1 + max((it.level for it in above), default=0)):
            for it in above:
                if it.level == level:
                    join(last, it)
            if any(it.level > level for it in above):
                passing = Spot(name, level, False)
                levels[level].append(passing)
                join(last, passing)
                last = passing
    return levels


def crossings(levels: Levels) -> int:
    """How many pairs of lines cross."""
    count = 0
    for level, above in zip(levels, levels[1:]):
        place = {id(spot): at for at, spot in enumerate(above)}
        ends = [(at, place[id(it)]) for at, spot in enumerate(level) for it in spot.upper]
        count += sum(a < c and b > d for a, b in ends for c, d in ends)
    return count


def swept(levels: Levels, is_up: bool) -> Levels:
    """The levels one after the other in the order of where the neighbours of the last one are."""
    result = [list(level) for level in levels]
    for at in range(len(levels)) if is_up else reversed(range(len(levels))):
        places = {id(spot): float(place) for level in result for place, spot in enumerate(level)}
        result[at].sort(key=lambda spot: spot.mean(places, spot.lower if is_up else spot.upper))
    return result


def ordered(levels: Levels) -> Levels:
    """The order with the fewest crossings of those that sweeps come to."""
    best = now = levels
    for sweep in range(2 * SWEEPS):
        now = swept(now, sweep % 2 == 0)
        best = min(best, now, key=crossings)
    return best


def spread(wishes: list[float], holds: list[int], gaps: list[float]) -> list[float]:
    """The places nearest to what is wished that keep the order, each so far behind the last one: where wishes are
    too near to one another, they come to stand around their middle."""
    offsets = [sum(gaps[:at]) for at in range(len(wishes))]
    blocks: list[tuple[float, int, int]] = []
    for wish, hold, offset in zip(wishes, holds, offsets):
        total, weight, count = (wish - offset) * hold, hold, 1
        while blocks and blocks[-1][0] / blocks[-1][1] > total / weight:
            more, heavier, others = blocks.pop()
            total, weight, count = total + more, weight + heavier, count + others
        blocks.append((total, weight, count))
    middles = [total / weight for total, weight, count in blocks for _ in range(count)]
    return [middle + offset for middle, offset in zip(middles, offsets)]


def place(levels: Levels, gap: float, narrow: float) -> None:
    """Gives each spot its place from left to right: crates so far from one another, and lines so far from those."""
    for level in levels:
        for at, spot in enumerate(level):
            spot.x = at * gap
    for turn in range(ROUNDS):
        for level in levels if turn % 2 == 0 else reversed(levels):
            places = {id(it): it.x for spot in level for it in (spot, *spot.lower, *spot.upper)}
            wishes = [spot.mean(places, spot.lower + spot.upper) for spot in level]
            gaps = [
                narrow if not (one.is_crate or other.is_crate) else gap if one.is_crate and other.is_crate
                else (gap + narrow) / 2 for one, other in zip(level, level[1:])
            ]
            for spot, x in zip(level, spread(wishes, [spot.hold() for spot in level], gaps)):
                spot.x = x
