"""How nodes are made, and when that is refused."""
from __future__ import annotations

from .drawing import Draw
from .groups import Config
from .playing import Arguments
from .reading import U8, U16, U32

MAX_VOTES, MAX_CAP, MAX_COMMITS = 1000, 1_000_000, 16


def draw_config(draw: Draw) -> Config:
    """A group, of which half have one vote each and some a small cap."""
    replicas = draw.one_of([1, 2, 3, 3, 3, 3, 4, 5, 5, 6, 7, 8])
    votes = tuple(draw.one_of([1, 1, 2, 3, 1000]) for _ in range(replicas)) if draw.chance(50) else ()
    cap = draw.one_of([1, 2, 10, 50, 1000, MAX_CAP, MAX_CAP])
    return Config(replicas, draw.one_of([0, 1, 2, 3, 16]), cap, votes)


def start(config: Config, own: int) -> Arguments:
    """What lattice_node_new takes, behind whose place the slot stands."""
    return config.replicas, own, config.commits, config.cap, config.votes


def draw_bad_start(draw: Draw) -> Arguments:
    """What may make no node: one number, or more, is any."""
    config = draw_config(draw)
    values = list(start(config, draw.below(config.replicas)))
    for _ in range(draw.one_of([1, 1, 2])):
        place = draw.below(5)
        if place == 4:
            values[place] = tuple(draw.one_of([0, 1, 1, 1000, 1001, U16]) for _ in range(draw.below(10)))
        else:
            numbers = ([0, 8, 9, U8], [config.replicas, 8, U8], [16, 17, U8], [0, MAX_CAP, MAX_CAP + 1, U32])
            values[place] = draw.one_of(numbers[place])
    return tuple(values)


def status_of(arguments: Arguments) -> str:
    """How lattice_node_new ends."""
    replicas, own, commits, cap, votes = arguments
    assert isinstance(replicas, int) and isinstance(own, int) and isinstance(commits, int) and isinstance(cap, int)
    assert isinstance(votes, tuple)
    given = votes or (1,) * replicas
    if not 1 <= replicas <= 8 or len(given) != replicas or not all(1 <= it <= MAX_VOTES for it in given):
        return "BAD_GROUP"
    if commits > MAX_COMMITS or not 1 <= cap <= MAX_CAP:
        return "BAD_GROUP"
    return "OK" if own < replicas else "NO_REPLICA"
