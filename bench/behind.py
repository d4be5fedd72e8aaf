"""The rows of `bench/nodes` about a node that is behind: its options, and the tables that it prints."""
from __future__ import annotations

import argparse
import statistics
import sys
import tempfile
from collections.abc import Callable
from pathlib import Path
from typing import TypeVar

from lagging import (
    CALM, NO_TICK, TICK, Lag, Late, Links, Return, Weather, measure_lag, measure_plain_run, measure_return, median_lag,
)
from measuring import print_table

FEW, MANY, FLIGHT, RUNS = 20_000, 100_000, 64, 8
# The seconds that a run may take, and one of the plain ones.
LIMIT, PLAIN_LIMIT = 120, 40
LAG = ("links", "bytes sent to node 2", "of these lost", "in journal 0", "in journal 1", "in journal 2", "a second",
       "bytes that wait for node 2", "time of nodes 0 and 1", "router busy")
RETURN = ("node 2 is back", "letters to it", "bytes of these", "for an update", "bytes to itself", "seconds",
          "bytes until all are silent")
PLAIN = ("run", "seconds", "bytes in journal 0", "in journal 1", "in journal 2")
# How node 2 comes back: what ticks there are, and whether it submits.
RETURNS = {"it ticks, and so do the others": (TICK, False), "no ticks, it submits": (NO_TICK, True)}
Figures = TypeVar("Figures")


def numbers(text: str) -> list[float]:
    return [float(it) for it in text.split(",")]


def add_options(parser: argparse.ArgumentParser) -> None:
    """Adds the options of these rows. Where one of the first five is there, no other rows are measured."""
    rows = parser.add_argument_group("rows of a node that is behind, which are measured alone")
    rows.add_argument("--delay", type=numbers, default=[], metavar="MS,..",
                      help="each line to and from node 2 comes so many milliseconds late")
    rows.add_argument("--stop", action="store_true", help="node 2 is stopped for 50 of each 100 ms")
    rows.add_argument("--lose", type=numbers, default=[], metavar="PERCENT,..",
                      help="of a hundred lines between two nodes so many are lost")
    rows.add_argument("--returned", action="store_true", help="what node 2 gets that was away and is started again")
    rows.add_argument("--plain-runs", type=int, nargs="?", const=RUNS, default=0, metavar="N",
                      help=f"so many runs ({RUNS}) with 1,024 in flight, and how many end within {PLAIN_LIMIT} s")
    rows.add_argument("--updates", type=int, metavar="N",
                      help=f"{FEW:,}; while node 2 is away, and in plain runs, {MANY:,}")
    rows.add_argument("--flight", type=int, default=FLIGHT, metavar="N", help=f"how many are in flight: {FLIGHT}")
    rows.add_argument("--limit", type=float, metavar="SECONDS",
                      help=f"a run that takes longer is given up: {LIMIT}, or {PLAIN_LIMIT} of a plain one")
    rows.add_argument("--seed", type=int, default=1, metavar="N", help="by which the lines are drawn that are lost: 1")


def weathers(options: argparse.Namespace) -> list[Weather]:
    """The weather of each row, as it is first: no delay and no loss are that one."""
    rows = [CALM, *(Weather(delay=it) for it in options.delay), *[Weather(is_stopped=True)] * options.stop]
    return [*dict.fromkeys([*rows, *(Weather(lost=it) for it in options.lose)])]


def is_asked(options: argparse.Namespace) -> bool:
    return bool(len(weathers(options)) > 1 or options.delay or options.lose or options.returned or options.plain_runs)


class Bench:
    """What was asked for, and which runs did not end."""

    def __init__(self, options: argparse.Namespace) -> None:
        self.options, self.program = options, options.program.resolve()
        self.limit = options.limit or LIMIT
        self.unended: list[str] = []

    def run(self, what: str, tick: str, measure: Callable[[Links], Figures]) -> Figures | None:
        """Measures one group, with nothing on its journals. Tells it, if the run does not end in its time."""
        with tempfile.TemporaryDirectory(dir=".") as name:
            links = Links(self.program, Path(name), tick, self.limit, self.options.seed)
            try:
                return measure(links)
            except Late:
                views = ", ".join(f"{it.view:,}" for it in links.nodes)
                self.unended.append(f"{what}: not ended within {self.limit:g} s: the views have {views}")
                print(f"nodes: {self.unended[-1]}", file=sys.stderr, flush=True)
                return None
            finally:
                links.end()

    def print_lags(self) -> None:
        """Prints what an update costs in each weather. Of several runs the medians are printed, and so of the ratios
        that each run has."""
        count, flight = self.options.updates or FEW, self.options.flight
        found: dict[Weather, list[tuple[Lag, float]]] = {it: [] for it in weathers(self.options)}
        for _ in range(self.options.runs or 1):
            calm = None
            for weather, lags in found.items():
                lag = self.run(str(weather), TICK, lambda links: measure_lag(links, weather, count, flight))
                calm = lag if weather == CALM else calm
                if lag and calm:
                    lags.append((lag, lag.seconds / calm.seconds))
        print(f"{count:,} updates of node 0, {flight:,} in flight:\n")
        print_table(LAG, [lag_cells(weather, lags) for weather, lags in found.items()])

    def print_returns(self) -> None:
        """Prints what node 2 gets once it is back."""
        count, flight = self.options.updates or MANY, self.options.flight
        rows = []
        for what, (tick, submits) in RETURNS.items():
            found = self.run(what, tick, lambda links: measure_return(links, count, flight, submits))
            rows.append([what, *return_cells(found, count)])
        print(f"node 2 was away for {count:,} updates of node 0:\n")
        print_table(RETURN, rows)

    def print_plain_runs(self) -> None:
        """Prints how long runs with many in flight take over links as they are, and how many end in their time."""
        count, runs = self.options.updates or MANY, self.options.plain_runs
        self.limit = self.options.limit or PLAIN_LIMIT
        rows, ended = [], 0
        for number in range(1, runs + 1):
            what = f"plain run {number}"
            seconds, journals, has_ended = self.run(what, TICK, lambda links: measure_plain_run(links, count)) or NONE
            if not has_ended:
                self.unended.append(what)
            ended += has_ended
            rows.append([str(number), f"{seconds:.1f}" if has_ended else "-", *(f"{it:,}" for it in journals)])
        print_table(PLAIN, rows)
        print(f"{count:,} updates: {ended} of {runs} runs ended within {self.limit:g} s\n")


NONE: tuple[float, list[int], bool] = 0.0, [], False


def lag_cells(weather: Weather, lags: list[tuple[Lag, float]]) -> list[str]:
    if not lags:
        return [str(weather), "not ended", *["-"] * (len(LAG) - 2)]
    it, ratio = median_lag([lag for lag, _ in lags]), statistics.median(ratio for _, ratio in lags)
    sizes = it.sent, it.lost, *it.journals
    last = f"{it.rate:,.0f}", f"{it.waiting:,.0f}", f"{ratio:.2f}", f"{it.busy:.0%}"
    return [str(weather), *(f"{size:,.1f}" for size in sizes), *last]


def return_cells(it: Return | None, count: int) -> list[str]:
    if not it:
        return ["not ended", *["-"] * (len(RETURN) - 2)]
    sizes = f"{it.lines:,}", f"{it.bytes:,}", f"{it.bytes / count:,.1f}", f"{it.own_bytes:,}"
    return [*sizes, f"{it.seconds:.1f}", f"{it.bytes_in_all:,}"]


def print_behind(options: argparse.Namespace) -> bool:
    """Prints the rows that were asked for, and returns whether all runs ended."""
    bench = Bench(options)
    if options.delay or options.stop or options.lose:
        bench.print_lags()
    if options.returned:
        bench.print_returns()
    if options.plain_runs:
        bench.print_plain_runs()
    return not bench.unended
