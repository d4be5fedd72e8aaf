"""The picture of a line's way through a node: from the broker to the disk, and out again."""
from __future__ import annotations

from dataclasses import dataclass

from run_diagram import svg
from run_diagram.captions import LEADING

STYLE = """
text { font: 11px ui-monospace, 'DejaVu Sans Mono', Menlo, Consolas, monospace; fill: #222; }
.name, .place { font-weight: bold; }
.killed { fill: #8c1d13; }
.life { stroke: #999; stroke-width: 1.2; }
.box { stroke: #555; fill: #dbe9f9; }
.way { stroke: #1f5fa8; stroke-width: 1.6; fill: none; }
.rule { stroke: #ddd; }
"""
TITLE = "A line's way through a node"
BROKER, NODE, DISK = range(3)
PLACES = ("broker", "node", "disk")


@dataclass(frozen=True)
class Step:
    """What goes from one place to another, under which name, in short lines, and what a kill then leaves."""

    name: str
    source: int
    target: int
    words: tuple[str, ...]
    killed: tuple[str, ...]


STEPS = (
    Step("read", BROKER, NODE, ("lines, up to 8 KiB at once",), ("They are gone, and nobody", "has an answer.")),
    Step(
        "staged", NODE, NODE, ("Each call is done in memory,", "its line is staged,", "its answer is held back."),
        ("The same.",),
    ),
    Step(
        "journal", NODE, DISK, ("the staged lines,", "and behind them a record"),
        ("Nobody has an answer; the", "first some of the calls may", "be kept."),
    ),
    Step("sync", NODE, DISK, ("fdatasync",), ("The same.",)),
    Step("", DISK, NODE, ("All are on the disk.",), ("All calls are kept.",)),
    Step(
        "said", NODE, BROKER, ("answers and messages,", "lines whole"),
        ("All calls are kept. Send", "again what has no answer."),
    ),
)
# Where the places' lines stand, and the words of what a kill leaves; the picture's width.
LIVES = (110.0, 330.0, 560.0)
KILLED = 616.0
WIDTH = 812.0
LEFT = 12.0
TOP = 58.0
WIDE, HIGH = 70.0, 22.0
# Over and under what is written at a step, how far a loop reaches, and how long the head of an arrow is.
ROOM = 16.0
LOOP = 26.0
HEAD = 9.0


def rows_of(step: Step) -> int:
    """How many lines of text the step takes."""
    return max(len(step.words) + (step.source != step.target), len(step.killed))


def path(*points: tuple[float, float]) -> str:
    """A line through these points."""
    corners = " L".join(f"{svg.decimal(x)},{svg.decimal(y)}" for x, y in points)
    return svg.element("path", d=f"M{corners}", class_="way")


def head(x: float, y: float, way: int) -> str:
    """The head of an arrow that ends at a point, to the right or to the left."""
    back = x - way * HEAD
    return path((back, y - 4), (x, y), (back, y + 4))


def words_at(x: float, top: float, words: tuple[str, ...], style: str, anchor: str) -> list[str]:
    """Lines of text under each other."""
    return [svg.text(x, top + LEADING * (at + 1), line, style, anchor) for at, line in enumerate(words)]


def loop(x: float, top: float, bottom: float) -> list[str]:
    """An arrow from a place to itself."""
    return [path((x, top), (x + LOOP, top), (x + LOOP, bottom), (x, bottom)), head(x, bottom, -1)]


def step_parts(step: Step, top: float) -> list[str]:
    """An arrow with its words, and beside them what a kill leaves."""
    start, end = LIVES[step.source], LIVES[step.target]
    parts = words_at(LEFT, top, (step.name,), "name", "start") if step.name else []
    parts += words_at(KILLED, top, step.killed, "killed", "start")
    if step.source == step.target:
        parts += words_at(start + LOOP + 10, top, step.words, "plain", "start")
        return parts + loop(start, top + 6, top + LEADING * len(step.words))
    parts += words_at((start + end) / 2, top, step.words, "plain", "middle")
    height, way = top + LEADING * (len(step.words) + 0.6), 1 if end > start else -1
    return [*parts, svg.line(start, height, end, height, "way"), head(end, height, way)]


def description() -> str:
    """The steps, in words."""
    return " ".join(
        f"{step.name or 'done'}, {PLACES[step.source]} to {PLACES[step.target]}: {' '.join(step.words)} "
        f"Killed then: {' '.join(step.killed)}" for step in STEPS
    )


def draw_line() -> str:
    """The picture of a line's way."""
    parts: list[str] = [svg.element("style", STYLE)]
    height, steps = TOP, []
    for step in STEPS:
        steps.append(svg.line(LEFT, height, WIDTH - LEFT, height, "rule"))
        steps += step_parts(step, height + ROOM / 2)
        height += LEADING * rows_of(step) + ROOM + 6
    for x, name in zip(LIVES, PLACES):
        box = {"x": x - WIDE / 2, "y": 16.0, "width": WIDE, "height": HIGH}
        parts.append(svg.line(x, 16 + HIGH, x, height, "life"))
        parts.append(svg.element("rect", class_="box", **box))
        parts.append(svg.text(x, 31, name, "place"))
    parts.append(svg.text(KILLED, 31, "Killed then:", "killed", "start"))
    return svg.document(WIDTH, height + LEFT, TITLE, description(), [*parts, *steps])
