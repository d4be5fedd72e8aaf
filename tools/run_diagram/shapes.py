"""The shapes of the picture and their style: arrows by kind of message, and marks by event."""
from __future__ import annotations

from math import cos, hypot, pi, sin

from oracle.report import Learnt, Refused
from oracle.run import Kind
from oracle.script import Ask, Decide, Submit

from . import svg
from .nodes import AnyMoment, Killed, Said, Started

COLOURS = {
    Kind.OFFER: "#1f5fa8",
    Kind.YES: "#1a7f37",
    Kind.NO: "#b42318",
    Kind.TELL: "#7a4fb5",
}
STROKES = {
    Kind.OFFER: "stroke-width: 1.4",
    Kind.YES: "stroke-width: 1.4",
    Kind.NO: "stroke-width: 2.4",
    Kind.TELL: "stroke-width: 1.4; stroke-dasharray: 9 3",
}
HEADS = {
    Kind.OFFER: ("M0,0 L9,4 L0,8 Z", True),
    Kind.YES: ("M1,1 L8,4 L1,7", False),
    Kind.NO: ("M0,0 L9,4 L0,8 Z", True),
    Kind.TELL: ("M1,1 L8,4 L1,7 Z", False),
}
STYLE = """
text { font: 11px ui-monospace, 'DejaVu Sans Mono', Menlo, Consolas, monospace; fill: #222; }
text { paint-order: stroke; stroke: #fff; stroke-width: 3px; stroke-linejoin: round; }
.strong, .name { font-weight: bold; }
.number { fill: #666; }
.guide { stroke: #e8e8e8; }
.time { stroke: #555; stroke-width: 1.2; }
.mark { fill: #222; stroke: #222; }
.refused { fill: #fff; stroke: #222; stroke-width: 1.6; }
.learnt { fill: #ffc933; stroke: #222; stroke-width: 1.2; stroke-linejoin: round; }
.lost { stroke-width: 1.6; stroke-dasharray: 1.5 3; fill: none; }
.cross { stroke: #222; stroke-width: 1.6; fill: none; }
"""
# How large marks are, and how high a loop's handles stand over its line.
MARK = 4
STAR = 9
CROSS = 4
RISE = 14

Point = tuple[float, float]


def style_sheet() -> str:
    """The classes that the picture's elements name."""
    kinds = "".join(
        f"text.{kind.value} {{ fill: {colour}; }}\n"
        f".{kind.value}-arrow {{ stroke: {colour}; fill: none; {STROKES[kind]}; }}\n"
        f".{kind.value}-lost {{ stroke: {colour}; }}\n"
        f".{kind.value}-ring {{ stroke: {colour}; stroke-width: 1.4; fill: #fff; }}\n"
        for kind, colour in COLOURS.items()
    )
    return svg.element("style", STYLE + kinds)


def arrow_heads() -> str:
    """The heads of the arrows, which differ by kind."""
    markers = []
    for kind, (shape, is_filled) in HEADS.items():
        colour = COLOURS[kind]
        head = svg.element("path", d=shape, fill=colour if is_filled else "#fff", stroke=colour)
        markers.append(svg.element(
            "marker", head, id=f"{kind.value}-head", viewBox="-1 -1 11 10", refX="8", refY="4",
            markerWidth="10", markerHeight="9", markerUnits="userSpaceOnUse", orient="auto",
        ))
    return svg.element("defs", "".join(markers))


def towards(start: Point, end: Point, distance: float) -> Point:
    """The point at this distance from the start, on the way to the end."""
    length = hypot(end[0] - start[0], end[1] - start[1])
    share = distance / length
    return start[0] + (end[0] - start[0]) * share, start[1] + (end[1] - start[1]) * share


# Marks


def cross(x: float, y: float) -> str:
    """The end of what does not arrive."""
    corner = f"M{svg.decimal(x - CROSS)},{svg.decimal(y - CROSS)}"
    wide = 2 * CROSS
    shape = f"{corner} l{wide},{wide} m0,-{wide} l-{wide},{wide}"
    return svg.element("path", d=shape, class_="cross")


def ring(kind: Kind, x: float, y: float) -> str:
    """The place where a message leaves a row, and where it comes into another."""
    return svg.element("circle", cx=x, cy=y, r=CROSS - 1, class_=f"{kind.value}-ring")


def star(x: float, y: float) -> str:
    """The mark of a learnt set."""
    radii = (STAR, 0.45 * STAR)
    corners = [(radii[corner % 2], pi * (corner / 5 - 0.5)) for corner in range(10)]
    return svg.polygon([(x + r * cos(turn), y + r * sin(turn)) for r, turn in corners], "learnt")


def diamond(x: float, y: float, style: str) -> str:
    """The mark of a submission."""
    r = MARK + 2
    return svg.polygon([(x, y - r), (x + r, y), (x, y + r), (x - r, y)], style)


def square(x: float, y: float, style: str) -> str:
    """The mark of a question."""
    r = MARK
    return svg.polygon([(x - r, y - r), (x + r, y - r), (x + r, y + r), (x - r, y + r)], style)


def disc(x: float, y: float) -> str:
    """The mark of a delivery."""
    return svg.element("circle", cx=x, cy=y, r=MARK, class_="mark")


def triangle(x: float, y: float) -> str:
    """The mark of a start."""
    r = MARK + 1
    return svg.polygon([(x - r, y - r), (x + r, y), (x - r, y + r)], "mark")


def learns(moment: AnyMoment) -> bool:
    """Whether a set is learnt at an event."""
    outcome = moment.outcome
    return outcome.learns() if isinstance(outcome, Said) else isinstance(outcome, Learnt)


def mark(moment: AnyMoment, x: float, y: float) -> str:
    """The mark of an event, on its replica's line."""
    if moment.replica is None:
        return cross(x, y)
    if isinstance(moment.event, Killed | Started):
        return cross(x, y) if isinstance(moment.event, Killed) else triangle(x, y)
    if learns(moment):
        return star(x, y)
    style = "refused" if isinstance(moment.outcome, Refused) else "mark"
    if isinstance(moment.event, Submit | Decide):
        return diamond(x, y, style)
    if isinstance(moment.event, Ask):
        return square(x, y, style)
    return disc(x, y)


def radius(moment: AnyMoment) -> float:
    """How far an arrow keeps from an event's point."""
    return STAR if learns(moment) else MARK + 2


# Messages


def way(kind: Kind, shape: str, *points: Point) -> str:
    """An arrow along a curve through a path's points."""
    first, *rest = (f"{svg.decimal(x)},{svg.decimal(y)}" for x, y in points)
    path, head = f"M{first} {shape}{' '.join(rest)}", f"url(#{kind.value}-head)"
    return svg.element("path", d=path, class_=f"{kind.value}-arrow", marker_end=head)


def arrow(kind: Kind, start: Point, end: Point, bend: float = 0) -> str:
    """An arrow that is straight, or swerves by so much in its middle."""
    if bend == 0:
        return way(kind, "L", start, end)
    middle = (start[0] + end[0]) / 2 + 2 * bend, (start[1] + end[1]) / 2
    return way(kind, "Q", start, middle, end)


def lost_line(kind: Kind, start: Point, end: Point) -> str:
    """The way of a message that is never delivered, cut short."""
    return svg.line(*start, *end, f"lost {kind.value}-lost")


def going_on(kind: Kind, start: Point, end: Point) -> str:
    """The way of a message that arrives in another row, cut short."""
    return svg.line(*start, *end, f"{kind.value}-arrow")


def loop(kind: Kind, start: Point, end: Point, near: float) -> str:
    """An arrow from a replica to itself: a low arc over its line, that ends near its mark."""
    start, end = (start[0] + MARK, start[1] - MARK), (end[0] - near / 2, end[1] - near / 2)
    lean = min(16.0, (end[0] - start[0]) / 3)
    lifted = (start[0] + lean, start[1] - RISE), (end[0] - lean, end[1] - RISE)
    return way(kind, "C", start, *lifted, end)
