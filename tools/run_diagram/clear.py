"""What is wrong with a picture for who reads it: lines and labels over a label, and what a screen cuts off."""
from __future__ import annotations

import re
import xml.etree.ElementTree as ElementTree
from collections.abc import Iterator

from .captions import width_of
from .layout import WIDEST

SVG = "{http://www.w3.org/2000/svg}"
# How far a letter reaches over and under the height at which it is written.
OVER, UNDER = 8.0, 2.0
# In so many straight parts a curve is followed.
PARTS = 16
# How high the strips are in which what is drawn is looked for.
STRIP = 32
PATH = re.compile(r"([A-Za-z])([^A-Za-z]*)")
NUMBER = re.compile(r"-?\d+(?:\.\d+)?")

Box = tuple[float, float, float, float]
Point = tuple[float, float]
Segment = tuple[Point, Point]


def number(element: ElementTree.Element, name: str) -> float:
    """An attribute that is a number, which must be there."""
    return float(element.attrib[name])


def box_of(text: ElementTree.Element) -> Box:
    """What a text covers: its left, top, right and bottom."""
    x, y, width = number(text, "x"), number(text, "y"), width_of(text.text or "")
    left = x - width / 2 if text.get("text-anchor") == "middle" else x
    return left, y - OVER, left + width, y + UNDER


def overlap(a: Box, b: Box) -> bool:
    """Whether two boxes have an inner point in common."""
    return a[0] < b[2] and b[0] < a[2] and a[1] < b[3] and b[1] < a[3]


def bounds(segment: Segment) -> Box:
    """The least box around a segment."""
    (x, y), (u, v) = segment
    return min(x, u), min(y, v), max(x, u), max(y, v)


def crosses(segment: Segment, box: Box) -> bool:
    """Whether a segment has a point in a box: what is left of it, cut at the box's sides, is not nothing."""
    least, most = 0.0, 1.0
    for axis in (0, 1):
        start, way = segment[0][axis], segment[1][axis] - segment[0][axis]
        low, high = box[axis] - start, box[axis + 2] - start
        if way == 0:
            if low > 0 or high < 0:
                return False
        else:
            enters, leaves = sorted((low / way, high / way))
            least, most = max(least, enters), min(most, leaves)
    return least <= most


def on_curve(points: list[Point], share: float) -> Point:
    """A point of the curve that these points control, by halving between them."""
    while len(points) > 1:
        points = [
            (x + (u - x) * share, y + (v - y) * share) for (x, y), (u, v) in zip(points, points[1:])
        ]
    return points[0]


def path_segments(shape: str) -> Iterator[Segment]:
    """The straight parts of a path of lines and curves."""
    at: Point = (0, 0)
    for letter, rest in PATH.findall(shape):
        numbers = [float(it) for it in NUMBER.findall(rest)]
        points = list(zip(numbers[::2], numbers[1::2]))
        if letter in "ml":
            points = [(at[0] + x, at[1] + y) for x, y in points]
        elif letter not in "MLCQ":
            raise ValueError(f"`{letter}` in a path")
        if letter in "CQ":
            points = [on_curve([at, *points], part / PARTS) for part in range(1, PARTS + 1)]
        if letter not in "Mm":
            yield from zip([at, *points], points)
        at = points[-1]


def closed(corners: list[Point]) -> Iterator[Segment]:
    """The sides of a figure."""
    return zip(corners, [*corners[1:], corners[0]])


def segments(element: ElementTree.Element) -> Iterator[Segment]:
    """The straight parts of what is drawn, of a rectangle, a disc and a figure the sides."""
    match element.tag.removeprefix(SVG):
        case "line":
            x, y, u, v = (number(element, name) for name in ("x1", "y1", "x2", "y2"))
            yield (x, y), (u, v)
        case "path":
            yield from path_segments(element.attrib["d"])
        case "polygon":
            numbers = [float(it) for it in NUMBER.findall(element.attrib["points"])]
            yield from closed(list(zip(numbers[::2], numbers[1::2])))
        case "circle" | "rect":
            left, top, right, bottom = frame(element)
            yield from closed([(left, top), (right, top), (right, bottom), (left, bottom)])


def frame(element: ElementTree.Element) -> Box:
    """The box of a disc or of a rectangle."""
    if element.tag == SVG + "circle":
        x, y, r = (number(element, name) for name in ("cx", "cy", "r"))
        return x - r, y - r, x + r, y + r
    x, y = float(element.get("x", 0)), float(element.get("y", 0))
    return x, y, x + number(element, "width"), y + number(element, "height")


def outside(box: Box, whole: Box) -> bool:
    """Whether something of a box lies outside of the whole."""
    return box[0] < whole[0] or box[1] < whole[1] or box[2] > whole[2] or box[3] > whole[3]


def strips(box: Box) -> range:
    """The numbers of the strips of the picture, from its top on, in which a box lies."""
    return range(int(box[1] // STRIP), int(box[3] // STRIP) + 1)


class Drawn:
    """The labels and the lines of a picture, by strips, so that only what is near is held against each other."""

    def __init__(self, root: ElementTree.Element, ground: ElementTree.Element) -> None:
        heads = {it for defs in root.iter(SVG + "defs") for it in defs.iter()}
        shown = [it for it in root.iter() if it not in heads and it is not ground]
        self.labels = [(it.text or "", box_of(it)) for it in root.iter(SVG + "text")]
        self.lines = [it for element in shown for it in segments(element)]
        self.labels_at: dict[int, list[Box]] = {}
        self.lines_at: dict[int, list[tuple[Segment, Box]]] = {}
        for _, box in self.labels:
            for strip in strips(box):
                self.labels_at.setdefault(strip, []).append(box)
        for line in self.lines:
            for strip in strips(bounds(line)):
                self.lines_at.setdefault(strip, []).append((line, bounds(line)))

    def is_covered(self, box: Box) -> bool:
        """Whether another label lies over a label's box."""
        near = (other for strip in strips(box) for other in self.labels_at[strip])
        return any(overlap(box, other) for other in near if other is not box)

    def is_crossed(self, box: Box) -> bool:
        """Whether a line has a point in a box."""
        near = (it for strip in strips(box) for it in self.lines_at.get(strip, []))
        return any(crosses(line, box) for line, of in near if of[0] <= box[2] and box[0] <= of[2])


def label_faults(drawn: Drawn, whole: Box) -> Iterator[str]:
    """What is wrong with the labels of a picture."""
    for words, box in drawn.labels:
        if outside(box, whole):
            yield f"`{words}` lies outside of the picture"
        if drawn.is_covered(box):
            yield f"`{words}` lies over another label"
        if drawn.is_crossed(box):
            yield f"a line crosses `{words}`"


def faults(picture: str) -> Iterator[str]:
    """What is wrong with a picture, in words."""
    root = ElementTree.fromstring(picture)
    ground = next(root.iter(SVG + "rect"), root)
    whole = (0.0, 0.0, number(root, "width"), number(root, "height"))
    if whole[2] > WIDEST:
        yield f"the picture is {whole[2]} wide, more than the {WIDEST} of a screen"
    if ground is root or frame(ground) != whole:
        yield "the first rectangle is not behind the whole"
    drawn = Drawn(root, ground)
    yield from label_faults(drawn, whole)
    if any(outside(bounds(line), whole) for line in drawn.lines):
        yield "a line lies outside of the picture"
