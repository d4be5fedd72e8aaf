"""The picture of the layers: which crate stands on which."""
from __future__ import annotations

from oracle.lines import Fault
from run_diagram import svg
from run_diagram.captions import LEADING

from .crates import Library
from .levels import Levels, Spot, levels_of, ordered, place

# A colour for each group, all light under dark words.
COLOURS = ("#dbe9f9", "#dff2e1", "#fdecc8", "#f9dede", "#e9e1f7", "#d8f0f0", "#ececec", "#f6e0ef")
STYLE = """
text { font: 11px ui-monospace, 'DejaVu Sans Mono', Menlo, Consolas, monospace; fill: #222; }
.name { font-weight: bold; }
.group { fill: #555; }
.box { stroke: #555; stroke-width: 1; }
.way { stroke: #666; stroke-width: 1.1; fill: none; }
"""
TITLE = "Which crate stands on which"
WORDS = ("A crate stands on those below it to which a line leads.", "Under its name is its group, as README has it.")
WIDE, HIGH = 88.0, 31.0
GAP, NARROW = 100.0, 16.0
LEVEL = 57.0
MARGIN = 12.0


def description_of(library: Library) -> str:
    """What stands on what, in words."""
    names = [name for name in library.groups if library.below[name]]
    return "; ".join(f"{name} stands on {', '.join(sorted(library.below[name]))}" for name in names)


def top_of(spot: Spot, levels: Levels) -> float:
    """The upper side of a spot's box."""
    return MARGIN + LEVEL * (len(levels) - 1 - spot.level)


def line(lower: Spot, upper: Spot, levels: Levels) -> str:
    """A line up from a spot to one in the next level."""
    return svg.line(lower.x, top_of(lower, levels), upper.x, top_of(upper, levels) + HIGH, "way")


def passing(spot: Spot, levels: Levels) -> str:
    """A line that passes between boxes."""
    top = top_of(spot, levels)
    return svg.line(spot.x, top, spot.x, top + HIGH, "way")


def box(spot: Spot, levels: Levels, group: str, colour: str) -> list[str]:
    """A crate's box, with its name and its group."""
    left, top = spot.x - WIDE / 2, top_of(spot, levels)
    return [
        svg.element("rect", x=left, y=top, width=WIDE, height=HIGH, class_="box", fill=colour),
        svg.text(spot.x, top + 13, spot.name, "name"),
        svg.text(spot.x, top + 26, group.lower(), "group"),
    ]


def draw_layers(library: Library) -> str:
    """The picture of the layers."""
    groups = list(dict.fromkeys(library.groups.values()))
    if len(groups) > len(COLOURS):
        raise Fault(f"README.md: more than {len(COLOURS)} groups of crates")
    levels = ordered(levels_of(library.below, library.groups))
    place(levels, GAP, NARROW)
    spots = [spot for level in levels for spot in level]
    shift = MARGIN + WIDE / 2 - min(spot.x for spot in spots)
    for spot in spots:
        spot.x += shift
    parts = [svg.element("style", STYLE)]
    parts += [line(spot, upper, levels) for spot in spots for upper in spot.upper]
    parts += [passing(spot, levels) for spot in spots if not spot.is_crate]
    for spot in spots:
        if spot.is_crate:
            group = library.groups[spot.name]
            parts += box(spot, levels, group, COLOURS[groups.index(group)])
    height = MARGIN + LEVEL * len(levels)
    for words in WORDS:
        parts.append(svg.text(MARGIN, height, words, "group", "start"))
        height += LEADING
    width = max(spot.x for spot in spots) + WIDE / 2 + MARGIN
    return svg.document(width, height, TITLE, description_of(library), parts)
