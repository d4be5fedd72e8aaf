"""The legend below the picture."""
from __future__ import annotations

from collections.abc import Callable
from dataclasses import dataclass

from oracle.run import Kind

from . import svg
from .captions import MARGIN, width_of
from .shapes import STAR, arrow, cross, diamond, disc, going_on, lost_line, ring, square, star, triangle

LEFT = float(MARGIN)
LEADING = 22
ARROW = 34
GAP = 22
WORDS = {
    Kind.OFFER: "offer",
    Kind.YES: "yes: acknowledges",
    Kind.NO: "no: refuses",
    Kind.TELL: "tell",
}

Symbol = Callable[[float, float], str]


@dataclass(frozen=True)
class Entry:
    """A symbol, drawn to the right of a point, the room that it takes, and what it stands for."""

    symbol: Symbol
    room: float
    words: str


def arrow_symbol(kind: Kind) -> Symbol:
    """An arrow of this kind."""
    return lambda x, y: arrow(kind, (x, y), (x + ARROW, y))


def lost_symbol(x: float, y: float) -> str:
    """A message that is never delivered."""
    return lost_line(Kind.OFFER, (x, y), (x + ARROW - 6, y)) + cross(x + ARROW - 6, y)


def far_symbol(x: float, y: float) -> str:
    """A message that arrives in another row."""
    return going_on(Kind.OFFER, (x, y), (x + ARROW - 6, y)) + ring(Kind.OFFER, x + ARROW - 6, y)


def mark_entry(mark: Symbol, words: str) -> Entry:
    """A mark, in the middle of its room."""
    return Entry(lambda x, y: mark(x + STAR, y), 2 * STAR, words)


# The marks that not every picture has, by their words.
EXTRA: dict[str, Symbol] = {
    "question": lambda x, y: square(x, y, "mark"),
    "kill": cross,
    "start": triangle,
}


def entries(extra: list[str], has_rows: bool) -> list[Entry]:
    """What the legend explains, in order."""
    far = Entry(far_symbol, ARROW, "goes on in a row below")
    return [
        *(Entry(arrow_symbol(kind), ARROW, words) for kind, words in WORDS.items()),
        Entry(lost_symbol, ARROW, "never delivered"),
        *([far] if has_rows else []),
        mark_entry(lambda x, y: diamond(x, y, "mark"), "submission"),
        mark_entry(disc, "delivery"),
        mark_entry(star, "a set is learnt"),
        *(mark_entry(EXTRA[words], words) for words in extra),
    ]


def draw_legend(width: float, top: float, extra: list[str], has_rows: bool) -> tuple[list[str], float]:
    """The legend, in as many lines as this width asks for, and where it ends."""
    parts, x, y = [], LEFT, top
    for entry in entries(extra, has_rows):
        text = x + entry.room + 6
        end = text + width_of(entry.words)
        if end > width - LEFT and x > LEFT:
            text, end, x, y = text - x + LEFT, end - x + LEFT, LEFT, y + LEADING
        parts.append(entry.symbol(x, y))
        parts.append(svg.text(text, y + 4, entry.words, "plain", "start"))
        x = end + GAP
    return parts, y + LEADING
