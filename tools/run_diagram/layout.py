"""Where everything stands: a column for each event, a line for each replica, and rows of a screen's width.

A long run goes on in the next row, which has all replicas again. What is written of an event stands over all lines of
its row, at its number, and only marks and messages stand among the lines: so no line crosses a label.
"""
from __future__ import annotations

from dataclasses import dataclass, field

from oracle.run import Message

from .captions import LEADING, Caption, caption_of, view_lines, width_of_caption
from .nodes import AnyMoment, AnyRun

# Rows are as wide as most screens show at once.
WIDEST = 960.0
# By so much less than that rows are tried, so that the last one is not much shorter than the others.
STEP = 20.0
LEAST_WIDTH = 480.0
# Where the lines begin, room on the left, where the replicas' names stand, and on top, where the events' numbers do.
LINE_START = 82.0
LEFT_MARGIN = 90.0
HEADER = 24.0
COLUMN_GAP = 10.0
LINE_GAP = 66.0
# The room over the first line, under what is written, and below the last one.
ABOVE, BELOW = 34.0, 26.0
# How far below or above the line, and to the side, a message is cut that does not arrive in its row.
STUB = 26.0
STUB_SHIFT = 15.0
# The same for one of a replica to itself.
LOOP_STUB, LOOP_SHIFT = 11.0, 18.0


@dataclass
class Column:
    """An event's place, what is written over it, and the messages that are cut there."""

    moment: AnyMoment
    line: int
    caption: Caption
    lost: list[Message] = field(default_factory=list)
    leaving: list[Message] = field(default_factory=list)
    enters: bool = False
    x: float = 0

    def half(self) -> float:
        """How far to each side the caption reaches."""
        return width_of_caption(self.caption) / 2

    def cuts(self, side: int) -> list[tuple[Message, float]]:
        """The messages to a side that do not arrive in this row, each with how far right of the event it is cut."""
        cut = [it for it in (*self.leaving, *self.lost) if direction(self.line, it.target) == side]
        return [(message, LOOP_SHIFT if side == 0 else STUB_SHIFT * place) for place, message in enumerate(cut, 1)]

    def left(self) -> float:
        """How far left of the event something is written or drawn."""
        return max(self.half(), LOOP_SHIFT + COLUMN_GAP if self.enters else 0)

    def right(self) -> float:
        """How far right of the event something is written or drawn."""
        ends = [end for side in (-1, 0, 1) for _, end in self.cuts(side)]
        return max(self.half(), max(ends, default=0) + COLUMN_GAP)


@dataclass
class Row:
    """The columns that stand beside each other, where its top is and where its lines are."""

    columns: list[Column]
    right: float
    top: float = 0
    lines: list[float] = field(default_factory=list)

    def bottom(self) -> float:
        """Where the row ends."""
        return self.lines[-1] + BELOW


@dataclass
class Layout:
    """The rows, what is written of the views, and the size of the picture without legend."""

    rows: list[Row]
    views: Caption
    views_top: float
    width: float
    height: float


def direction(source: int, target: int) -> int:
    """The side on which a line lies from another, by the way in which heights go, or 0 where they are one."""
    return (target > source) - (target < source)


class Columns:
    """Makes columns, by what a run says of messages."""

    def __init__(self, run: AnyRun) -> None:
        self.run = run
        self.last = {moment.message.number: moment.number for moment in run.moments if moment.message}
        self.sent: dict[int, list[Message]] = {}
        for message in run.messages:
            self.sent.setdefault(message.sent_at, []).append(message)

    def column(self, moment: AnyMoment, first: int, behind: int) -> Column:
        """An event's column, in a row from the first event to the one behind its last."""
        sent, message = self.sent.get(moment.number, []), moment.message
        lost = [it for it in sent if it.number not in self.last]
        leaving = [it for it in sent if self.last.get(it.number, 0) >= behind]
        enters = message is not None and message.sent_at < first
        line = self.run.group.replicas if moment.replica is None else moment.replica
        return Column(moment, line, caption_of(moment, lost, enters), lost, leaving, enters)

    def row(self, first: int, behind: int) -> Row:
        """The row of these events, with its columns beside each other."""
        columns = [self.column(moment, first, behind) for moment in self.run.moments[first - 1:behind - 1]]
        x = LEFT_MARGIN
        for column in columns:
            column.x = x + column.left() + COLUMN_GAP / 2
            x = column.x + column.right() + COLUMN_GAP / 2
        return Row(columns, x)

    def wrapped(self, width: float) -> list[Row]:
        """The events in rows that are at most so wide, where not one event alone is wider."""
        rows, first, events = [], 1, len(self.run.moments)
        while first <= events or not rows:
            behind = min(first + 1, events + 1)
            while behind <= events and self.row(first, behind + 1).right <= width:
                behind += 1
            rows.append(self.row(first, behind))
            first = behind
        return rows

    def rows(self) -> list[Row]:
        """As few rows as a screen's width allows, and as narrow as so few may be."""
        width = WIDEST - COLUMN_GAP
        best, width = self.wrapped(width), width - STEP
        while width >= LEAST_WIDTH and len(tried := self.wrapped(width)) == len(best) > 1:
            best, width = tried, width - STEP
        return best


def place(row: Row, top: float, count: int) -> None:
    """Puts a row at a height, with so many lines."""
    written = max((len(column.caption) for column in row.columns), default=0)
    first = top + HEADER + LEADING * written + ABOVE
    row.top, row.lines = top, [first + LINE_GAP * line for line in range(count)]


def lay_out(run: AnyRun) -> Layout:
    """The layout of a run."""
    rows = Columns(run).rows()
    count = max([run.group.replicas, *(column.line + 1 for row in rows for column in row.columns)])
    height = 0.0
    for row in rows:
        place(row, height, count)
        height = row.bottom()
    width = max(LEAST_WIDTH, *(row.right + COLUMN_GAP for row in rows))
    views = view_lines(run.views, width)
    return Layout(rows, views, height, width, height + LEADING * len(views) + BELOW)
