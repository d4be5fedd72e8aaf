"""The picture of a run, as SVG."""
from __future__ import annotations

from oracle.report import Learnt, set_text
from oracle.run import Message
from oracle.script import Ask

from . import svg
from .captions import LEADING, MARGIN
from .layout import HEADER, LINE_START, LOOP_SHIFT, LOOP_STUB, STUB, STUB_SHIFT, Column, Row, direction, lay_out
from .legend import draw_legend
from .nodes import AnyRun, Killed, Said, Started
from .shapes import (
    Point, arrow, arrow_heads, cross, going_on, learns, loop, lost_line, mark, radius, ring, style_sheet, towards,
)

CLEARANCE = 16
BEND = 22


def title_of(run: AnyRun) -> str:
    """What the picture shows."""
    return f"A run of {run.group.replicas} replicas with {len(run.moments)} events"


def description_of(run: AnyRun) -> str:
    """What is learnt where, for a reader who does not see the picture."""
    learnt = []
    for moment in run.moments:
        where = f"event {moment.number}: replica {moment.replica}"
        if isinstance(moment.event, Killed | Started):
            learnt.append(f"{where} is {'killed' if isinstance(moment.event, Killed) else 'started again'}")
        elif isinstance(moment.outcome, Said) and learns(moment):
            learnt.append(f"{where} learns a set")
        elif isinstance(moment.outcome, Learnt):
            ballot, decision = moment.outcome.ballot, moment.outcome.decision
            what = set_text(ballot.updates) + (f" in i{ballot.instance}" if ballot.instance else "")
            what += f" and returns {decision}" if decision else ""
            learnt.append(f"{where} learns {what}")
    return "; ".join(learnt) if learnt else "nothing is learnt"


class Picture:
    """Draws the parts of a run where its layout puts them."""

    def __init__(self, run: AnyRun) -> None:
        self.run = run
        self.layout = lay_out(run)

    # Messages

    def bend(self, row: Row, start: Point, end: Point) -> float:
        """How far an arrow must swerve so as not to run through a mark between its ends."""
        for column in row.columns:
            x, y = point(row, column)
            if min(start[1], end[1]) < y < max(start[1], end[1]):
                passes = start[0] + (end[0] - start[0]) * (y - start[1]) / (end[1] - start[1])
                if abs(passes - x) < CLEARANCE:
                    return BEND if passes > x else -BEND
        return 0

    def delivery(self, row: Row, message: Message, column: Column) -> str:
        """The arrow of a message that is delivered at an event, in the row where it was sent."""
        source = row.columns[message.sent_at - row.columns[0].moment.number]
        start, end = point(row, source), point(row, column)
        if message.source == message.target:
            return loop(message.kind, start, end, radius(column.moment))
        first = towards(start, end, radius(source.moment))
        last = towards(end, start, radius(column.moment))
        return arrow(message.kind, first, last, self.bend(row, start, end))

    def entering(self, row: Row, message: Message, column: Column) -> str:
        """The last part of a message that was sent in a row above, behind a ring."""
        end = point(row, column)
        start = cut_point(end, -STUB_SHIFT, direction(message.target, message.source))
        return arrow(message.kind, start, towards(end, start, radius(column.moment))) + ring(message.kind, *start)

    def arrival(self, row: Row, column: Column) -> str:
        """What leads to an event, if anything does."""
        message = column.moment.message
        if message is None:
            return ""
        return self.entering(row, message, column) if column.enters else self.delivery(row, message, column)

    def cuts(self, row: Row, column: Column) -> list[str]:
        """The first parts of the messages that do not arrive in this row: a ring goes on below, a cross never."""
        parts, start = [], point(row, column)
        for side in (-1, 0, 1):
            for message, shift in column.cuts(side):
                end = cut_point(start, shift, side)
                first = towards(start, end, radius(column.moment))
                is_lost = message in column.lost
                parts.append((lost_line if is_lost else going_on)(message.kind, first, end))
                parts.append(cross(*end) if is_lost else ring(message.kind, *end))
        return parts

    # Rows

    def captions(self, row: Row) -> list[str]:
        """The events' numbers, what is written under each, and a guide from there to its mark."""
        parts = [svg.text(MARGIN, row.top + HEADER, "event", "number", "start")]
        for column in row.columns:
            x, y = point(row, column)
            end = row.top + HEADER + LEADING * len(column.caption)
            parts.append(svg.line(x, end + 6, x, y, "guide"))
            parts.append(svg.text(x, row.top + HEADER, str(column.moment.number), "number"))
            for place, (text, style) in enumerate(column.caption, 1):
                parts.append(svg.text(x, row.top + HEADER + LEADING * place, text, style))
        return parts

    def spans(self, row: Row, replica: int) -> list[tuple[float, float]]:
        """From where to where a replica runs in a row: all along, but between a kill and a start."""
        first = row.columns[0].moment.number if row.columns else 0
        turns = [it for it in self.run.moments if it.replica == replica and isinstance(it.event, Killed | Started)]
        before = [it for it in turns if it.number < first]
        edges = [] if before and isinstance(before[-1].event, Killed) else [LINE_START]
        edges += [column.x for column in row.columns if column.moment in turns]
        return list(zip(edges[::2], [*edges[1::2], row.right]))

    def lines(self, row: Row) -> list[str]:
        """A line for each replica, with its name before it."""
        parts = []
        for replica, y in enumerate(row.lines[:self.run.group.replicas]):
            parts.append(svg.text(MARGIN, y + 4, f"replica {replica}", "name", "start"))
            parts += [svg.line(start, y, end, y, "time") for start, end in self.spans(row, replica)]
            if len(set(self.run.group.votes)) > 1:
                votes = f"votes {self.run.group.votes[replica]}"
                parts.append(svg.text(MARGIN, y + 4 + LEADING, votes, "plain", "start"))
        if len(row.lines) > self.run.group.replicas:
            parts.append(svg.text(MARGIN, row.lines[-1] + 4, "no replica", "name", "start"))
        return parts

    def row(self, row: Row) -> list[str]:
        """All of a row: marks last, over the messages, and those over the lines."""
        arrivals = [part for column in row.columns if (part := self.arrival(row, column))]
        cuts = [part for column in row.columns for part in self.cuts(row, column)]
        marks = [mark(column.moment, *point(row, column)) for column in row.columns]
        return [*self.captions(row), *self.lines(row), *arrivals, *cuts, *marks]

    # The whole

    def views(self) -> list[str]:
        """The last views."""
        top = self.layout.views_top + LEADING
        return [
            svg.text(MARGIN, top + LEADING * place, text, style, "start")
            for place, (text, style) in enumerate(self.layout.views)
        ]

    def draw(self) -> str:
        """The whole picture."""
        width = self.layout.width
        extra = [
            words for kind, words in ((Ask, "question"), (Killed, "kill"), (Started, "start"))
            if any(isinstance(moment.event, kind) for moment in self.run.moments)
        ]
        legend, height = draw_legend(width, self.layout.height, extra, len(self.layout.rows) > 1)
        rows = [part for row in self.layout.rows for part in self.row(row)]
        parts = [style_sheet(), arrow_heads(), *rows, *self.views(), *legend]
        return svg.document(width, height, title_of(self.run), description_of(self.run), parts)


def point(row: Row, column: Column) -> Point:
    """Where an event's mark stands."""
    return column.x, row.lines[column.line]


def cut_point(start: Point, shift: float, side: int) -> Point:
    """Where a message is cut so far to the right of an event, on a side of its line."""
    return start[0] + shift, start[1] + (side * STUB if side else -LOOP_STUB)


def draw(run: AnyRun) -> str:
    """The picture of a run."""
    return Picture(run).draw()
