"""What the files that are made have in common."""
from __future__ import annotations

import re
import textwrap

from .table import Struct, Table

WIDTH = 100
SIZES = {"u8": 1, "u16": 2, "u32": 4, "u64": 8, "i64": 8, "usize": 8, "pointer": 8}


def filled(text: str, indent: str, first: str = "") -> list[str]:
    """The lines of a text, which may have paragraphs: each behind an indent."""
    lines: list[str] = []
    for number, part in enumerate(text.split("\n\n")):
        if number:
            lines.append(indent.rstrip())
        start = first if first and not number else indent
        lines += textwrap.wrap(
            part, WIDTH, initial_indent=start, subsequent_indent=indent, break_long_words=False, break_on_hyphens=False
        )
    return lines


def naming(text: str, table: Table, form: str) -> str:
    """A text with each status that it names in this form, where `{}` stands for the name."""
    names = {it.name for it in table.statuses}
    return re.sub(r"`([A-Z_]+)`", lambda it: form.format(it[1]) if it[1] in names else it[0], text)


def places(struct: Struct) -> tuple[list[int], int]:
    """Where C puts each field of a struct, and the struct's size, on a machine with 8 bytes to a pointer."""
    offsets, at, widest = [], 0, 1
    for _, kind in struct.fields:
        size = SIZES[kind]
        at = -(-at // size) * size
        offsets.append(at)
        at, widest = at + size, max(widest, size)
    return offsets, -(-at // widest) * widest
