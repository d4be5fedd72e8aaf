"""The table `bindings/calls`, read: what its head says of its form."""
from __future__ import annotations

import re
from dataclasses import dataclass, field
from pathlib import Path

NUMBERS = ("u8", "u16", "u32", "u64", "i64", "usize")


@dataclass
class Type:
    """The type of a parameter: `given`, `in`, `out`, or none of them, then a base, and what it is many of."""

    way: str
    base: str
    many: str  # "" for one, "[]" for a slice, "[8]" for so many

    @classmethod
    def read(cls, text: str) -> Type:
        form = re.fullmatch(r"(?:(given|in|out) )?(\w+)(\[\d*\])?", text)
        if not form:
            raise ValueError(f"no type: {text}")
        return cls(form[1] or "", form[2], form[3] or "")


@dataclass
class Parameter:
    """A parameter of a call."""

    name: str
    type: Type


@dataclass
class Call:
    """A call: its name without `lattice_`, what it answers, "" where that is nothing, and its text."""

    name: str
    result: str
    parameters: list[Parameter] = field(default_factory=list)
    text: str = ""


@dataclass
class Struct:
    """A struct: its name without `lattice_`, its names in Rattle, and its fields, each with its type and text."""

    name: str
    rattle: list[str]
    fields: list[tuple[str, str]] = field(default_factory=list)
    text: str = ""
    texts: dict[str, str] = field(default_factory=dict)


@dataclass
class Named:
    """A number that has a name: a status or a kind."""

    number: int
    name: str
    text: str


@dataclass
class Table:
    """All of the table."""

    version: int = 0
    structs: list[Struct] = field(default_factory=list)
    named: dict[str, list[Named]] = field(default_factory=dict)
    trusted: list[str] = field(default_factory=list)
    calls: list[Call] = field(default_factory=list)

    @property
    def statuses(self) -> list[Named]:
        """The answers and the refusals, by number."""
        return sorted(self.named["answers"] + self.named["refusals"], key=lambda it: it.number)


LISTS = ("answers", "refusals", "object-kinds", "update-kinds")


def blocks_of(text: str) -> list[list[str]]:
    """The parts of the table: each line that isn't indented, with the indented ones below it, without comments."""
    blocks: list[list[str]] = []
    for line in text.split("\n"):
        if line.startswith("#"):
            continue
        if line and not line.startswith(" "):
            blocks.append([line])
        elif blocks:
            blocks[-1].append(line.strip())
    return blocks


def call_of(head: str, lines: list[str]) -> Call:
    name, _, result = head.partition(" -> ")
    parameters = [line.partition(" ")[::2] for line in lines if line]
    return Call(name, result, [Parameter(it, Type.read(kind)) for it, kind in parameters])


def named_of(line: str) -> Named:
    form = re.fullmatch(r"(\d+) (\w+)  (.+)", line)
    if not form:
        raise ValueError(f"no number with a name and a text: {line}")
    return Named(int(form[1]), form[2], form[3])


def read(path: Path) -> Table:
    """The table in a file."""
    table = Table()
    for head, *lines in blocks_of(path.read_text(encoding="utf-8")):
        word, _, rest = head.partition(" ")
        if word == "version":
            table.version = int(rest)
        elif word == "struct":
            name, *rattle = rest.split()
            fields = [(it[0], it[1]) for it in (line.split() for line in lines if line)]
            table.structs.append(Struct(name, rattle, fields))
        elif word in LISTS:
            table.named[word] = [named_of(line) for line in lines if line]
        elif word == "trusted":
            table.trusted = [" ".join(it.split("\n")) for it in "\n".join(lines).strip().split("\n\n")]
        elif word == "call":
            table.calls.append(call_of(rest, lines))
        else:
            raise ValueError(f"no part of the table: {head}")
    return table
