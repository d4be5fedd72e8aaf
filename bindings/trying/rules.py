"""Of each call how its arguments are drawn, and what it has to answer.

Who adds a call to bindings/calls adds a rule to one of the modules that `sequences` names: what plays it, in this
process and in the C program, is made of the table.
"""
from __future__ import annotations

from collections.abc import Callable
from dataclasses import dataclass

from generating.table import Call, Table

from .drawing import Draw
from .groups import Member
from .playing import FILL, UNTOUCHED, Answer, Arguments, Form, Result, Wrong, is_place

Judge = Callable[[Member, Arguments, Answer], None]


@dataclass(frozen=True)
class Rule:
    """Of a call of a node: how often it is drawn, how its arguments are behind the node, and what judges the answer and
    takes note of it."""

    weight: int
    draw: Callable[[Draw, Member], Arguments]
    judge: Judge


RULES: dict[str, Rule] = {}
# The numbers of statuses and kinds, by the names that the table has.
STATUSES: dict[str, int] = {}
NAMES: dict[int, str] = {}
# Of each call what stands in its places and buffers where it has not written to them.
BLANK: dict[str, tuple[Result, ...]] = {}


def rule(name: str, weight: int, draw: Callable[[Draw, Member], Arguments]) -> Callable[[Judge], Judge]:
    """Makes a function the judge of a call."""

    def add(judge: Judge) -> Judge:
        RULES[name] = Rule(weight, draw, judge)
        return judge

    return add


def load(table: Table, others: set[str]) -> None:
    """Takes the names of statuses from the table, each call of which has to have a rule, or to be among the others."""
    STATUSES.update({it.name: it.number for it in table.statuses})
    NAMES.update({it.number: it.name for it in table.statuses})
    BLANK.update({it.name: blank(table, it) for it in table.calls})
    named = {it.name for it in table.calls}
    for name in sorted(named ^ {*RULES, *others}):
        raise SystemExit(f"try-calls: bindings/calls and bindings/trying do not both have the call {name}")


def blank(table: Table, call: Call) -> tuple[Result, ...]:
    """What stands in the places and buffers of a call before it is made."""
    found: list[Result] = []
    for parameter in call.parameters:
        if is_place(parameter):
            form = Form(table, parameter)
            found.append(form.read(bytes([FILL]) * form.size))
        elif parameter.type.way == "out" and parameter.type.base != "node":
            found.append(b"" if parameter.type.base == "u8" else ())
    return tuple(found)


def expect(answer: Answer, status: str, *wanted: object) -> None:
    """Requires a status, and what stands in places: as before, where nothing is said of them and it is a refusal."""
    if answer.result != STATUSES[status]:
        raise Wrong(f"expected {status}, not {NAMES.get(answer.result, answer.result)}")
    if answer.outs != wanted:
        raise Wrong(f"expected {wanted}, not {answer.outs}")


def expect_one(answer: Answer, status: str, base: str, value: object) -> None:
    """The same of one place of a type, which a refusal leaves as it was."""
    expect(answer, status, value if status == "OK" else UNTOUCHED[base])
