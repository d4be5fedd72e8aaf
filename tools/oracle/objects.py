"""The objects on the shelves of `lattice play`, and what they answer by the updates in a view."""
from __future__ import annotations

from collections.abc import Callable
from dataclasses import dataclass

Words = tuple[str, ...]

FOREIGN = "foreign"


@dataclass(frozen=True)
class Update:
    """An update of an object: its id as a tag names it, and its operation."""

    tag: str
    operation: Words


def values_of(name: str, updates: list[Update]) -> list[int]:
    """The numbers of the operations with this name."""
    return [int(update.operation[1]) for update in updates if update.operation[0] == name]


def counter_answer(updates: list[Update], question: Words) -> str:
    """What a counter with these updates answers."""
    total = sum(values_of("inc", updates)) - sum(values_of("dec", updates))
    match question:
        case ["total"]:
            return f"total {total}"
        case ["atleast", bound]:
            return "reached yes" if total >= int(bound) else "reached no"
    return FOREIGN


def register_answer(updates: list[Update], question: Words) -> str:
    """What a max register with these updates answers."""
    if question != ("largest",):
        return FOREIGN
    return f"largest {max(values_of('raise', updates), default=0)}"


def elements_of(updates: list[Update]) -> list[int]:
    """What was put by an update that no remove names, in ascending order."""
    removes = [update.operation[1:] for update in updates if update.operation[0] == "remove"]
    gone = {tag for tags in removes for tag in tags}
    return sorted(set(values_of("put", [update for update in updates if update.tag not in gone])))


def set_answer(updates: list[Update], question: Words) -> str:
    """What an observed-remove set with these updates answers."""
    elements = elements_of(updates)
    match question:
        case ["has", element]:
            return "has yes" if int(element) in elements else "has no"
        case ["size"]:
            return f"size {len(elements)}"
        case ["items"]:
            return f"items [{' '.join(map(str, elements))}]"
    return FOREIGN


# By the number of the object.
OBJECTS: dict[int, Callable[[list[Update], Words], str]] = {
    1: counter_answer,
    2: register_answer,
    3: set_answer,
}
