"""The crates of the library: on which each stands, and in which group the README lists it."""
from __future__ import annotations

import re
from dataclasses import dataclass

from oracle.lines import Fault

SECTION = re.compile(r"^## The crates\n(.*?)(?=^#|\Z)", re.M | re.S)
ENTRY = re.compile(r"^- \*(\w+)\*:(.*?)(?=^- |^$|\Z)", re.M | re.S)
NAME = re.compile(r"`(\w+)`")

Below = dict[str, set[str]]


@dataclass(frozen=True)
class Library:
    """On which crates each stands directly, none of them by way of another, and each crate's group."""

    below: Below
    groups: dict[str, str]


def listed(text: str) -> dict[str, list[str]]:
    """What crates.txt says that each crate uses."""
    lines = [line for line in text.splitlines() if line.strip() and not line.startswith("#")]
    return {head.split()[0]: rest.split() for head, _, rest in (line.partition(":") for line in lines)}


def all_below(name: str, below: Below) -> set[str]:
    """All crates on which one stands, also by way of others."""
    return below[name].union(*(all_below(it, below) for it in below[name]))


def reduced(below: Below) -> Below:
    """The same without what follows: a crate that one stands on by way of another."""
    return {
        name: {it for it in direct if not any(it in all_below(other, below) for other in direct - {it})}
        for name, direct in below.items()
    }


def groups_of(readme: str, names: set[str]) -> dict[str, str]:
    """Each crate's group, in the order of the README's list."""
    section = SECTION.search(readme)
    if section is None:
        raise Fault("README.md: expected a section `The crates`")
    groups: dict[str, str] = {}
    for group, words in ENTRY.findall(section[1]):
        for name in NAME.findall(words):
            if name in names:
                groups.setdefault(name, group)
    return groups


def library(crates: str, readme: str) -> Library:
    """The library of these two texts, of which every crate must be in a group."""
    uses = listed(crates)
    below = {name: {it for it in used if it in uses} for name, used in uses.items()}
    groups = groups_of(readme, set(below))
    if missing := sorted(set(below) - set(groups)):
        raise Fault(f"README.md: no group of `The crates` has {' '.join(missing)}")
    return Library(reduced(below), groups)
