"""Scripts: which group is played, and what happens to it. docs/SCRIPT.md has the grammar."""
from __future__ import annotations

import re
from collections.abc import Iterable
from dataclasses import dataclass, replace

from .lines import Line, Lines

# The first line of each version.
VERSIONS = {"lattice 1": 1, "lattice 2": 2}
MAX_REPLICAS = 8
MAX_VOTES = 1000
MAX_COMMITS = 16
MAX_CAP = 1_000_000
MAX_TAGS = 64
MAX_BYTE = 2**8 - 1
MAX_OBJECT = 2**16 - 1
MAX_AMOUNT = 2**32 - 1
MAX_VALUE = 2**64 - 1
# The questions, with the version that brought each, and those that name a number.
QUESTIONS = {"total": 1, "atleast": 2, "largest": 1, "has": 1, "size": 1, "items": 1}
NUMBERED = ("atleast", "has")
GREATEST = {"inc": MAX_AMOUNT, "dec": MAX_AMOUNT, "raise": MAX_VALUE, "put": MAX_VALUE}


@dataclass(frozen=True)
class Group:
    """The votes of each replica, how many adopt-commit objects there are, and what each may submit."""

    votes: tuple[int, ...]
    commits: int
    cap: int

    @property
    def replicas(self) -> int:
        """How many replicas there are."""
        return len(self.votes)

    def is_majority(self, replicas: Iterable[int]) -> bool:
        """Whether these replicas have more than half of all votes."""
        return 2 * sum(self.votes[replica] for replica in replicas) > sum(self.votes)


@dataclass(frozen=True)
class Submit:
    """A replica submits an update of an object; the operation is in the script's words."""

    replica: int
    object: int
    operation: tuple[str, ...]

    def __str__(self) -> str:
        return f"a submission by replica {self.replica}"


@dataclass(frozen=True)
class Deliver:
    """The message with this number is delivered."""

    message: int

    def __str__(self) -> str:
        return f"a delivery of m{self.message}"


@dataclass(frozen=True)
class Decide:
    """A replica proposes a value to an adopt-commit object."""

    replica: int
    commit: int
    value: int

    def __str__(self) -> str:
        return f"a proposal by replica {self.replica} to object {self.commit}"


@dataclass(frozen=True)
class Ask:
    """An object on a replica's shelf is asked; the question is in the script's words."""

    replica: int
    object: int
    question: tuple[str, ...]

    def __str__(self) -> str:
        return f"a question to replica {self.replica} about object {self.object}"


Event = Submit | Deliver | Decide | Ask


@dataclass(frozen=True)
class Script:
    """The version of a script, its group, and the events that it is to play."""

    version: int
    group: Group
    events: tuple[Event, ...]

    def header(self) -> list[str]:
        """The lines before the events, with which the report begins too."""
        group = self.group
        lines = [f"lattice {self.version}"]
        lines.append(f"replicas {group.replicas} commits {group.commits} cap {group.cap}")
        return lines if self.version == 1 else [*lines, f"votes {' '.join(map(str, group.votes))}"]


def is_number(word: str, least: int, greatest: int) -> bool:
    """Whether the word is a number of this range, without leading zeros."""
    return re.fullmatch("0|[1-9][0-9]{0,19}", word) is not None and least <= int(word) <= greatest


def number(line: Line, word: str, name: str, least: int, greatest: int) -> int:
    """The number that a word of the line says."""
    line.require(is_number(word, least, greatest), f"{name} from {least} to {greatest}")
    return int(word)


def read_version(line: Line) -> int:
    """Reads the first line of a script."""
    line.require(line.text in VERSIONS, "`lattice 1` or `lattice 2`")
    return VERSIONS[line.text or ""]


def read_group(line: Line) -> Group:
    """Reads the second line of a script, by which each replica has one vote."""
    match (line.text or "").split(" "):
        case ["replicas", replicas, "commits", commits, "cap", cap]:
            return Group(
                (1,) * number(line, replicas, "a number of replicas", 1, MAX_REPLICAS),
                number(line, commits, "a number of adopt-commit objects", 0, MAX_COMMITS),
                number(line, cap, "a cap", 1, MAX_CAP),
            )
    raise line.fault("`replicas N commits C cap K`")


def read_votes(line: Line, group: Group) -> Group:
    """Reads the third line of a script of version 2: the group with its votes."""
    word, *votes = (line.text or "").split(" ")
    line.require(word == "votes" and len(votes) == group.replicas, f"`votes` of {group.replicas}")
    return replace(group, votes=tuple(number(line, it, "votes", 1, MAX_VOTES) for it in votes))


def is_tag(word: str) -> bool:
    """Whether the word names an update, as `P.N`."""
    replica, _, count = word.partition(".")
    return is_number(replica, 0, MAX_BYTE) and is_number(count, 1, MAX_AMOUNT)


def read_operation(line: Line, words: list[str]) -> tuple[str, ...]:
    """Reads what a submission does to its object."""
    match words:
        case ["mark"]:
            return ("mark",)
        case [("inc" | "dec" | "raise" | "put") as name, value]:
            number(line, value, "a number", 0, GREATEST[name])
            return name, value
        case ["remove", *tags]:
            line.require(len(tags) <= MAX_TAGS, f"at most {MAX_TAGS} tags")
            line.require(all(map(is_tag, tags)), "tags `P.N`")
            return tuple(words)
    raise line.fault("an operation: inc X, dec X, raise X, put X, remove T .., or mark")


def read_question(line: Line, version: int, words: list[str]) -> tuple[str, ...]:
    """Reads what an object is asked."""
    name, *values = words or [""]
    is_question = name in QUESTIONS and QUESTIONS[name] <= version
    forms = "total, largest, has X, size, items, or in version 2 atleast X"
    line.require(is_question and len(values) == (name in NUMBERED), f"a question: {forms}")
    for value in values:
        number(line, value, "a number to ask for", 0, MAX_VALUE)
    return tuple(words)


def read_event(line: Line, version: int) -> Event:
    """Reads a line that is an event."""
    match (line.text or "").split(" "):
        case ["deliver", message]:
            return Deliver(number(line, message, "a message's number", 0, MAX_VALUE))
        case ["submit", replica, object_number, *operation]:
            return Submit(
                number(line, replica, "a replica", 0, MAX_BYTE),
                number(line, object_number, "an object", 0, MAX_OBJECT),
                read_operation(line, operation),
            )
        case ["decide", replica, commit, value]:
            return Decide(
                number(line, replica, "a replica", 0, MAX_BYTE),
                number(line, commit, "an adopt-commit object", 0, MAX_BYTE),
                number(line, value, "a value", 0, MAX_VALUE),
            )
        case ["ask", replica, object_number, *question]:
            return Ask(
                number(line, replica, "a replica", 0, MAX_BYTE),
                number(line, object_number, "an object", 0, MAX_OBJECT),
                read_question(line, version, question),
            )
    raise line.fault("`submit R O ..`, `deliver K`, `decide R C V` or `ask R O ..`")


def is_skipped(line: Line) -> bool:
    """Whether a line after the header is no event."""
    return line.text == "" or (line.text or "").startswith("#")


def read_script(lines: Lines) -> Script:
    """Reads a script, and refuses its first faulty line."""
    version = read_version(lines.take())
    group = read_group(lines.take())
    if version == 2:
        group = read_votes(lines.take(), group)
    events = []
    while not lines.at_end():
        line = lines.take()
        if not is_skipped(line):
            events.append(read_event(line, version))
    return Script(version, group, tuple(events))
