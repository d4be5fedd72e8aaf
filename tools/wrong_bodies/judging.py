"""What a check of a crate with a wrong body says of it.

It is refused only where the prover came to its verdict, and a goal of a function whose text it changes is not proved: a
clause, or what its body owes. What the goals' answers name must still be there. A search that gave up at one of its
limits shows nothing, unless values are known at which its goal fails, which `asked_again` asks for.
"""
from __future__ import annotations

import re
from collections.abc import Callable, Iterable
from dataclasses import dataclass

from wrong_bodies.edits import Function

PLACED = re.compile(r"(note: )?(?:\./)?((?:src|specs|proofs)/[^:]+\.\w+):(\d+):\d+: (.*)", re.S)
GOAL = re.compile(r"(?:it is not proved that|`search` found no proof) .*?\(`([^`]+)`\)(.*)", re.S)
ERROR = re.compile(r"error: (?:`([^`]+)`: )?(.*)", re.S)
QUOTED = re.compile(r"`[^`]*`")

COMPILER = re.compile(r"\berror\[[\w-]+\]")
STALE = re.compile(r"Run the lower steps again")
# of a text that can't be read, or that names what is gone
UNREAD = re.compile(
    r"not in scope(?! here, so what is shown)|has no `|has no (?:field|function)|is no name|(?:operand|case) is missing"
    r"|expected the end|cannot continue|cannot be read|no line brings it in"
)
# of the prover's limits at a declaration, and of its own faults
LIMIT = re.compile(
    r"ran out of|outgrew the memory|stopped at the step limit|could not tell|no verdict|resource limit|internal error"
    r"|bug in (?:antt|rattle)|please report"
)
GAVE_UP = re.compile(r"gave up at one of its limits|stopped at its own limit|stopped \d+ lemmas deep")
FALSE = re.compile(r"allow values at which this goal is false|the goal fails at")
OFFERED = re.compile(r"help: (?:write|add these lines to) \./(proofs/\S+?\.antt)\b")
ASKS = "grind (arith, common_steps)"
BRINGS = {"arith": "Rattle.std.proofs.Common", "common_steps": "Rattle.std.proofs.lemmas.Grind"}
LAW = re.compile(r"the law does not hold of the members that this `impl` gives")
NOT_PROVED = re.compile(r"only=\d+ proved=\d+$|logic=not-proved")


@dataclass(frozen=True)
class Verdict:
    """What a wrong body came to."""

    refused: bool
    why: str
    gave_up: tuple[str, ...] = ()

    def __str__(self) -> str:
        return f"{'refused' if self.refused else 'WRONG'}, {self.why}"


@dataclass(frozen=True)
class Goal:
    """A goal that is not proved, and whether a search merely gave up."""

    name: str
    gave_up: bool

    def __str__(self) -> str:
        before, clause, name = self.name.rpartition("clause-")
        return f"clause `{name}`" if clause else f"`{self.name}`"


def messages(said: str) -> list[str]:
    """What a check says, each message with the indented lines below it."""
    found: list[str] = []
    for line in said.rstrip().split("\n"):
        if found and line.startswith("  "):
            found[-1] += "\n" + line
        else:
            found.append(line)
    return found


def has_given_up(text: str) -> bool:
    return bool(GAVE_UP.search(text)) and not FALSE.search(text)


def goal_of(message: str, changed: list[Function], files: frozenset[str]) -> Goal | None:
    """The goal that a message says is not proved, if one of these functions owes it, or if none is given, what an impl
    in these files says of itself."""
    placed = PLACED.match(message)
    if not placed:
        return None
    _, file, line, said = placed.groups()
    goal, error = GOAL.match(said), ERROR.match(said)
    if not changed and file in files and LAW.search(said):
        return Goal("law", False)
    if goal and any(it.file == file and it.first <= int(line) <= it.last for it in changed):
        return Goal(goal[1], has_given_up(goal[2]))
    if error and any(file.startswith(it.folders()) for it in changed):
        return Goal(error[1] or "answers", has_given_up(error[2]))
    return None


def is_unread(message: str) -> bool:
    """Whether a message is an error that says of a text that it can't be read, or names what is gone."""
    placed = PLACED.match(message)
    error = placed and ERROR.match(placed[4])
    if not placed or not error:
        return False
    head = QUOTED.sub("``", error[2].split("\n")[0])
    return bool(UNREAD.search(head)) or not error[1] and placed[2].endswith(".antt")


def is_limit(message: str) -> bool:
    """Whether a message tells of a limit of the prover, or of a fault of its own."""
    is_told = PLACED.match(message) or message.startswith(("fn ", "rattle:", "antt", "note: antt hit"))
    return bool(is_told and LIMIT.search(QUOTED.sub("``", message)))


def asked_again(
    said: str, goals: tuple[str, ...], changed: list[Function], text_of: Callable[[str], str]
) -> dict[str, str]:
    """The files of these functions' answers, with `grind` asked for goals at which a search gave up: it says where a
    goal fails."""
    texts: dict[str, str] = {}
    for message in messages(said):
        offered = OFFERED.match(message)
        if not offered or not any(offered[1].startswith(it.folders()) for it in changed):
            continue
        file, lines = offered[1], [it.strip() for it in message.split("\n")[1:]]
        wanted = [it for it in lines if it.split(" ")[0] in goals and it.endswith(" = ?")]
        if not wanted:
            continue
        text = texts.get(file) or text_of(file)
        uses = [it for it in lines if it.endswith(".Goals as goal") and it not in text]
        brought = {it for it in BRINGS if re.search(rf"^use .*\b{it}\b", text, re.M)}
        uses += [f"use {place}.{{{it}}}" for it, place in BRINGS.items() if it not in brought]
        names = [it.split(" ")[0] for it in wanted]
        asks = [f"pub {name} : goal.{name}\n{it.removesuffix('?')}{ASKS}" for name, it in zip(names, wanted)]
        texts[file] = "\n".join([*uses, text, *asks, ""])
    return texts


def judge(said: str, status: int, changed: list[Function], files: frozenset[str]) -> Verdict:
    """Judges what a check said that ended with this status, of a wrong body that changes these functions alone, or, if
    there are none, other text of these files."""
    told = messages(said)
    last = told[-1]

    def wrong(why: str, found: Iterable[str] = (), otherwise: str = "") -> Verdict:
        line = next(iter(found), otherwise).split("\n")[0][:200]
        return Verdict(False, f"{why}: {line}" if line else why)

    if status < 0:
        return wrong(f"killed by signal {-status}")
    if status == 0:
        return wrong("NOT REFUSED")
    for why, found in (
        ("it does not compile", [it for it in told if COMPILER.search(it.split("\n")[0])]),
        ("the libraries below are not those that it stands on", [it for it in told if STALE.search(it)]),
        ("a text can't be read, or names what is gone", [it for it in told if is_unread(it)]),
        ("a limit or a fault of the prover", [it for it in told if is_limit(it)]),
    ):
        if found:
            return wrong(why, found)
    if status != 1 or not NOT_PROVED.match(last):
        return wrong(f"the check ended with status {status}", [it for it in told if "error: " in it], last)
    goals = [it for it in (goal_of(it, changed, files) for it in told) if it]
    firm = next((it for it in goals if not it.gave_up), None)
    if firm:
        return Verdict(True, f"by {firm}")
    if goals:
        return Verdict(False, f"a search gave up, at {goals[0]}", tuple(it.name for it in goals))
    return wrong("refused, but at no function that it changes", [it for it in told if PLACED.match(it)], last)
