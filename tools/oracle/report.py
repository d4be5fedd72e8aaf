"""Reports: what each event did, every replica's view, and all outcomes, as in docs/SCRIPT.md."""
from __future__ import annotations

import re
from collections.abc import Callable
from dataclasses import dataclass

from .lines import Line, Lines

UpdateId = tuple[int, int]
UpdateSet = frozenset[UpdateId]


def id_text(update: UpdateId) -> str:
    """An update's id: its replica, and its number there."""
    return f"{update[0]}.{update[1]}"


def set_text(updates: UpdateSet) -> str:
    """A set, by its ids in order."""
    return "{" + " ".join(map(id_text, sorted(updates))) + "}"


@dataclass(frozen=True)
class Mail:
    """Messages that were sent one after the other."""

    first: int
    count: int

    def __str__(self) -> str:
        last = self.first + self.count - 1
        return f"m{self.first}" if self.count == 1 else f"m{self.first}-m{last}"


@dataclass(frozen=True)
class Ballot:
    """A ballot of a replica in an instance."""

    replica: int
    instance: int
    number: int
    updates: UpdateSet

    def __str__(self) -> str:
        return f"r{self.replica} i{self.instance} b{self.number} {set_text(self.updates)}"


@dataclass(frozen=True)
class Decision:
    """What a replica returns from an adopt-commit object: it commits a value, or adopts it."""

    commits: bool
    value: int

    def __str__(self) -> str:
        return f"{'commit' if self.commits else 'adopt'} {self.value}"


@dataclass(frozen=True)
class Opened:
    """A ballot opened, and was offered."""

    ballot: Ballot
    mail: Mail

    def __str__(self) -> str:
        return f"opened {self.ballot} {self.mail}"


@dataclass(frozen=True)
class Held:
    """The update waits."""

    update: UpdateId

    def __str__(self) -> str:
        return f"held {id_text(self.update)}"


@dataclass(frozen=True)
class Yes:
    """An offer was acknowledged."""

    mail: Mail

    def __str__(self) -> str:
        return f"yes {self.mail}"


@dataclass(frozen=True)
class No:
    """An offer was refused, with what is accepted now."""

    updates: UpdateSet
    mail: Mail

    def __str__(self) -> str:
        return f"no {set_text(self.updates)} {self.mail}"


@dataclass(frozen=True)
class Counted:
    """A reply counts, and its ballot stays open."""

    def __str__(self) -> str:
        return "counted"


@dataclass(frozen=True)
class Ignored:
    """A reply does not count."""

    def __str__(self) -> str:
        return "ignored"


@dataclass(frozen=True)
class Refined:
    """A ballot ended with refusals, and this one opened in its place."""

    ballot: Ballot
    mail: Mail

    def __str__(self) -> str:
        return f"refined {self.ballot} {self.mail}"


@dataclass(frozen=True)
class Learnt:
    """A ballot's set was learnt: the tells, the decision, and the ballot that opened at once."""

    ballot: Ballot
    told: Mail | None
    decision: Decision | None
    next: Opened | None

    def __str__(self) -> str:
        told = f" told {self.told}" if self.told else ""
        more = "".join(f" {part}" for part in (self.decision, self.next) if part)
        return f"learnt {self.ballot}{told}{more}"


@dataclass(frozen=True)
class Took:
    """A told set is the view now."""

    updates: UpdateSet

    def __str__(self) -> str:
        return f"took {set_text(self.updates)}"


@dataclass(frozen=True)
class Kept:
    """A told set is not larger than the view."""

    def __str__(self) -> str:
        return "kept"


@dataclass(frozen=True)
class Replied:
    """An object answered so."""

    answer: str

    def __str__(self) -> str:
        return self.answer


@dataclass(frozen=True)
class Refused:
    """The event was refused, by this name."""

    name: str

    def __str__(self) -> str:
        return f"refused {self.name}"


Outcome = (
    Opened | Held | Yes | No | Counted | Ignored | Refined | Learnt | Took | Kept | Replied
    | Refused
)


def id_of(text: str) -> UpdateId:
    """The id in a text such as `0.1`."""
    replica, count = text.split(".")
    return int(replica), int(count)


def set_of(text: str) -> UpdateSet:
    """The set in a text such as `{0.1 1.1}`."""
    return frozenset(map(id_of, text[1:-1].split()))


def mail_of(text: str) -> Mail:
    """The messages in a text such as `m3` or `m0-m2`."""
    first, _, last = text.replace("m", "").partition("-")
    return Mail(int(first), int(last or first) - int(first) + 1)


def ballot_of(replica: str, instance: str, count: str, updates: str) -> Ballot:
    """A ballot, from the texts of its parts."""
    return Ballot(int(replica), int(instance), int(count), set_of(updates))


def opened_of(*parts: str) -> Opened:
    """An opened ballot, from the texts of its parts, the last of which is its mail."""
    return Opened(ballot_of(*parts[:-1]), mail_of(parts[-1]))


def refined_of(*parts: str) -> Refined:
    """A refinement, from the texts of its parts, the last of which is its mail."""
    return Refined(ballot_of(*parts[:-1]), mail_of(parts[-1]))


def decision_of(text: str) -> Decision:
    """The decision in a text such as `commit 7`."""
    word, value = text.split(" ")
    return Decision(word == "commit", int(value))


def learnt_of(*parts: str | None) -> Learnt:
    """A learnt set, from the texts of its parts, some of which may be missing."""
    ballot, (told, decision), opened = parts[:4], parts[4:6], parts[6:]
    return Learnt(
        ballot_of(*map(str, ballot)),
        mail_of(told) if told else None,
        decision_of(decision) if decision else None,
        opened_of(*map(str, opened)) if opened[0] else None,
    )


DIGITS = "[0-9]{1,20}"
ID = rf"{DIGITS}\.{DIGITS}"
SET = rf"(\{{(?:{ID}(?: {ID})*)?\}})"
MAIL = f"(m{DIGITS}(?:-m{DIGITS})?)"
BALLOT = f"r({DIGITS}) i({DIGITS}) b({DIGITS}) {SET}"
DECISION = f"((?:commit|adopt) {DIGITS})"
ITEMS = rf"items \[(?:{DIGITS}(?: {DIGITS})*)?\]"
ANSWER = f"(total -?{DIGITS}|reached yes|reached no|largest {DIGITS}|has yes|has no|size {DIGITS}|{ITEMS}|foreign)"
NAMES = "NoSuchReplica|Full|NoSuchMessage|NoSuchCommit|AlreadyProposed|NoSuchObject"
FORMS: tuple[tuple[str, Callable[..., Outcome]], ...] = (
    (f"opened {BALLOT} {MAIL}", opened_of),
    (f"held ({ID})", lambda update: Held(id_of(update))),
    (f"yes {MAIL}", lambda mail: Yes(mail_of(mail))),
    (f"no {SET} {MAIL}", lambda updates, mail: No(set_of(updates), mail_of(mail))),
    ("counted", Counted),
    ("ignored", Ignored),
    (f"refined {BALLOT} {MAIL}", refined_of),
    (f"learnt {BALLOT}(?: told {MAIL})?(?: {DECISION})?(?: opened {BALLOT} {MAIL})?", learnt_of),
    (f"took {SET}", lambda updates: Took(set_of(updates))),
    ("kept", Kept),
    (ANSWER, Replied),
    (f"refused ({NAMES})", Refused),
)


def take_header(lines: Lines, header: list[str]) -> None:
    """Takes the header, which must be that of the script."""
    for text in header:
        lines.expect(text)


def take_outcome(lines: Lines, event: int) -> tuple[Line, Outcome]:
    """Takes the line of the event with this number, and tells what it did."""
    line = lines.take()
    count, _, text = (line.text or "").partition(" ")
    line.require(count == str(event), f"the line of event {event}")
    for form, build in FORMS:
        found = re.fullmatch(form, text)
        if found:
            outcome = build(*found.groups())
            line.require(str(outcome) == text, f"`{event} {outcome}`")
            return line, outcome
    raise line.fault("what an event did")


def take_view(lines: Lines, replica: int, view: UpdateSet) -> None:
    """Takes the line of a replica's view, which must be this one."""
    lines.expect(f"view {replica} {set_text(view)}")


def take_decision(lines: Lines, commit: int, replica: int, decision: Decision) -> None:
    """Takes the line of what a replica returned from an adopt-commit object."""
    lines.expect(f"outcome {commit} {replica} {decision}")
