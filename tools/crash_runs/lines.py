"""Lines of calls and messages, by docs/SCRIPT.md, read without the program's code."""
from __future__ import annotations

import re
from dataclasses import dataclass

REPLICAS = 8
NUMBER = "(0|[1-9][0-9]{0,19})"
TAGS = rf"( {NUMBER}\.{NUMBER}){{0,64}}"
OBJECTS = rf"inc {NUMBER}|dec {NUMBER}|raise {NUMBER}|put {NUMBER}|remove{TAGS}|mark"
OBJECTS += "|own (?:-|(?:[0-9a-f]{2}){1,248})"
UPDATE = re.compile(rf"{NUMBER}\.{NUMBER} ({NUMBER} (?:{OBJECTS}|vote {NUMBER}|sole {NUMBER}))")
# Of each kind of line, how many numbers stand behind the word, and behind which words then counts do.
FORMS = {
    "offer": (5, ("has", "view", "base")),
    "yes": (5, ("has", "view")),
    "no": (5, ("has", "view", "base")),
    "tell": (5, ("has", "view", "base")),
    "known": (3, ("has", "view", "offer", "tell")),
}
HEADS = {
    verb: re.compile(verb + f" {NUMBER}" * numbers + "".join(f" {it} ([0-9,]+)" for it in words))
    for verb, (numbers, words) in FORMS.items()
}
WORD = re.compile(r"0|(?:(?:0|[1-9][0-9]*),){0,7}[1-9][0-9]*")
TOTAL = "total (?:0|-?[1-9][0-9]*)"
COUNTS = rf"((?: {NUMBER}){{{REPLICAS}}})"
ANSWER = rf"{TOTAL}|largest {NUMBER}|(?:has|reached) (?:yes|no)|size {NUMBER}|items \[[0-9 ]*\]|foreign"
ANSWER += rf"|tags{TAGS}|updates{COUNTS}"
# How a node stands: how far it is and its proposer, what it knows of its peers, and what its process counted.
FAR = " has ([0-9,]+) view ([0-9,]+)"
PEER = re.compile(f" peer ([0-7]){FAR} unheard {NUMBER}")
PEERS = "((?: peer [0-7] has [0-9,]+ view [0-9,]+ unheard [0-9]+)*)"
TALLY = "".join(f" {way}" + "".join(f" {it} {NUMBER}" for it in FORMS) for way in ("in", "out"))
TALLY += "".join(f" {it} {NUMBER}" for it in ("refused", "written", "syncs"))
STANDS = rf"version [0-9.]+{FAR} submitted {NUMBER} waiting {NUMBER} ballot {NUMBER} (open|shut){PEERS}{TALLY}"
NOTES = {
    "submitted": re.compile(rf"submitted {NUMBER}\.{NUMBER}"),
    "proposed": re.compile(rf"proposed {NUMBER}"),
    "learnt": re.compile(rf"learnt {NUMBER} {NUMBER}{COUNTS}"),
    "view": re.compile(rf"view{COUNTS}"),
    "outcome": re.compile(rf"outcome {NUMBER} (commit|adopt) {NUMBER}"),
    "answered": re.compile(rf"answered {NUMBER} ({ANSWER})"),
    "update": re.compile(rf"update ({NUMBER}\.{NUMBER}) ({NUMBER} (?:{OBJECTS}))"),
    "waiting": re.compile(rf"waiting ({NUMBER}\.{NUMBER})"),
    "status": re.compile(f"status {STANDS}"),
    "refused": re.compile(rf"refused {NUMBER} ([A-Za-z]+)"),
}
# Lines that say no call, and what is told of each.
FAULTY = {
    "subtract 0 1": "BadLine: 'subtract' is no call",
    "tick tick": "BadLine: 'tick' is a word too many",
    "submit 0 1 inc 05": "BadNumber: '05' is no number of 32 bits",
    "submit 0 1 inc 4294967296": "BadNumber: '4294967296' is no number of 32 bits",
    "submit 0.0 1 inc 5": "BadNumber: '0.0' is no replica",
    "submit 1.4294967296 1 inc 5": "BadNumber: '1.4294967296' is no replica",
    "submit 0.1 1 incr 5": "BadLine: 'incr' is no operation",
    "submit 0 3 take": "BadLine: the line ends too early",
    "submit 0.0 3 take 7": "BadLine: '0.0' is no replica",
    "submit 0 3 remove 1.1 1.1.1": "BadNumber: '1.1.1' is no id of an update",
    "submit 0 9 own 0a0": "BadNumber: '0a0' is no hexadecimal text",
    "submit 0.1 9 own": "BadLine: the line ends too early",
    "update 0 1": "BadLine: '1' is no id of an update",
    "ask 0 3 tags 7 at": "BadLine: 'at' is a word too many",
    "ask 0 3 tags 07": "BadLine: '07' is no number of 64 bits",
    "ask 0 1 total at 0.0": "BadLine: 'at' is a word too many",
    "ask 0 1 how-large-is-it-for-this-replica-and-others": "BadLine: 'how-large-is-it-for-this-replica' is no question",
    "ask 0 65536 total": "BadNumber: '65536' is no object",
    "decide 0 256 1": "BadNumber: '256' is no adopt-commit object",
    "status": "BadLine: the line ends too early",
    "status 0 at 0.1": "BadLine: 'at' is a word too many",
    "deliver 0": "BadLine: 'deliver' is no call",
    "tell 3 0 1 0 1;0.2 1 inc 5": "BadLine",
    " tick": "BadLine: '' is no call",
    "yes 3 1 0 0 5 has 9 view 9;": "BadLine",
    "yes 3 1 0 0 5 view 9 has 9": "BadLine",
    "offer 3 1 0 0 5 has 9,9 view 9 base 0,;1.1 1 inc 5": "BadNumber",
    "no 3 2 0 0 5 has 9,9,9,9,9,9,9,9,9 view 9 base 0": "BadNumber",
    "known 3 1 0 has 9": "BadLine",
    "known 3 1 0 has 9 view 9": "BadLine",
    "known 3 1 0 has 9 view 9 offer 9": "BadLine",
    "known 3 1 0 has 9 view 9 tell 9 offer 9": "BadLine",
    "known 3 1 0 has 9 view 9 offer 9 tell 9 base 9": "BadLine",
    "known 3 1 0 has 9 view 9 offer 9,9,9,9,9,9,9,9,9 tell 9": "BadNumber",
}

Counts = tuple[int, ...]
NOTHING: Counts = (0,) * REPLICAS
# An update's replica and number, and what it does: its object and operation, as written.
Update = tuple[int, int, str]


class Malformed(Exception):
    """A line that is none of the language."""


@dataclass(frozen=True)
class Message:
    """A message, or what is told by `known`, which has no instance and no ballot. How far its sender is: `has`, what
    that has accepted in instance 0, and its `view`. Of a Yes and of a `known` base and updates are empty. Of a `known`
    over what the offer was told that it answers, or the tell."""

    verb: str
    group: int
    sender: int
    to: int
    instance: int
    ballot: int
    has: Counts
    view: Counts
    base: Counts
    updates: tuple[Update, ...]
    offer: Counts = NOTHING
    tell: Counts = NOTHING

    @property
    def counts(self) -> Counts:
        """How many updates of each replica the set has for which it stands."""
        found = list(self.base)
        for replica, _, _ in self.updates:
            found[replica] += 1
        return tuple(found)


@dataclass(frozen=True)
class Standing:
    """How a node says that it stands: how far it is and its proposer, how far its peers are and how many updates were
    sent to each that it did not say to have, and what its process counted: messages in and out by their kinds, refusals,
    and bytes and syncs of the journal."""

    has: Counts
    view: Counts
    submitted: int
    waiting: int
    ballot: int
    is_open: bool
    peers: dict[int, tuple[Counts, Counts, int]]
    received: dict[str, int]
    sent: dict[str, int]
    refused: int
    journal: Counts


def read_counts(text: str) -> Counts:
    """Numbers of updates of replicas 0 to 7."""
    return tuple(int(it) for it in text.split())


def read_word(word: str) -> Counts:
    """The same as one word, as a node writes it: up to the last that is not 0, at least one."""
    if not WORD.fullmatch(word):
        raise Malformed(f"no counts: {word}")
    found = tuple(int(it) for it in word.split(","))
    return found + (0,) * (REPLICAS - len(found))


def read_updates(base: Counts, parts: list[str]) -> tuple[Update, ...]:
    """Updates beyond a base, each of which has to come next."""
    counts, found = list(base), []
    for part in parts:
        match = UPDATE.fullmatch(part)
        if not match:
            raise Malformed(f"no update: {part}")
        replica, number = int(match[1]), int(match[2])
        if replica >= REPLICAS or number != counts[replica] + 1:
            raise Malformed(f"{part} does not come next")
        counts[replica] = number
        found.append((replica, number, match[3]))
    return tuple(found)


def read_message(line: str) -> Message:
    """A message by its line, or how far another is."""
    head, *parts = line.split(";")
    verb = head.split(" ", 1)[0]
    match = HEADS[verb].fullmatch(head) if verb in HEADS else None
    if not match:
        raise Malformed("no message")
    if verb in ("yes", "known") and parts:
        raise Malformed(f"more than a {verb}")
    count = FORMS[verb][0]
    group, sender, to, instance, ballot = (*(int(it) for it in match.groups()[:count]), 0, 0)[:5]
    has, view, *rest = (read_word(it) for it in match.groups()[count:])
    head = verb, group, sender, to, instance, ballot, has, view
    if verb == "known":
        return Message(*head, NOTHING, (), *rest)
    base = rest[0] if rest else NOTHING
    return Message(*head, base, read_updates(base, parts))


def read_standing(values: tuple[str, ...]) -> Standing:
    """How a node stands, by what follows the word of its note."""
    has, view, submitted, waiting, ballot, word, rest, *counted = values
    found = PEER.findall(rest)
    peers = {int(peer): (read_word(one), read_word(other), int(unheard)) for peer, one, other, unheard in found}
    tally, kinds = [int(it) for it in counted], len(FORMS)
    received, sent = dict(zip(FORMS, tally)), dict(zip(FORMS, tally[kinds:]))
    refused, *journal = tally[2 * kinds:]
    numbers = int(submitted), int(waiting), int(ballot), word == "open"
    return Standing(read_word(has), read_word(view), *numbers, peers, received, sent, refused, tuple(journal))


def apart(words: list[str]) -> tuple[list[str], str]:
    """The words of a question without those for what it waits, and the id of that update, where it waits for one."""
    return (words[:-2], words[-1]) if words[-2] == "at" else (words, "")


def read_note(line: str, own: int) -> tuple[str, tuple[str, ...]]:
    """What a node notes beside its messages: the word, and what follows."""
    front = f"# r{own} "
    word = line[len(front):].split(" ", 1)[0]
    match = NOTES[word].fullmatch(line[len(front):]) if line.startswith(front) and word in NOTES else None
    if not match:
        raise Malformed("no note")
    return word, match.groups()
