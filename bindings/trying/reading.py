"""What a line is: a message, something that a client asks, or none of them, and then by which fault."""
from __future__ import annotations

import re
from collections.abc import Callable
from dataclasses import dataclass
from functools import lru_cache

REPLICAS = 8
MAX_LINE, MAX_SET_LINE = 16_777_216, 268_435_455
MAX_TAGS, MAX_OWN = 64, 248
U8, U16, U32, U64 = 2**8 - 1, 2**16 - 1, 2**32 - 1, 2**64 - 1
DIGITS = re.compile(rb"0|[1-9][0-9]{0,19}")
HEXADECIMAL = re.compile(rb"(?:[0-9a-fA-F]{2})+")

Counts = tuple[int, ...]
NOTHING: Counts = (0,) * REPLICAS
# What a vote of an adopt-commit object is told by.
VOTES = ("vote", "sole")


class Fault(Exception):
    """Why a line is no message: the name of a status."""


@dataclass(frozen=True, slots=True)
class Update:
    """An update in a message: its id, its object, and what it does. Of a removal `tags` are the ids of the puts."""

    replica: int
    number: int
    object: int
    verb: str
    value: int = 0
    own: bytes = b""
    tags: frozenset[tuple[int, int]] = frozenset()


@dataclass(frozen=True, slots=True)
class Message:
    """A message: how far its sender is (`has`, `view`), and of an offer, a No and a tell the updates over a base. A
    `known` has no instance and no ballot; it says over what the offer was told that it answers, or the tell."""

    verb: str
    group: int
    sender: int
    to: int
    instance: int
    ballot: int
    has: Counts
    view: Counts
    base: Counts = NOTHING
    updates: tuple[Update, ...] = ()
    offer: Counts = NOTHING
    tell: Counts = NOTHING


def number(word: bytes, low: int, high: int) -> int:
    if DIGITS.fullmatch(word):
        value = int(word)
        if low <= value <= high:
            return value
    raise Fault("BAD_NUMBER")


def tag(word: bytes) -> tuple[int, int]:
    replica, _, rest = word.partition(b".")
    return number(replica, 0, U8), number(rest, 1, U32)


def counts(word: bytes) -> Counts:
    """Counts that are one word: one to eight numbers."""
    found: list[int] = []
    for text in word.split(b","):
        value = number(text, 0, U32)
        if len(found) == REPLICAS:
            raise Fault("BAD_NUMBER")
        found.append(value)
    return tuple(found) + NOTHING[len(found):]


def require(holds: bool) -> None:
    if not holds:
        raise Fault("BAD_LINE")


class Words:
    """The words of a part of a line, taken from the left."""

    def __init__(self, part: bytes) -> None:
        self.words = part.split(b" ")
        self.taken = 0

    def take(self) -> bytes:
        require(self.taken < len(self.words))
        self.taken += 1
        return self.words[self.taken - 1]

    def number(self, low: int, high: int) -> int:
        return number(self.take(), low, high)

    def counts_behind(self, label: bytes) -> Counts:
        require(self.taken < len(self.words) and self.take() == label)
        return counts(self.take())

    def rest(self) -> list[bytes]:
        found = self.words[self.taken:]
        self.taken = len(self.words)
        return found

    def only(self) -> bytes:
        """The one word that is left."""
        found = self.rest()
        require(len(found) == 1)
        return found[0]

    def end(self) -> None:
        require(self.taken == len(self.words))


def own_of(word: bytes) -> bytes:
    """The bytes of an operation of one's own."""
    if word == b"-":
        return b""
    if not HEXADECIMAL.fullmatch(word) or len(word) > 2 * MAX_OWN:
        raise Fault("BAD_NUMBER")
    return bytes.fromhex(word.decode())


HIGHEST = {"inc": U32, "dec": U32, "raise": U64, "put": U64, "vote": U64, "sole": U64}


@lru_cache(1 << 16)
def update_in(part: bytes) -> Update:
    """An update, by the part of a line that says it."""
    words = Words(part)
    replica, count = tag(words.take())
    place = words.number(0, U16)
    verb = words.take().decode("latin-1")
    if verb in HIGHEST:
        return Update(replica, count, place, verb, number(words.only(), 0, HIGHEST[verb]))
    if verb == "own":
        return Update(replica, count, place, verb, own=own_of(words.only()))
    if verb == "remove":
        found = words.rest()
        require(len(found) <= MAX_TAGS)
        return Update(replica, count, place, verb, tags=frozenset(tag(it) for it in found))
    require(verb == "mark")
    words.end()
    return Update(replica, count, place, verb)


def message_in(verb: str, words: Words, parts: list[bytes]) -> Message:
    """A message, by the words behind its verb, and the parts of the line behind these."""
    group, sender, to = words.number(1, REPLICAS), words.number(0, U8), words.number(0, U8)
    instance, ballot = words.number(0, U8), words.number(0, U32)
    has, view = words.counts_behind(b"has"), words.counts_behind(b"view")
    if verb == "yes":
        words.end()
        require(not parts)
        return Message(verb, group, sender, to, instance, ballot, has, view)
    base = words.counts_behind(b"base")
    words.end()
    updates = tuple(update_in(it) for it in parts)
    return Message(verb, group, sender, to, instance, ballot, has, view, base, updates)


def known_in(line: bytes) -> Message:
    """How far another is, and what that answers, by a line that begins with `known`."""
    words = Words(line)
    words.take()
    group, sender, to = words.number(1, REPLICAS), words.number(0, U8), words.number(0, U8)
    has, view = words.counts_behind(b"has"), words.counts_behind(b"view")
    offer, tell = words.counts_behind(b"offer"), words.counts_behind(b"tell")
    words.end()
    return Message("known", group, sender, to, 0, 0, has, view, offer=offer, tell=tell)


def tags_in(words: list[bytes]) -> None:
    for word in words:
        tag(word)


def within(high: int) -> Callable[[bytes], object]:
    return lambda word: number(word, 0, high)


# What a client asks, by its words: a keyword, or what a number has to be; `...` takes the rest as tags.
PLACES: dict[str, Callable[[bytes], object]] = {"R": within(U8), "O": within(U16), "A": within(U32), "V": within(U64)}
FORMS = [it.split() for it in (
    "submit R O inc A",
    "submit R O dec A",
    "submit R O raise V",
    "submit R O put V",
    "submit R O remove ...",
    "submit R O mark",
    "deliver V",
    "decide R R V",
    "ask R O total",
    "ask R O atleast V",
    "ask R O largest",
    "ask R O has V",
    "ask R O size",
    "ask R O items",
)]


def fits(form: list[str], words: list[bytes]) -> bool:
    """Whether words have a form's keywords, and are as many."""
    if form[-1] == "...":
        form = form[:-1]
        if not len(form) <= len(words) <= len(form) + MAX_TAGS:
            return False
    elif len(form) != len(words):
        return False
    return all(place in PLACES or place.encode() == word for place, word in zip(form, words))


def check_request(line: bytes) -> None:
    """Raises the fault of a line that is something that clients ask, or the one that it is none."""
    words = line.split(b" ")
    if words[0] == b"submit" and len(words) > 3 and words[3] == b"own" and len(words) == 5:
        number(words[1], 0, U8)
        number(words[2], 0, U16)
        own_of(words[4])
        return
    form = None if b"" in words else next((it for it in FORMS if fits(it, words)), None)
    require(form is not None)
    assert form is not None
    for place, word in zip(form, words):
        if place in PLACES:
            PLACES[place](word)
    if form[-1] == "...":
        tags_in(words[len(form) - 1:])
    require(form[0] != "deliver")


def limit_of(line: bytes) -> int:
    """How many bytes a line may have that begins so."""
    return MAX_SET_LINE if line[:1] in (b"n", b"o", b"t") else MAX_LINE


@lru_cache(1 << 12)
def read(line: bytes) -> Message:
    """A message, by its line; else the fault that a node refuses it with."""
    if len(line) > limit_of(line):
        raise Fault("TOO_LONG")
    if line == b"tick":
        raise Fault("NO_MESSAGE")
    verb = line.partition(b" ")[0]
    if verb in (b"offer", b"yes", b"no", b"tell"):
        head, *parts = line.split(b";")
        words = Words(head)
        # the verb may end where the line does, or a `;` stands in it
        require(words.take() == verb)
        return message_in(verb.decode(), words, parts)
    if verb == b"known":
        return known_in(line)
    check_request(line)
    raise Fault("NO_MESSAGE")
