"""What a node answers to the messages that it took, in their order."""
from __future__ import annotations

from collections.abc import Callable
from dataclasses import dataclass, field

from .reading import NOTHING, Counts, Message, Update


def is_within(one: Counts, other: Counts) -> bool:
    return all(x <= y for x, y in zip(one, other))


def larger(one: Counts, other: Counts) -> Counts:
    return tuple(map(max, one, other))


@dataclass(frozen=True)
class Far:
    """How far a node is: what it has accepted in instance 0, and its view."""

    has: Counts = NOTHING
    view: Counts = NOTHING


def is_counted(update: Update, counts: Counts) -> bool:
    return update.replica < len(counts) and update.number <= counts[update.replica]


def is_surely_idle(message: Message, least: Far, most: Far) -> bool:
    """Whether a node that is so far, at least and at most, answers a message by how far it is, and does not take it: in
    instance 0, where it has less than an offer or a tell is told over, or all of the set that this tells."""
    if message.instance != 0 or message.verb not in ("offer", "tell"):
        return False
    if message.verb == "offer":
        return not is_within(message.base, most.has)
    there = larger(message.base, least.view)
    return not is_within(message.base, most.view) or all(is_counted(it, there) for it in message.updates)


def may_be_idle(message: Message, least: Far, most: Far) -> bool:
    """Whether it perhaps does."""
    if message.instance != 0 or message.verb not in ("offer", "tell"):
        return False
    if message.verb == "offer":
        return not is_within(message.base, least.has)
    return not is_within(message.base, least.view) or all(is_counted(it, most.view) for it in message.updates)


def bases_of(message: Message) -> tuple[Counts, Counts]:
    """Over what an offer is told, or a tell."""
    return (message.base, NOTHING) if message.verb == "offer" else (NOTHING, message.base)


@dataclass(frozen=True)
class Owed:
    """A message, and whether it may be taken without an answer, by a reply, or by how far the node is."""

    message: Message
    may_pass: bool
    may_reply: bool
    may_stand: bool


@dataclass
class Owing:
    """The messages that were taken since all was answered. Of these it may have answered, or passed over, so many."""

    taken: list[Owed] = field(default_factory=list)
    done: set[int] = field(default_factory=lambda: {0})

    def take(self, message: Message, own: int, least: Far, most: Far) -> None:
        """A node of this number, which is so far, at least and at most, takes a message. Replies to itself it brings
        itself."""
        may_stand, may_take = may_be_idle(message, least, most), not is_surely_idle(message, least, most)
        may_reply = message.verb == "offer" and message.sender != own and may_take
        if may_stand or may_reply:
            self.taken.append(Owed(message, may_take and not may_reply, may_reply, may_stand))

    def answer(self, may: Callable[[Owed], bool]) -> bool:
        """Takes an answer to one of these, but for those that it may pass over the next one. Whether there is any."""
        found: set[int] = set()
        for begin in self.done:
            for at in range(begin, len(self.taken)):
                if may(self.taken[at]):
                    found.add(at + 1)
                if not self.taken[at].may_pass:
                    break
        if found:
            first = min(found)
            self.taken, self.done = self.taken[first:], {it - first for it in found}
        return bool(found)

    def stands(self, known: Message) -> bool:
        """Takes how far the node said to another that it is, and over what the letter was told that this answers."""
        here, over = Far(known.has, known.view), (known.offer, known.tell)

        def may(it: Owed) -> bool:
            is_it = it.may_stand and it.message.sender == known.to and bases_of(it.message) == over
            return is_it and is_surely_idle(it.message, here, here)

        return self.answer(may)

    def replies(self, reply: Message) -> bool:
        """Takes the reply to an offer."""
        wanted = reply.to, reply.instance, reply.ballot

        def may(it: Owed) -> bool:
            return it.may_reply and (it.message.sender, it.message.instance, it.message.ballot) == wanted

        return self.answer(may)

    def end(self) -> list[Message]:
        """Nothing more is to be sent: which messages had to be answered, at least."""
        left = [[it.message for it in self.taken[begin:] if not it.may_pass] for begin in self.done]
        self.clear()
        return min(left, key=len)

    def clear(self) -> None:
        self.taken, self.done = [], {0}
