"""What a node may believe of the others, by the lines that it was given and the letters that it wrote; and what it has to
answer to these lines."""
from __future__ import annotations

from collections import deque
from collections.abc import Callable, Iterator
from dataclasses import dataclass, field, replace

from .lines import NOTHING, REPLICAS, Counts, Message

# An offer or a tell, by its verb, and to whom it goes.
Sent = tuple[str, int]


def within(less: Counts, more: Counts) -> bool:
    return all(a <= b for a, b in zip(less, more))


def larger(one: Counts, other: Counts) -> Counts:
    return tuple(map(max, one, other))


def smaller(one: Counts, other: Counts) -> Counts:
    return tuple(map(min, one, other))


@dataclass(frozen=True)
class Far:
    """How far a replica is: what it has accepted in instance 0, and its view."""

    has: Counts = NOTHING
    view: Counts = NOTHING

    def of(self, verb: str) -> Counts:
        """What an offer is told over, or a tell."""
        return self.has if verb == "offer" else self.view


def is_idle(it: Message, here: Far) -> bool:
    """Whether who is so far answers a message by how far it is, and does not take it: in instance 0, where it has less
    than the message is told over, or all of the set that this tells."""
    if it.verb == "offer":
        return it.instance == 0 and not within(it.base, here.has)
    return it.verb == "tell" and (not within(it.base, here.view) or within(it.counts, here.view))


def lacks_base(known: Message) -> bool:
    """Whether a `known` says that its sender lacks what the letter was told over that it answers."""
    return not within(known.offer, known.has) or not within(known.tell, known.view)


def is_answer(known: Message, it: Message) -> bool:
    """Whether a `known` names over what this message was told."""
    bases = (it.base, NOTHING) if it.verb == "offer" else (NOTHING, it.base)
    return known.to == it.sender and (known.offer, known.tell) == bases


@dataclass
class Heard:
    """A line that a node was given: a message of its group, or nothing for a tick. How far the node was right before it:
    at least, and at most, where that is known."""

    line: int
    message: Message | None
    is_for_it: bool = True
    least: Far = field(default_factory=Far)
    most: Far | None = None

    def may_say_nothing(self, later: Far | None) -> bool:
        """Whether a node that was so far later, where that is known, may have taken it without an answer: a tell that
        perhaps was news."""
        it, most = self.message, self.most or later
        is_over = most is not None and not within(it.base, most.view)
        return it.verb == "tell" and not is_over and not within(it.counts, larger(it.base, self.least.view))


@dataclass(frozen=True)
class Track:
    """What a node believes that another has, of its accepted set or of its view: what that one said last, and how far
    letters of this life told it that may still come."""

    known: Counts = NOTHING
    told: Counts = NOTHING
    # Whether it is still believed to have what the node had itself when this life began.
    as_begun: bool = True
    # Over what the last letter was told; and the last that went out before what was lacking was told again.
    last: Counts = NOTHING
    mended: Counts = NOTHING
    lacks: bool = False

    def heard(self, has: Counts) -> Track:
        return replace(self, known=has, lacks=False)

    def answered(self, has: Counts, over: Counts) -> Track:
        """It says that it has so much, and answers a letter over this. Where it lacks that, it has no more, unless the
        letter was sent before what it lacked was told again."""
        if within(over, has) or within(over, self.mended):
            return self.heard(has)
        return Track(has, has, False, self.last, self.last, True)

    def wrote(self, it: Message) -> Track:
        """A letter went out. One that cannot be told from those before the mending one ends that these count as late."""
        is_like_those = within(it.base, self.mended) and not within(it.base, self.known)
        mended = NOTHING if is_like_those else self.mended
        return replace(self, told=larger(self.told, it.counts), last=it.base, mended=mended)

    def sent(self, begun: Counts) -> Counts:
        return larger(self.told, begun) if self.as_begun else self.told

    def base(self, begun: Counts) -> Counts:
        """Over what the next letter is told, where the life began so far."""
        return larger(self.known, self.sent(begun))

    def unheard(self, begun: Counts) -> int:
        """How many updates were sent that it did not say to have, where the life began so far."""
        heard = larger(self.known, begun)
        return sum(max(0, sent - has) for sent, has in zip(self.sent(begun), heard))


@dataclass(frozen=True)
class Link:
    """The two tracks of a replica, by the letters that are told over them."""

    offer: Track = Track()
    tell: Track = Track()


@dataclass(frozen=True)
class Belief:
    """What a node may believe once it has handled so many of its lines. What it may write at once for the last one, as
    that says that a replica lacks something; and what it has written since that one."""

    handled: int = 0
    links: tuple[Link, ...] = (Link(),) * REPLICAS
    lacking: frozenset[Sent] = frozenset()
    written: frozenset[Sent] = frozenset()

    def track(self, verb: str, replica: int) -> Track:
        return getattr(self.links[replica], verb)

    def with_link(self, replica: int, link: Link) -> tuple[Link, ...]:
        return (*self.links[:replica], link, *self.links[replica + 1 :])

    def after(self, heard: Heard) -> Belief:
        """The same once one line more is handled."""
        it = heard.message
        if not it or it.sender >= REPLICAS:
            return Belief(self.handled + 1, self.links)
        link = self.links[it.sender]
        if it.verb == "known" and heard.is_for_it:
            link = Link(link.offer.answered(it.has, it.offer), link.tell.answered(it.view, it.tell))
        else:
            link = Link(link.offer.heard(it.has), link.tell.heard(it.view))
        lacking = frozenset((verb, it.sender) for verb in ("offer", "tell") if getattr(link, verb).lacks)
        return Belief(self.handled + 1, self.with_link(it.sender, link), lacking)

    def wrote(self, it: Message) -> Belief:
        """The same once this letter of instance 0 went out."""
        link, key = self.links[it.to], frozenset({(it.verb, it.to)})
        links = self.with_link(it.to, replace(link, **{it.verb: getattr(link, it.verb).wrote(it)}))
        return Belief(self.handled, links, self.lacking - key, self.written | key)


class Hearing:
    """What one node was given in this life and wrote in it, and what it may believe by that. Its lines are handled in
    order, and what it writes for one comes before all that it writes for the next; but which of them it has handled shows
    only by what it writes, so that there may be more than one belief."""

    def __init__(self) -> None:
        # How far each acceptor said in its replies to this node that it is, in all lives.
        self.reported = [NOTHING] * REPLICAS
        # Which of its ballots an acceptor has replied to, in all lives.
        self.replies: set[tuple[int, int]] = set()
        # Whether it has ever learnt a set or told one: that waits for all others for good.
        self.has_set = False
        self.begin(Far(), Far())

    def begin(self, least: Far, most: Far | None) -> None:
        """A life begins, and the node is so far: at least, and at most, where that is known. Of the messages that may
        have to be answered it may have handled so many."""
        self.least, self.most = least, most
        self.lines: list[Heard] = []
        self.beliefs = {Belief()}
        # The line of a lack that was passed without the letter that mends it.
        self.unmended: Heard | None = None
        # The ballot of instance 0 that is open, as far as this life shows; and which ballots were offered to whom.
        self.open = 0
        self.offered: set[tuple[int, int]] = set()
        self.waiting: deque[Heard] = deque()
        self.owed: list[Heard] = []
        self.done = {0}

    def said(self, far: Far) -> None:
        """The node says how far it is: when this life began it was no further."""
        self.most = self.most or far

    # What it is given

    def given(self, line: int, it: Message, own: int, said: Far, now: Far | None) -> None:
        """Node `own`, which has said that it is so far, and is now, where that is known, is given a line."""
        heard = Heard(line, it, it.to == own, said, None if self.waiting else now)
        self.lines.append(heard)
        self.waiting.append(heard)
        if it.to == own and it.verb in ("offer", "tell"):
            self.owed.append(heard)
        if it.to == own and it.verb in ("yes", "no") and it.instance == 0 and it.sender < REPLICAS:
            self.reported[it.sender] = larger(self.reported[it.sender], it.has)
            self.replies.add((it.ballot, it.sender))

    def ticked(self, line: int) -> None:
        """It is given a tick."""
        self.lines.append(Heard(line, None))

    # Which lines it has handled

    def waits(self, it: Sent) -> bool:
        """Whether a letter like this surely waits for an answer: the offer of the open ballot, to whom no reply came;
        and what was learnt last."""
        verb, to = it
        return self.has_set if verb == "tell" else self.open > 0 and (self.open, to) not in self.replies

    def passes(self, belief: Belief) -> bool:
        """Whether the node may go on to its next line: no lack is to be answered any more."""
        return not any(map(self.waits, belief.lacking))

    def reached(self, is_strict: bool = True) -> Iterator[Belief]:
        """What it may believe now, or behind later lines that it was given; also where a lack stays without an answer,
        where the check is not strict."""
        for belief in self.beliefs:
            yield belief
            while belief.handled < len(self.lines) and (not is_strict or self.passes(belief)):
                belief = belief.after(self.lines[belief.handled])
                yield belief

    def keep(self, may: Callable[[Belief], bool]) -> bool:
        """Keeps of what it may believe what may be. Where that is nothing, but for a lack without an answer, this is
        noted. Whether there is any."""
        for is_strict in (True, False):
            if found := {it for it in self.reached(is_strict) if may(it)}:
                if not is_strict:
                    self.unmended = next(self.last(it) for it in self.reached() if not self.passes(it))
                self.beliefs = found
                return True
        return False

    def last(self, belief: Belief) -> Heard | None:
        return self.lines[belief.handled - 1] if belief.handled else None

    def is_at(self, lines: set[int]) -> None:
        """What the node writes now is for one of these lines."""
        self.keep(lambda it: it.handled > 0 and self.last(it).line in lines)

    def handle(self, line: int, now: Far | None, is_last: bool) -> None:
        """All lines up to this one are handled, and the node has come so far, where that is known: right behind this
        line, or later."""
        while self.waiting and self.waiting[0].line <= line:
            it = self.waiting.popleft()
            it.most = it.most or now
        if is_last and now and self.waiting:
            self.waiting[0].least = self.waiting[0].most = now

    def handled(self, line: int, now: Far | None) -> Heard | None:
        """All lines up to this one are handled, and now the node is so far, where that is known: answers which of them
        had to be answered, and was not."""
        self.handle(line, now, True)
        many = sum(it.line <= line for it in self.lines)
        if self.keep(lambda it: it.handled == many):
            kept = [it for it in self.beliefs if self.passes(it)]
            self.unmended = self.unmended if kept else self.lines[many - 1]
            self.beliefs = {Belief(it.handled, it.links) for it in kept or self.beliefs}
        count = sum(it.line <= line for it in self.owed)
        ends = [self.unanswered(begin, count) for begin in self.done]
        self.owed, self.done = self.owed[count:], {0}
        return None if None in ends else max((it for it in ends if it), key=lambda it: it.line, default=None)

    def unanswered(self, begin: int, end: int) -> Heard | None:
        """The first of these messages that had to be answered, once each is handled."""
        return next((it for it in self.owed[begin:end] if not it.may_say_nothing(None)), None)

    # What it answers

    def answer(self, may: Callable[[Heard], bool], now: Far) -> bool:
        """Takes an answer of a node that then is so far, to a message that this may be the answer to: the next one, but
        for those that it may say nothing of. Whether there is any."""
        found = set()
        for begin in self.done:
            for at in range(begin, len(self.owed)):
                found |= {at + 1} if may(self.owed[at]) else set()
                if not self.owed[at].may_say_nothing(now):
                    break
        if found:
            self.done = found
            self.is_at({self.owed[it - 1].line for it in found})
            self.handle(self.owed[min(found) - 1].line, now, len(found) == 1)
        return bool(found)

    def answered(self, known: Message) -> bool:
        """Takes how far the node says that it is, and over what the letter was told that it answers."""
        now = Far(known.has, known.view)
        return self.answer(lambda it: is_answer(known, it.message) and is_idle(it.message, now), now)

    def replied(self, reply: Message, before: Far | None, now: Far) -> bool:
        """Takes the reply to an offer of a node that was so far before, where that is known, and now is so far."""
        wanted = "offer", reply.to, reply.instance, reply.ballot

        def may(it: Heard) -> bool:
            offer = it.message
            is_it = (offer.verb, offer.sender, offer.instance, offer.ballot) == wanted
            return is_it and not (before and is_idle(offer, before))

        return self.answer(may, now)

    def learnt(self, own: int, ballot: int, before: Far | None) -> None:
        """Node `own`, which was so far before, where that is known, learnt a set by a Yes to this ballot."""

        def is_it(it: Message | None) -> bool:
            return it is not None and (it.verb, it.to, it.instance, it.ballot) == ("yes", own, 0, ballot)

        self.is_at({it.line for it in self.lines if is_it(it.message)})
        found = [it for it in self.waiting if is_it(it.message)]
        if found:
            self.handle(found[0].line - 1, before, len(found) == 1)
            self.handle(found[0].line, before, False)
        self.open, self.has_set = 0 if self.open == ballot else self.open, True

    def missed(self, replica: int) -> int:
        """How many messages of its group it has surely heard since the last one of a replica."""
        many = min(it.handled for it in self.beliefs)
        heard = [it.message.sender for it in self.lines[:many] if it.message]
        return heard[::-1].index(replica) if replica in heard else len(heard)

    # What it writes to the others

    def spans(self, belief: Belief, it: Message) -> tuple[Counts, Counts]:
        """Over what a letter is told by a belief, at least and at most. An offer goes over what its receiver replied,
        where that is more."""
        track, most = belief.track(it.verb, it.to), self.most or self.least
        replied = self.reported[it.to] if it.verb == "offer" else NOTHING
        far = track.base(self.least.of(it.verb)), larger(track.base(most.of(it.verb)), replied)
        return smaller(far[0], it.counts), smaller(far[1], it.counts)

    def is_over(self, belief: Belief, it: Message) -> bool:
        least, most = self.spans(belief, it)
        return within(least, it.base) and within(it.base, most)

    def is_due(self, belief: Belief, it: Message, is_new: bool) -> bool:
        """Whether a node that believes this writes a letter: a new one; one that mends what was said to be lacking; or
        once more behind a tick, but for a tell to one that is known to have it all. For one line it writes it once."""
        key, last = (it.verb, it.to), self.last(belief)
        is_again = last is not None and last.message is None
        is_owed = it.verb == "offer" or not within(it.counts, belief.track("tell", it.to).known)
        return key not in belief.written and (is_new or key in belief.lacking or is_again and is_owed)

    def wrote(self, it: Message, is_first: bool) -> str:
        """Takes an offer or a tell of instance 0, for the first time, where it is a tell: which rule it breaks, or
        none."""
        is_new = is_first if it.verb == "tell" else (it.ballot, it.to) not in self.offered
        bases = [self.spans(belief, it) for belief in self.reached()]
        is_well = self.keep(lambda belief: self.is_over(belief, it) and self.is_due(belief, it, is_new))
        is_again = not is_well and self.keep(lambda belief: self.is_over(belief, it))
        self.beliefs = {belief.wrote(it) for belief in self.beliefs}
        if it.verb == "offer":
            self.offered.add((it.ballot, it.to))
            self.open = it.ballot
        else:
            self.has_set = True
        if is_well:
            return ""
        what = f"{it.verb} of {it.counts} to {it.to} over {it.base}"
        return f"again: {what}, for no line" if is_again else f"base: {what}, of which is believed {bases}"

    def stands(self, peers: dict[int, tuple[Counts, Counts, int]]) -> bool:
        """Whether by the lines that are handled so much of others is known, and so much was sent that they did not say to
        have."""
        begun = self.least, self.most or self.least

        def is_so(belief: Belief, replica: int, has: Counts, view: Counts, unheard: int) -> bool:
            link = belief.links[replica]
            most, least = (link.offer.unheard(it.has) + link.tell.unheard(it.view) for it in begun)
            return (link.offer.known, link.tell.known) == (has, view) and least <= unheard <= most

        found = {it for it in self.beliefs if all(is_so(it, peer, *far) for peer, far in peers.items())}
        self.beliefs = found or self.beliefs
        return bool(found)
