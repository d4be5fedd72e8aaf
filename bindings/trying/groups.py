"""What is known of a group from outside: what was submitted, proposed, seen and handed over."""
from __future__ import annotations

from dataclasses import dataclass, field
from itertools import islice

from .journals import Journal, Taken
from .objects import Object
from .owing import Far, Owing, is_surely_idle, is_within, larger, may_be_idle
from .playing import Wrong
from .reading import NOTHING, REPLICAS, Counts, Fault, Message, Update, read


@dataclass(frozen=True)
class Config:
    """Of what group a node is."""

    replicas: int
    commits: int
    cap: int
    votes: tuple[int, ...]


def require(holds: bool, wanted: str, *values: object) -> None:
    """Says what was expected, with values put in, unless that holds."""
    if not holds:
        raise Wrong(f"expected {wanted.format(*values)}")


@dataclass
class Group:
    """A group whose nodes are all in this process.

    It is honest until one of them took a line that no node of it sent. After that only what a node is told by its own
    program, and which lines it was handed, says what it has to answer.
    """

    config: Config
    may_lie: bool
    honest: bool = True
    members: list[Member] = field(default_factory=list)
    # By replica what it submitted, in order.
    updates: list[list[Update]] = field(default_factory=list)
    # By adopt-commit object and replica what was proposed, and what was returned.
    proposals: dict[int, dict[int, int]] = field(default_factory=dict)
    outcomes: dict[int, dict[int, tuple[int, int]]] = field(default_factory=dict)
    # All lines that were pulled, by whom they are for.
    sent: set[tuple[int, bytes]] = field(default_factory=set)

    @property
    def instances(self) -> int:
        return 1 + 2 * self.config.commits

    def submitted(self, replica: int) -> int:
        """How many updates a replica has submitted: none, where the group has no such replica."""
        return len(self.updates[replica]) if replica < self.config.replicas else 0

    def counts(self) -> Counts:
        """How many updates each replica has submitted."""
        return tuple(len(it) for it in self.updates) + NOTHING[self.config.replicas:]

    def counts_in(self, instance: int) -> Counts:
        """How many updates each replica has submitted in an instance, at most."""
        if instance == 0:
            return self.counts()
        proposals = self.proposals.get((instance - 1) // 2, {})
        return tuple(int(replica in proposals) for replica in range(REPLICAS))

    def check_comparable(self, member: Member) -> None:
        """Of the views of a member and of any other one has all that the other has."""
        if not self.honest:
            return
        for other in self.members:
            comparable = is_within(other.view, member.view) or is_within(member.view, other.view)
            require(comparable, "views that can be compared, not {} and {} of {}", member.view, other.view, other.own)

    def check_outcomes(self, commit: int) -> None:
        """What an adopt-commit object returned: values that were proposed, all the same where one is committed, and
        committed where all that were proposed are the same."""
        if not self.honest:
            return
        proposed = set(self.proposals[commit].values())
        returned = set(self.outcomes[commit].values())
        require(all(value in proposed for value, _ in returned), "values out of {}, not {}", proposed, returned)
        if any(committed for _, committed in returned):
            require(len({value for value, _ in returned}) == 1, "one value where one is committed, not {}", returned)
        if len(proposed) == 1:
            require(all(committed for _, committed in returned), "a commit where all propose {}", proposed)


@dataclass
class Member:
    """A node of a group: what it was told, and what it has handed out."""

    group: Group
    own: int
    slot: int
    # By the numbers of objects their kinds.
    kinds: dict[int, int] = field(default_factory=dict)
    view: Counts = NOTHING
    handed: list[int] = field(default_factory=lambda: list(NOTHING))
    # How far the objects have the view.
    folded: list[int] = field(default_factory=lambda: list(NOTHING))
    objects: dict[int, Object] = field(default_factory=dict)
    # By replica how far it is, as the last line of it says that was taken.
    heard: list[Counts] = field(default_factory=lambda: [NOTHING] * 8)
    # How far its own lines said that it is.
    said_has: Counts = NOTHING
    said_view: Counts = NOTHING
    ballots: dict[int, int] = field(default_factory=dict)
    # No more updates of each replica did it ever have from others in instance 0.
    told: Counts = NOTHING
    # Answers that it owes.
    owing: Owing = field(default_factory=Owing)
    # How long the line is that comes next, where that was told.
    next_length: int | None = None
    # Whether a call was made since by which the view may have grown.
    may_have_grown: bool = False
    # The lines that are on their way to it, and whether it was freed.
    inbox: list[bytes] = field(default_factory=list)
    is_gone: bool = False
    # Its journal, where it has one, and by number the elements of removals of which is not known what they take out.
    journal: Journal | None = None
    unseen_removals: dict[int, int] = field(default_factory=dict)

    @property
    def submissions(self) -> list[Update]:
        return self.group.updates[self.own]

    def is_full(self) -> bool:
        return len(self.submissions) == self.group.config.cap

    def is_silent(self) -> bool:
        """Whether it does not tell its view."""
        return self.journal is not None and self.journal.is_kept() is False

    def takes(self, taken: Taken) -> None:
        """Takes note of what a journal is to have."""
        if self.journal:
            self.journal.taken.append(taken)

    def restart(self, slot: int) -> None:
        """A node was made anew in a slot, by its journal. What was not there was told to nobody: it was never submitted
        or proposed."""
        assert self.journal is not None
        del self.submissions[self.journal.kept.submissions:]
        for commit, proposals in self.group.proposals.items():
            if commit not in self.journal.kept.commits:
                proposals.pop(self.own, None)
        self.slot, self.next_length, self.may_have_grown = slot, None, True
        self.handed, self.heard = list(NOTHING), [NOTHING] * 8
        self.kinds, self.unseen_removals = {}, {}
        self.owing.clear()

    def object(self, number: int) -> Object:
        """What the updates of a number make, by the view, of which none is the same under two ids."""
        for replica, updates in enumerate(self.group.updates):
            for update in islice(updates, self.folded[replica], self.view[replica]):
                self.objects.setdefault(update.object, Object()).take(update)
            self.folded[replica] = self.view[replica]
        return self.objects.setdefault(number, Object())

    def sees(self, view: Counts) -> None:
        """Takes note of a view: it has only grown, and within what was submitted."""
        if view == self.view:
            return
        require(is_within(self.view, view), "a view that grows from {}, not {}", self.view, view)
        if self.group.honest:
            require(is_within(view, self.group.counts()), "a view within {}, not {}", self.group.counts(), view)
        self.view = view
        self.group.check_comparable(self)

    def statuses(self, line: bytes) -> frozenset[str]:
        """With which statuses a line may be taken or refused."""
        try:
            message = read(line)
        except Fault as fault:
            return frozenset({str(fault)})
        if self.group.honest and (self.own, line) in self.group.sent:
            return frozenset({"OK"})
        return frozenset(self.ends(message))

    def ends(self, message: Message) -> set[str]:
        """The same, of a message that perhaps nobody sent."""
        if message.group != self.group.config.replicas or message.to != self.own:
            return {"ELSEWHERE"}
        if message.verb == "known" or self.is_idle(message):
            return {"OK"}
        return self.received(message) | ({"OK"} if self.may_be_idle(message) else set())

    def received(self, message: Message) -> set[str]:
        """The same of a message that is not answered by how far the node is."""
        if message.sender >= self.group.config.replicas:
            return {"NO_REPLICA"}
        if message.instance >= self.group.instances:
            return {"NO_INSTANCE"}
        if message.verb == "yes":
            return {"OK"}
        if message.verb == "tell":
            return {self.tells(message)}
        if message.verb == "offer" and self.group.honest:
            return self.offered(message)
        return {"OK", "NO_BASE", "GAP", "CLASH"} - ({"NO_BASE"} if is_first(message) else set())

    def far(self) -> tuple[Far, Far]:
        """How far it is, at least and at most: the view is known, unless it may have grown."""
        most = larger(self.told, NOTHING[: self.own] + (len(self.submissions),) + NOTHING[self.own + 1:])
        view = most if self.may_have_grown else self.view
        return Far(self.said_has, self.view), Far(most, larger(view, self.view))

    def is_idle(self, message: Message) -> bool:
        """Whether it is answered by how far this node is: that lacks its base, or has all that it tells."""
        return is_surely_idle(message, *self.far())

    def may_be_idle(self, message: Message) -> bool:
        """Whether it perhaps is."""
        return may_be_idle(message, *self.far())

    def tells(self, message: Message) -> str:
        """How a tell ends, which is looked at over the view, or in another instance over nothing."""
        if message.instance != 0 and message.base != NOTHING:
            return "NO_BASE"
        return "GAP" if has_gap(message) else "OK"

    def offered(self, message: Message) -> set[str]:
        """How an offer that nobody sent may end, while all others were sent: it stands on what was accepted. In
        instance 0 that has its base."""
        base = set() if is_first(message) or message.base == NOTHING else {"NO_BASE"}
        if not is_within(message.base, self.group.counts_in(message.instance)):
            return {"NO_BASE"}
        if has_gap(message):
            return {"GAP"} | base
        is_sure = is_within(message.base, self.said_has)
        clashes = is_first(message) and is_sure and any(self.is_other(it) for it in message.updates)
        return {"CLASH"} if clashes else {"OK", "CLASH"} | base

    def is_other(self, update: Update) -> bool:
        """Whether what was accepted, as far as was said, has another update under an id."""
        accepted = update.replica < 8 and update.number <= self.said_has[update.replica]
        return accepted and update != self.group.updates[update.replica][update.number - 1]


def is_first(message: Message) -> bool:
    """Whether it is an offer or a tell of instance 0: one over more than a node has is not refused."""
    return message.instance == 0 and message.verb in ("offer", "tell")


def has_gap(message: Message) -> bool:
    """Whether an update of a message does not come next of its replica."""
    counts = list(message.base) + [0] * (256 - len(message.base))
    for update in message.updates:
        counts[update.replica] += 1
        if update.replica >= 8 or update.number != counts[update.replica]:
            return True
    return False
