"""Runs: who sent which message to whom, told from the lines of a report.

A report does not say who a message is from and to. That follows from the events and from the lines
above: a ballot is offered to every replica from 0 on, a reply goes back, and a learnt set is told
to every other replica before the next ballot's offers are sent. On the way each line is held
against its event and the lines above it, so that a report of another script is refused. All this
goes on in each instance by itself; tells and views are of instance 0. What an object answers follows
from the view of its replica.
"""
from __future__ import annotations

from dataclasses import dataclass, field
from enum import Enum

from .lines import Line, Lines
from .objects import OBJECTS, Update
from .report import (
    Ballot, Counted, Decision, Held, Ignored, Kept, Learnt, Mail, No, Opened, Outcome, Refined,
    Refused, Replied, Took, UpdateId, UpdateSet, Yes, id_text, set_text, take_decision, take_header,
    take_outcome, take_view,
)
from .script import Ask, Decide, Deliver, Event, Group, Script, Submit
from .votes import Vote, decision_of, second_vote

EMPTY: UpdateSet = frozenset()


class Kind(Enum):
    """What a message carries."""

    OFFER = "offer"
    YES = "yes"
    NO = "no"
    TELL = "tell"


@dataclass(frozen=True)
class Message:
    """A message of a ballot, sent at an event; of a No the set is what its acceptor accepted."""

    number: int
    kind: Kind
    source: int
    target: int
    instance: int
    ballot: int
    updates: UpdateSet
    sent_at: int

    def __str__(self) -> str:
        return f"{self.kind.value} m{self.number}"


@dataclass(frozen=True)
class Moment:
    """An event and what it did, and where there are such its replica and what was delivered."""

    number: int
    event: Event
    outcome: Outcome
    replica: int | None
    message: Message | None


@dataclass(frozen=True)
class Run:
    """All that is drawn: the events in order, every message sent, and the last views."""

    group: Group
    moments: tuple[Moment, ...]
    messages: tuple[Message, ...]
    views: tuple[UpdateSet, ...]


@dataclass
class Place:
    """What the lines so far say of a replica in one instance."""

    replica: int
    instance: int
    submitted: int = 0
    accepted: UpdateSet = EMPTY
    ballot: Ballot = field(init=False)
    is_open: bool = False
    tally: dict[int, Message] = field(default_factory=dict)

    def __post_init__(self) -> None:
        self.ballot = Ballot(self.replica, self.instance, 0, EMPTY)

    def own_updates(self) -> UpdateSet:
        """All that the replica submitted."""
        return frozenset((self.replica, count) for count in range(1, self.submitted + 1))

    def counts(self, reply: Message) -> bool:
        """Whether a reply is to the open ballot, and the first of its acceptor there."""
        of_ballot = self.is_open and reply.ballot == self.ballot.number
        return of_ballot and reply.source not in self.tally

    def refusals(self) -> UpdateSet:
        """The join of the sets that came with the counted refusals."""
        noes = (reply.updates for reply in self.tally.values() if reply.kind is Kind.NO)
        return EMPTY.union(*noes)

    def acknowledgers(self) -> list[int]:
        """The acceptors that said Yes to the open ballot."""
        return [acceptor for acceptor, reply in self.tally.items() if reply.kind is Kind.YES]

    def next_ballot(self, more: UpdateSet) -> Ballot:
        """The ballot after the last one, with these updates added to its set."""
        last = self.ballot
        return Ballot(self.replica, self.instance, last.number + 1, last.updates | more)

    def open(self, ballot: Ballot) -> None:
        """A ballot is open, and no reply has counted in it."""
        self.ballot, self.is_open, self.tally = ballot, True, {}


class Follower:
    """Goes through a report with its script, and keeps what the lines so far say."""

    def __init__(self, group: Group) -> None:
        self.group = group
        self.places = [
            [Place(replica, instance) for instance in range(2 * group.commits + 1)]
            for replica in range(group.replicas)
        ]
        self.views = [EMPTY] * group.replicas
        self.updates: dict[UpdateId, Submit] = {}
        self.votes: dict[tuple[int, int], Vote] = {}
        self.decisions: dict[tuple[int, int], Decision] = {}
        self.messages: list[Message] = []
        self.event = 0
        self.line = Line("", 0, None)

    def require(self, holds: bool, expected: str) -> None:
        """Refuses the line, unless the condition holds."""
        self.line.require(holds, f"{expected} in the line of event {self.event}")

    def require_outcome(self, outcome: Outcome, expected: Outcome, why: str) -> None:
        """Refuses the line, unless it says this."""
        self.require(outcome == expected, f"`{expected}` ({why})")

    def show(self, replica: int, updates: UpdateSet) -> bool:
        """Whether this set is strictly larger than the replica's view, which it then becomes."""
        is_larger = self.views[replica] < updates
        self.views[replica] = updates if is_larger else self.views[replica]
        return is_larger

    # Sending

    def send(self, kind: Kind, ballot: Ballot, target: int, source: int) -> None:
        """Adds the next message, sent at this event."""
        number, ends = len(self.messages), (source, target)
        what = (ballot.instance, ballot.number, ballot.updates)
        self.messages.append(Message(number, kind, *ends, *what, self.event))

    def offer(self, ballot: Ballot) -> Mail:
        """Opens a ballot and sends its offers, to every replica."""
        mail = Mail(len(self.messages), self.group.replicas)
        self.places[ballot.replica][ballot.instance].open(ballot)
        for target in range(self.group.replicas):
            self.send(Kind.OFFER, ballot, target, ballot.replica)
        return mail

    def tell(self, ballot: Ballot) -> Mail | None:
        """Sends a learnt set to every other replica."""
        mail = Mail(len(self.messages), self.group.replicas - 1)
        for target in range(self.group.replicas):
            if target != ballot.replica:
                self.send(Kind.TELL, ballot, target, ballot.replica)
        return mail if mail.count > 0 else None

    # What an event may have done

    def submission(self, event: Submit, outcome: Outcome) -> None:
        """Follows a submission by a replica of the group."""
        place = self.places[event.replica][0]
        if place.submitted == self.group.cap:
            return self.require_outcome(outcome, Refused("Full"), "the cap is reached")
        self.updates[place.replica, place.submitted + 1] = event
        if place.is_open:
            place.submitted += 1
            update: UpdateId = (place.replica, place.submitted)
            return self.require_outcome(outcome, Held(update), "the replica's ballot is open")
        return self.require_outcome(outcome, self.opening(place), "the replica has no open ballot")

    def opening(self, place: Place) -> Opened:
        """Submits an update where no ballot is open."""
        place.submitted += 1
        ballot = place.next_ballot(frozenset([(place.replica, place.submitted)]))
        return Opened(ballot, self.offer(ballot))

    def cast(self, replica: int, instance: int, vote: Vote) -> Opened:
        """Submits a replica's vote in an instance of an adopt-commit object."""
        self.votes[instance, replica] = vote
        return self.opening(self.places[replica][instance])

    def proposal(self, event: Decide, outcome: Outcome) -> None:
        """Follows a proposal by a replica of the group."""
        first = 2 * event.commit + 1
        if event.commit >= self.group.commits:
            return self.require_outcome(outcome, Refused("NoSuchCommit"), str(event))
        if (first, event.replica) in self.votes:
            return self.require_outcome(outcome, Refused("AlreadyProposed"), str(event))
        opened = self.cast(event.replica, first, Vote(event.value, False))
        return self.require_outcome(outcome, opened, str(event))

    def answer(self, offer: Message, outcome: Outcome) -> None:
        """Follows the delivery of an offer."""
        acceptor = self.places[offer.target][offer.instance]
        mail = Mail(len(self.messages), 1)
        joined = acceptor.accepted | offer.updates
        why = f"replica {acceptor.replica} was offered {set_text(offer.updates)}"
        why += f" and had accepted {set_text(acceptor.accepted)}"
        if isinstance(outcome, Yes):
            kind, expected = Kind.YES, Yes(mail)
            self.require(joined == offer.updates, f"a `no` ({why})")
        else:
            kind, expected = Kind.NO, No(joined, mail)
            self.require(joined != offer.updates, f"`{Yes(mail)}` ({why})")
        self.require_outcome(outcome, expected, why)
        acceptor.accepted = joined
        ballot = Ballot(offer.source, offer.instance, offer.ballot, joined)
        self.send(kind, ballot, offer.source, offer.target)

    def hear(self, reply: Message, outcome: Outcome) -> None:
        """Follows the delivery of a reply."""
        place = self.places[reply.target][reply.instance]
        why = f"a {reply.kind.value} from replica {reply.source} to ballot {reply.ballot}"
        why += f" of replica {place.replica}"
        if not place.counts(reply):
            return self.require_outcome(outcome, Ignored(), why)
        place.tally[reply.source] = reply
        acknowledged = self.group.is_majority(place.acknowledgers())
        refused = not acknowledged and self.group.is_majority(place.tally)
        match outcome:
            case Learnt():
                self.require(acknowledged, f"no `learnt` ({why}: no majority acknowledges)")
                return self.learning(place, outcome)
            case Refined():
                self.require(refused, f"no `refined` ({why}: no majority with a refusal)")
                ballot = place.next_ballot(place.refusals())
                return self.require_outcome(outcome, Refined(ballot, self.offer(ballot)), why)
        self.require(not acknowledged, f"`learnt {place.ballot} ..` ({why})")
        self.require(not refused, f"`refined ..` ({why})")
        return self.require_outcome(outcome, Counted(), why)

    def learning(self, place: Place, outcome: Learnt) -> None:
        """Follows a learning, and what comes of it at once in its instance."""
        place.is_open = False
        if place.instance == 0:
            expected = self.object_learning(place)
        elif place.instance % 2 == 1:
            expected = self.first_learning(place.ballot)
        else:
            expected = self.second_learning(place.ballot)
        self.require_outcome(outcome, expected, "the ballot is learnt")

    def object_learning(self, place: Place) -> Learnt:
        """In instance 0: the tells, and then the ballot with all that waited."""
        ballot = place.ballot
        self.show(ballot.replica, ballot.updates)
        told, following = self.tell(ballot), None
        if not place.own_updates() <= ballot.updates:
            wider = place.next_ballot(place.own_updates())
            following = Opened(wider, self.offer(wider))
        return Learnt(ballot, told, None, following)

    def votes_of(self, ballot: Ballot) -> dict[int, Vote]:
        """The votes in a ballot's set, by replica."""
        replicas = sorted(replica for replica, _ in ballot.updates)
        return {replica: self.votes[ballot.instance, replica] for replica in replicas}

    def first_learning(self, ballot: Ballot) -> Learnt:
        """In the first instance of an adopt-commit object: the second vote, in the second one."""
        vote = second_vote(self.votes_of(ballot), ballot.replica)
        following = self.cast(ballot.replica, ballot.instance + 1, vote)
        return Learnt(ballot, None, None, following)

    def second_learning(self, ballot: Ballot) -> Learnt:
        """In the second instance of an adopt-commit object: what the replica returns."""
        decision = decision_of(self.votes_of(ballot), ballot.replica)
        self.decisions[ballot.instance // 2 - 1, ballot.replica] = decision
        return Learnt(ballot, None, decision, None)

    def hear_tell(self, tell: Message, outcome: Outcome) -> None:
        """Follows the delivery of a tell."""
        why = f"replica {tell.target} was told {set_text(tell.updates)}"
        why += f" and showed {set_text(self.views[tell.target])}"
        expected = Took(tell.updates) if self.show(tell.target, tell.updates) else Kept()
        self.require_outcome(outcome, expected, why)

    def question(self, event: Ask, outcome: Outcome) -> None:
        """Follows a question to a replica of the group: its objects know what is in its view."""
        if event.object not in OBJECTS:
            return self.require_outcome(outcome, Refused("NoSuchObject"), str(event))
        view = self.views[event.replica]
        updates = [
            Update(id_text(update), submission.operation)
            for update, submission in self.updates.items()
            if update in view and submission.object == event.object
        ]
        expected = Replied(OBJECTS[event.object](updates, event.question))
        why = f"{event}, with the view {set_text(view)}"
        return self.require_outcome(outcome, expected, why)

    def delivery(self, message: Message, outcome: Outcome) -> None:
        """Follows the delivery of a message that was sent."""
        match message.kind:
            case Kind.OFFER:
                self.answer(message, outcome)
            case Kind.TELL:
                self.hear_tell(message, outcome)
            case _:
                self.hear(message, outcome)

    def follow(self, line: Line, event: Event, outcome: Outcome) -> Moment:
        """Follows the next event, with its line."""
        self.line, self.event = line, self.event + 1
        match event:
            case Submit(replica) if replica < self.group.replicas:
                self.submission(event, outcome)
                return Moment(self.event, event, outcome, replica, None)
            case Decide(replica) if replica < self.group.replicas:
                self.proposal(event, outcome)
                return Moment(self.event, event, outcome, replica, None)
            case Ask(replica) if replica < self.group.replicas:
                self.question(event, outcome)
                return Moment(self.event, event, outcome, replica, None)
            case Deliver(number) if number < len(self.messages):
                message = self.messages[number]
                self.delivery(message, outcome)
                return Moment(self.event, event, outcome, message.target, message)
        name = "NoSuchMessage" if isinstance(event, Deliver) else "NoSuchReplica"
        self.require_outcome(outcome, Refused(name), str(event))
        return Moment(self.event, event, outcome, None, None)


def follow_run(script: Script, report: Lines) -> Run:
    """The run that a report tells of a script; refuses the first line that cannot be there."""
    take_header(report, script.header())
    follower = Follower(script.group)
    moments = []
    for number, event in enumerate(script.events, start=1):
        line, outcome = take_outcome(report, number)
        moments.append(follower.follow(line, event, outcome))
    views = tuple(follower.views)
    for replica, view in enumerate(views):
        take_view(report, replica, view)
    for (commit, replica), decision in sorted(follower.decisions.items(), key=lambda item: item[0]):
        take_decision(report, commit, replica, decision)
    report.expect_end()
    return Run(script.group, tuple(moments), tuple(follower.messages), views)
