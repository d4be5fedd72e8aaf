"""Runs of nodes: what each was given and said, and where one was killed and started again.

A log begins with `nodes N`; all N run. `give R LINE` hands node R a line, and each `say R LINE` behind it is what it
prints then. `kill R` kills the node, and `start R` starts it again. A line that begins with `#` is a comment.
"""
from __future__ import annotations

from dataclasses import dataclass, field

from oracle.lines import Line, Lines
from oracle.report import UpdateSet
from oracle.run import Kind, Message, Moment, Run
from oracle.script import MAX_REPLICAS, Deliver, Event, Group, is_number, read_event

EMPTY: UpdateSet = frozenset()
# A view of so many updates of a replica is more than a picture shows.
MANY = 1000


@dataclass(frozen=True)
class Killed:
    """A node is killed."""

    replica: int


@dataclass(frozen=True)
class Started:
    """A killed node is started again."""

    replica: int


@dataclass(frozen=True)
class Note:
    """A note without its head: its words, and the set that counts behind them stand for."""

    words: str
    updates: UpdateSet | None

    def learns(self) -> bool:
        """Whether a set is learnt by it."""
        return self.words.startswith("learnt ")


@dataclass
class Said:
    """What a node said to one line: its notes, and messages."""

    notes: list[Note] = field(default_factory=list)
    mail: list[Message] = field(default_factory=list)

    def learns(self) -> bool:
        """Whether a set is learnt."""
        return any(note.learns() for note in self.notes)

    def ballots(self) -> list[int]:
        """The numbers of the ballots that are offered, in order."""
        return sorted({message.ballot for message in self.mail if message.kind is Kind.OFFER})


@dataclass(frozen=True)
class Turn:
    """What happened at a node: a line that it was given, with what it said, or a kill or a start."""

    number: int
    event: Event | Killed | Started
    outcome: Said | None
    replica: int
    message: Message | None


@dataclass(frozen=True)
class Lives:
    """All that is drawn of a log, as of a run."""

    group: Group
    moments: tuple[Turn, ...]
    messages: tuple[Message, ...]
    views: tuple[UpdateSet, ...]


AnyMoment = Moment | Turn
AnyRun = Run | Lives


def counted(line: Line, words: list[str]) -> UpdateSet:
    """The set that holds the first updates of each replica, by their counts."""
    line.require(all(is_number(it, 0, MANY) for it in words), f"counts up to {MANY}")
    return frozenset((replica, k) for replica, it in enumerate(words) for k in range(1, int(it) + 1))


def note_of(line: Line, text: str) -> Note:
    """The note that a node says."""
    match text.split(" "):
        case ["view", *counts]:
            return Note("view", counted(line, counts))
        case ["learnt", instance, ballot, *counts]:
            where = "" if instance == "0" else f"i{instance} "
            return Note(f"learnt {where}b{ballot}", counted(line, counts))
    return Note(text, None)


def numbered(line: Line, word: str, below: int) -> int:
    """The number of a node."""
    line.require(is_number(word, 0, below - 1), f"the number of a node below {below}")
    return int(word)


class Reader:
    """Goes through a log, and keeps what was said and is on its way, which nodes run, and how far their views are."""

    def __init__(self, count: int) -> None:
        self.group = Group((1,) * count, 0, 1)
        self.runs = [True] * count
        self.moments: list[Turn] = []
        self.messages: list[Message] = []
        self.texts: list[str] = []
        self.views = [EMPTY] * count

    def message_of(self, line: Line, text: str, source: int) -> Message:
        """The message that a node says, which names a message's kind, the group, its ends, an instance and a ballot."""
        word, *numbers = text.partition(";")[0].split(" ")[:6]
        is_message = word in {kind.value for kind in Kind} and len(numbers) == 5
        line.require(is_message and all(is_number(it, 0, 2**32) for it in numbers), "a note, or a message")
        group, own, target, instance, ballot = map(int, numbers)
        ends_are_right = group == self.group.replicas and own == source and target < group
        line.require(ends_are_right, f"a message of node {source} to one of {self.group.replicas}")
        sent = len(self.messages), Kind(word), source, target, instance, ballot
        return Message(*sent, EMPTY, len(self.moments))

    def happen(
        self, replica: int, event: Event | Killed | Started, said: Said | None, message: Message | None = None
    ) -> None:
        """Adds what happens next at a node."""
        self.moments.append(Turn(len(self.moments) + 1, event, said, replica, message))

    def give(self, line: Line, replica: int, text: str) -> None:
        """A running node is given a line: a message that was said to it, or what a client asks for."""
        line.require(self.runs[replica], f"a line for a node that runs, and node {replica} does not")
        if text in self.texts:
            message = self.messages[self.texts.index(text)]
            line.require(message.target == replica, f"a message to node {replica}")
            return self.happen(replica, Deliver(message.number), Said(), message)
        event = read_event(Line(line.file, line.number, text), 2)
        is_own = not isinstance(event, Deliver) and event.replica == replica
        line.require(is_own, f"what node {replica} is asked for, or a message that was said")
        return self.happen(replica, event, Said())

    def say(self, line: Line, replica: int, text: str) -> None:
        """The node that was given a line last says something."""
        said = self.moments[-1].outcome if self.moments and self.moments[-1].replica == replica else None
        if said is None:
            raise line.fault(f"what node {replica} says to a line that it was given")
        head = f"# r{replica} "
        if text.startswith(head):
            note = note_of(line, text.removeprefix(head))
            said.notes.append(note)
            self.views[replica] = note.updates if note.updates and note.words == "view" else self.views[replica]
        else:
            said.mail.append(self.message_of(line, text, replica))
            self.messages.append(said.mail[-1])
            self.texts.append(text)

    def turn(self, line: Line, replica: int, runs: bool) -> None:
        """A node is killed or started."""
        line.require(self.runs[replica] != runs, f"a node that {'does not run' if runs else 'runs'}")
        self.runs[replica] = runs
        self.happen(replica, Started(replica) if runs else Killed(replica), None)

    def take(self, line: Line) -> None:
        """Takes a line of the log."""
        match (line.text or "").split(" ", 2):
            case [("give" | "say") as word, own, text]:
                (self.give if word == "give" else self.say)(line, numbered(line, own, len(self.runs)), text)
            case [("kill" | "start") as word, own]:
                self.turn(line, numbered(line, own, len(self.runs)), word == "start")
            case _:
                raise line.fault("`give R ..`, `say R ..`, `kill R` or `start R`")


def read_log(lines: Lines) -> Lives:
    """The run of a log, of which the first faulty line is refused."""
    reader = None
    while not lines.at_end() or reader is None:
        line = lines.take()
        if (line.text or "").startswith("#"):
            continue
        if reader is None:
            word, _, count = (line.text or "").partition(" ")
            line.require(word == "nodes" and is_number(count, 1, MAX_REPLICAS), "`nodes N`")
            reader = Reader(int(count))
        else:
            reader.take(line)
    return Lives(reader.group, tuple(reader.moments), tuple(reader.messages), tuple(reader.views))
