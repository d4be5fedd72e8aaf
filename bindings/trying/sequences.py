"""Sequences of calls: groups of nodes that are made, called in any order, come back after crashes, and are freed."""
from __future__ import annotations

from collections import deque
from dataclasses import dataclass, field

from . import asking, keeping, lives, mailing, starting, submitting
from .drawing import Draw
from .groups import Group, Member
from .journals import Journal
from .playing import UNTOUCHED, Arguments, Plays, Wrong
from .reading import MAX_TAGS
from .rules import RULES, STATUSES, expect

# The modules whose rules are drawn from.
MODULES = (asking, keeping, mailing, submitting)
# What is called beside a node's rules.
BESIDE = {"version", "node_new", "first_journal", "node_recover", "node_free"}
ROUNDS = 200
# For so many rounds one is away, so that it lacks what many letters told it.
AWAY_ROUNDS = 40


@dataclass
class Sequence:
    """One sequence, which a seed says all of."""

    player: Plays
    seed: str
    version: int
    calls: int = 0
    slots: int = 0
    groups: list[Group] = field(default_factory=list)
    # The slots of nodes that crashed and were not freed then.
    forgotten: list[int] = field(default_factory=list)
    last: deque[tuple[str, object]] = field(default_factory=lambda: deque(maxlen=12))

    def __post_init__(self) -> None:
        self.draw = Draw(self.seed)
        self.draw.lost = self.draw.one_of([0, 0, 5, 20, 50])
        self.draw.twice = self.draw.one_of([0, 5, 20])
        self.draw.altered = self.draw.one_of([0, 10, 30])
        # Of a hundred calls that are refused as unkept after how many all is put on the disk.
        self.keeps = self.draw.one_of([2, 10, 50, 90, 100])
        # How much more often mail is moved than other calls are made.
        self.haste = self.draw.one_of([1, 1, 2, 5])
        self.names = [name for name in sorted(RULES) for _ in range(self.weight(name))]

    def weight(self, name: str) -> int:
        return RULES[name].weight * (self.haste if name in ("receive", "next_mail") else 1)

    def noted(self, name: str, arguments: object) -> None:
        self.calls += 1
        self.last.append((name, arguments))

    def told(self) -> list[str]:
        """The last calls, each in a line."""
        texts = [f"{name} {arguments!r}" for name, arguments in self.last]
        return [text if len(text) < 400 else f"{text[:400]} .." for text in texts]

    def call(self, member: Member, name: str, arguments: Arguments) -> int:
        """Makes a call of a node, and judges it."""
        self.noted(name, (member.slot, *arguments))
        answer = self.player.play(name, (member.slot, *arguments))
        if not keeping.is_withheld(member, name, answer):
            RULES[name].judge(member, arguments, answer)
        if name != "view" and member.may_have_grown and not member.is_silent():
            self.call(member, "view", ())
        return answer.result

    def start_node(self, arguments: Arguments) -> int | None:
        """Makes a node, where the model says so: its slot."""
        self.noted("node_new", arguments)
        answer = self.player.play("node_new", (*arguments, self.slots))
        status = starting.status_of(arguments)
        expect(answer, status)
        if status != "OK":
            return None
        self.slots += 1
        return self.slots - 1

    def first_journal(self, arguments: Arguments) -> bytes:
        """The bytes that a journal begins with, where the model says so; none, where the numbers make no node. They go
        whole into a buffer, or not at all."""
        status = starting.status_of(arguments)
        first = lives.first_journal(arguments) if status == "OK" else b""
        for room in self.draw.one_of([(255,), (len(first),), (0, 255), (max(len(first) - 1, 0), 1000)]):
            self.noted("first_journal", (*arguments, room))
            answer = self.player.play("first_journal", (*arguments, room))
            if status != "OK":
                expect(answer, status, b"", UNTOUCHED["usize"])
            elif room < len(first):
                expect(answer, "SMALL", b"", len(first))
            else:
                expect(answer, "OK", first, len(first))
        return first

    def recover_node(self, arguments: Arguments, found: bytes) -> tuple[int | None, int]:
        """Makes a node of what was found in a journal, where the model says so: its slot, and how much is kept."""
        self.noted("node_recover", (*arguments, found))
        answer = self.player.play("node_recover", (*arguments, found, self.slots))
        wanted = lives.outcome(arguments, found)
        places = [UNTOUCHED["usize"] if it is None else it for it in (wanted.keep, wanted.line)]
        expect(answer, wanted.status, *places)
        if wanted.keep is None:
            return None, 0
        self.slots += 1
        return self.slots - 1, wanted.keep

    def check_submitted(self, slot: int, wanted: int) -> None:
        """Asks a node that is no member's how much it has submitted."""
        self.noted("submitted", slot)
        expect(self.player.play("submitted", (slot,)), "OK", wanted)

    def keep(self, member: Member) -> None:
        """Puts on the disk what was taken."""
        while self.call(member, "next_record", (1 << 16,)) != STATUSES["NONE"]:
            if member.journal and member.journal.record is None:
                self.call(member, "next_record", (member.journal.length or 0,))
            self.call(member, "synced", ())

    def free(self, member: Member) -> None:
        self.free_slot(member.slot)
        member.is_gone = True

    def free_slot(self, slot: int) -> None:
        self.noted("node_free", slot)
        self.player.play("node_free", (slot,))

    def start_group(self) -> None:
        config = starting.draw_config(self.draw)
        group = Group(config, may_lie=self.draw.chance(25))
        group.updates = [[] for _ in range(config.replicas)]
        journals = self.draw.one_of([0, 50, 100])
        for own in range(config.replicas):
            group.members.append(self.started(group, own, self.draw.chance(journals)))
        self.groups.append(group)
        for member in group.members:
            self.add_objects(member)

    def started(self, group: Group, own: int, has_journal: bool) -> Member:
        """A node of a group, with a journal that was made for it, or without one."""
        arguments = starting.start(group.config, own)
        journal = Journal(self.first_journal(arguments)) if has_journal else None
        slot = self.recover_node(arguments, journal.disk)[0] if journal else self.start_node(arguments)
        assert slot is not None
        return Member(group, own, slot, journal=journal)

    def add_objects(self, member: Member) -> None:
        for number, kind in ((1, 0), (2, 1), (3, 2)):
            if self.draw.chance(90):
                self.call(member, "add", (number, kind))

    def bad_start(self) -> None:
        """Tries to make a node with any numbers, and frees it at once, or a journal."""
        arguments = starting.draw_bad_start(self.draw)
        if self.draw.chance(50):
            slot = self.start_node(arguments)
        else:
            first = self.first_journal(arguments)
            found = self.draw.one_of([first, b"", b"\n", b"lattice 2", self.draw.own_bytes()])
            slot, _ = self.recover_node(arguments, found)
        if slot is not None:
            self.free_slot(slot)

    def step(self) -> None:
        """One call by chance, of any node."""
        group = self.draw.one_of(self.groups)
        member = self.draw.one_of(group.members)
        name = self.draw.one_of(self.names)
        if member.is_gone:
            return
        arguments = RULES[name].draw(self.draw, member)
        status = self.call(member, name, arguments)
        if status == STATUSES["UNKEPT"] and self.draw.chance(self.keeps):
            self.keep(member)
        if name == "receive" and isinstance(arguments[0], bytes) and len(arguments[0]) < 4000:
            self.draw.keep(arguments[0])

    def put_often(self) -> None:
        """A node puts one element more often than a removal can take out."""
        group = self.draw.one_of(self.groups)
        member, element = self.draw.one_of(group.members), self.draw.element()
        if any(it.is_gone for it in group.members):
            return
        for _ in range(MAX_TAGS + self.draw.below(3)):
            self.call(member, "put", (3, element))
        if group.honest:
            self.settle(group)
        self.call(member, "remove", (3, element))

    def pull_all(self, members: list[Member]) -> None:
        for member in members:
            status = 0
            while status != STATUSES["NONE"]:
                status = self.call(member, "next_mail", (max(1 << 16, member.next_length or 0),))
                if status == STATUSES["UNKEPT"]:
                    self.keep(member)

    def hand_all(self, members: list[Member]) -> None:
        """Hands over what is on its way to these."""
        for member in members:
            while member.inbox:
                line = member.inbox.pop(self.draw.below(len(member.inbox)))
                self.call(member, "receive", (line,))

    def leave_one_out(self) -> None:
        """A node is away, and what is for it is lost, while the others go on."""
        group = self.draw.one_of(self.groups)
        away = self.draw.one_of(group.members)
        others = [it for it in group.members if it is not away and not it.is_gone]
        for _ in range(AWAY_ROUNDS if others else 0):
            self.call(self.draw.one_of(others), "put", (3, self.draw.element()))
            for _ in range(self.draw.one_of([1, 2, 3])):
                self.pull_all(others)
                self.hand_all(others)
            self.call(self.draw.one_of(others), "again", ())
            away.inbox.clear()

    def settle(self, group: Group) -> None:
        """Hands over all mail, and has it sent again, until all is learnt by all."""
        for _ in range(ROUNDS):
            self.pull_all(group.members)
            while any(member.inbox for member in group.members):
                self.hand_all(group.members)
                self.pull_all(group.members)
            if self.is_settled(group):
                return
            for member in group.members:
                self.call(member, "again", ())
        raise Wrong(f"not all is learnt after {ROUNDS} rounds without a loss")

    def is_settled(self, group: Group) -> bool:
        """Whether all have learnt all, and have returned from what they proposed to."""
        for member in group.members:
            for commit, proposed in group.proposals.items():
                if member.own in proposed and self.call(member, "outcome", (commit,)) != 0:
                    return False
        return all(member.view == group.counts() for member in group.members)

    def ask_all(self, group: Group) -> None:
        """Takes all that was learnt, and asks each object."""
        for member in group.members:
            while self.call(member, "next_learnt", (248,)) == 0:
                pass
            for name in ("total", "largest", "size"):
                for number in (1, 2, 3):
                    self.call(member, name, (number,))
            self.call(member, "items", (3, 1000))

    def play(self) -> None:
        """Plays all of it."""
        self.noted("version", ())
        if self.player.play("version", ()).result != self.version:
            raise Wrong(f"expected version {self.version}")
        for _ in range(self.draw.one_of([1, 1, 1, 2])):
            self.start_group()
        for _ in range(self.draw.one_of([30, 200, 1000, 3000])):
            self.step()
            if self.draw.below(200) == 0:
                self.bad_start()
            if self.draw.below(5000) == 0:
                self.free_one()
            if self.draw.below(1000) == 0:
                self.put_often()
            if self.draw.below(60) == 0:
                self.crash_one()
            if self.draw.below(1500) == 0:
                self.leave_one_out()
        for group in self.groups:
            if group.honest and not any(member.is_gone for member in group.members):
                self.settle(group)
                self.ask_all(group)
                self.come_back(group)
            for member in group.members:
                if not member.is_gone:
                    self.free(member)
        for slot in self.forgotten:
            self.free_slot(slot)

    def come_back(self, group: Group) -> None:
        """All nodes that have a journal come back, and know what they knew."""
        for member in group.members:
            if member.journal:
                lives.crash(self, member)
        self.settle(group)
        self.ask_all(group)

    def crash_one(self) -> None:
        """A node crashes, where it has a journal, and comes back."""
        member = self.draw.one_of(self.draw.one_of(self.groups).members)
        if member.journal and not member.is_gone:
            lives.crash(self, member)

    def free_one(self) -> None:
        """A node is lost for good; the others go on."""
        member = self.draw.one_of(self.draw.one_of(self.groups).members)
        if not member.is_gone:
            self.free(member)
