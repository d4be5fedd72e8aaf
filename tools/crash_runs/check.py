"""Checks what the nodes of a group gave out in all their lives, from the log of a run alone.

A log's entry is a word, a node's number and a line: `start`, a life begins, where so many bytes are behind the
journal's groups; `given`, a line on its standard input; `out`, one that it printed; `said`, one on standard error;
`killed`; `power`, what its loss left of the journal; `flipped`, what a start came to where a bit of it had flipped;
`ended`, with the status; `told`, a line that the cart program beside it was told; `cart`, one that this was asked, and
behind a `: ` what it answered; `weather`, that of the network; `away`, from here on nothing comes to a node or of it,
until `back`; and `last`, from which on nothing is submitted. The first word of a fault is the rule that is broken.
"""
from __future__ import annotations

import re
from collections import Counter, defaultdict, deque
from dataclasses import dataclass, field

from . import carts
from .hearing import Far, Hearing, is_idle, lacks_base, larger, within
from .lines import (
    FAULTY, FORMS, NOTHING, Counts, Malformed, Message, Standing, apart, read_counts, read_message, read_note,
    read_standing,
)
from .objects import TAKES, Named, answer, tags_of, unfit

Entry = tuple[str, int, str]
# No refusal of a group to whose nodes nobody lies.
NEVER = ("NoSuchReplica", "NoSuchInstance", "NoBase", "Gap", "Clash", "BallotsSpent", "Memory")
# What a node comes to where a bit of its journal has flipped.
TOLD = re.compile(r"status 5, printed b'', said b'lattice node: r[0-7]: BadJournal[^\\]*\\n', kept")


@dataclass(frozen=True)
class Group:
    """What all nodes are started with."""

    replicas: int
    commits: int
    cap: int
    votes: tuple[int, ...]


@dataclass
class Seen:
    """What one node has been given and has answered."""

    line: int = 0
    # Lines of this life that have to be answered, in order: their numbers, and their words; and the names of requests.
    awaited: deque[tuple[int, list[str]]] = field(default_factory=deque)
    names: dict[int, str] = field(default_factory=dict)
    # Submissions of which no answer came before a kill, since the last that was answered, and ever.
    lost: list[str] = field(default_factory=list)
    # The same of submissions under numbers: these. And how many were answered once more.
    lost_numbers: set[int] = field(default_factory=set)
    again: int = 0
    ever_lost: set[str] = field(default_factory=set)
    submitted: dict[int, str] = field(default_factory=dict)
    # How many submissions it said that it has.
    counted: int = 0
    # By adopt-commit object: what it proposed; and the one whose outcome its next line has to say once more.
    proposed: dict[int, int] = field(default_factory=dict)
    returns: int | None = None
    kills_since: dict[int, int] = field(default_factory=dict)
    view: Counts = NOTHING
    # Whether no kill may have swallowed a later view.
    exact: bool = True
    # What it has said that it has accepted in instance 0, and whether no kill may have swallowed more.
    has: Counts = NOTHING
    firm: bool = True
    hearing: Hearing = field(default_factory=Hearing)
    # To whom it has still to tell for the first time what it learnt last.
    untold: set[int] = field(default_factory=set)
    # Whether all that it may still be at is passed over, or answered alone.
    passed: bool = True
    # What it has to say of faulty lines.
    to_say: deque[str] = field(default_factory=deque)
    # Of this life: the messages that it was given, by line; those that it sent, by kind; how many lines it refused; and
    # what it said last of its journal.
    came: list[tuple[int, str]] = field(default_factory=list)
    sent: Counter[str] = field(default_factory=Counter)
    refused: int = 0
    journal: Counts = (0, 0)
    # What its cart program was told.
    told: carts.Told = field(default_factory=dict)

    def begin(self) -> None:
        """A life begins."""
        self.line, self.passed, self.returns = 0, True, None
        self.names.clear()
        self.hearing.begin(Far(self.has, self.view), self.far())
        self.untold.clear()
        self.came.clear()
        self.sent.clear()
        self.refused, self.journal = 0, (0, 0)

    def far(self) -> Far | None:
        """How far it is, where no kill may have swallowed more."""
        return Far(self.has, self.view) if self.exact and self.firm else None

    def least(self) -> int:
        """How many submissions it has taken at least."""
        return max([*self.submitted, self.counted])

    def most(self) -> int:
        """How many it may have taken."""
        return max([*self.submitted, *self.lost_numbers, self.counted]) + len(self.lost)


def asked_number(words: list[str]) -> int | None:
    """The number under which a line submits; none, where it says none."""
    return int(words[1].partition(".")[2]) if words[0] == "submit" and "." in words[1] else None


def is_take(content: str) -> bool:
    """Whether a submission takes an element out."""
    return content.split(" ")[1] == "take"


def asks_again(line: str) -> bool:
    """Whether a line is a `known` that a letter may answer, since its sender lacks what another was told over."""
    try:
        return line.startswith("known ") and lacks_base(read_message(line))
    except Malformed:
        return False


def has_update(view: Counts, update: str) -> bool:
    """Whether a view has the update with this id."""
    replica, _, number = update.partition(".")
    return int(replica) < len(view) and int(number) <= view[int(replica)]


class Checker:
    """Takes entries, in order, and gathers faults."""

    def __init__(self, group: Group) -> None:
        self.group = group
        self.faults: list[str] = []
        self.nodes = [Seen() for _ in range(group.replicas)]
        self.contents: dict[tuple[int, int, int], str] = {}
        # By submission: what its node's view had at most when it was made.
        self.views: dict[tuple[int, int], Counts] = {}
        # By object and participant: what it may have proposed.
        self.proposals: dict[tuple[int, int], set[int]] = defaultdict(set)
        self.offered: dict[tuple[int, int, int], Counts] = {}
        self.accepted: dict[tuple[int, int], Counts] = {}
        self.yeses: dict[tuple[int, int, int], set[int]] = defaultdict(set)
        self.learnt: dict[tuple[int, int, int], Counts] = {}
        self.last_learnt: dict[tuple[int, int], tuple[int, Counts]] = {}
        self.outcomes: dict[tuple[int, int], tuple[str, int]] = {}
        self.answers: dict[tuple[int, str], set[str]] = defaultdict(set)
        self.last = False

    def fault(self, rule: str, own: int, what: object) -> None:
        self.faults.append(f"{rule}: node {own}: {what}")

    def take(self, entry: Entry) -> None:
        word, own, line = entry
        getattr(self, f"take_{word}")(own, line)

    def take_last(self, _own: int, _line: str) -> None:
        self.last = True

    def take_power(self, _own: int, _line: str) -> None:
        """What a node has to keep is the same after it, and what it has to say where it is away."""

    take_away = take_back = take_weather = take_power

    def take_flipped(self, own: int, line: str) -> None:
        if not TOLD.fullmatch(line):
            self.fault("flipped", own, line)

    def take_start(self, own: int, torn: str) -> None:
        self.nodes[own].begin()
        if torn != "0":
            self.nodes[own].to_say.append(f"cut {torn}")

    def take_told(self, own: int, line: str) -> None:
        """The cart program is told what its node told, each update once."""
        word, (_, replica, number, text, *_) = read_note(line.partition(" @")[0], own)
        self.content(0, (int(replica), int(number), text))
        if word != "update" or self.nodes[own].told.setdefault((int(replica), int(number)), text) is not text:
            self.fault("carts", own, f"{line}: told before")

    def take_cart(self, own: int, line: str) -> None:
        """It answers by what it was told; and all alike at the end."""
        asked, _, text = line.partition(": ")
        if text != (wanted := carts.answer(self.nodes[own].told, asked)):
            self.fault("carts", own, f"{asked}: {text}, not {wanted}")
        if self.last and asked.startswith("cart "):
            self.answers[own, asked].add(text)

    def take_said(self, own: int, line: str) -> None:
        to_say = self.nodes[own].to_say
        if not to_say or to_say.popleft() != line:
            self.fault("said", own, line)

    def take_given(self, own: int, line: str) -> None:
        node, (line, _, name) = self.nodes[own], line.partition(" @")
        words = line.split(" ")
        node.line += 1
        node.names[node.line] = name
        mine = words[:2] in ([it, str(own)] for it in ("submit", "decide", "ask", "update", "status"))
        mine = mine or words[0] == "submit" and words[1].startswith(f"{own}.")
        here = [str(self.group.replicas), str(own)]
        mailed = words[1:4:2] == here and (words[0] in ("offer", "yes", "no", "tell") or asks_again(line))
        if line in FAULTY:
            return node.to_say.append(f"line {node.line}: {FAULTY[line]}" + (f" @{name}" if name else ""))
        self.hear(own, line)
        node.passed = node.passed and not (mine and words[0] in ("submit", "decide") or mailed or words == ["tick"])
        if mine:
            node.awaited.append((node.line, words))

    def hear(self, own: int, line: str) -> None:
        """A node takes note of how far the sender of a line of its group is, whoever that is for; or it is given a
        tick."""
        node = self.nodes[own]
        if line == "tick":
            return node.hearing.ticked(node.line)
        try:
            it = read_message(line) if line.split(" ", 1)[0] in FORMS else None
        except Malformed:
            return
        node.came += [(node.line, it.verb)] if it else []
        if it and it.group == self.group.replicas:
            node.hearing.given(node.line, it, own, Far(node.has, node.view), node.far())

    def handled(self, own: int, line: int) -> None:
        """A node has handled all its lines up to this one."""
        node = self.nodes[own]
        if it := node.hearing.handled(line, node.far()):
            rule = "known" if is_idle(it.message, it.most or it.least) else "replies"
            self.fault(rule, own, f"no answer to line {it.line}, {it.message}")
        self.mended(own)

    def mended(self, own: int) -> None:
        """Where a replica said that it lacks something, that was written before anything else."""
        if it := self.nodes[own].hearing.unmended:
            self.fault("lack", own, f"nothing mends what line {it.line} lacks, {it.message}")
            self.nodes[own].hearing.unmended = None

    def take_killed(self, own: int, _line: str) -> None:
        node = self.nodes[own]
        lost = [words for _, words in node.awaited if words[0] == "submit" and not unfit(int(words[2]), words[3])]
        node.lost += [" ".join(words[2:]) for words in lost if asked_number(words) is None]
        for number in sorted(asked_number(words) or 0 for words in lost):
            node.lost_numbers.update([number] if 0 < number <= node.most() + 1 else [])
        node.ever_lost.update(" ".join(words[2:]) for words in lost)
        for words in (words for _, words in node.awaited if words[0] == "decide"):
            self.proposals[int(words[2]), own].update([] if int(words[2]) in node.proposed else [int(words[3])])
        node.awaited.clear()
        node.to_say.clear()
        node.exact = node.firm = False
        for key in node.kills_since:
            node.kills_since[key] += 1

    def take_ended(self, own: int, status: str) -> None:
        if status != "0":
            self.fault("status", own, status)
        for at, words in self.nodes[own].awaited:
            self.fault("answers", own, f"none to line {at}, {' '.join(words)}")
        for line in self.nodes[own].to_say:
            self.fault("said", own, f"not said: {line}")
        self.handled(own, self.nodes[own].line)
        self.nodes[own].awaited.clear()
        self.nodes[own].to_say.clear()

    def take_out(self, own: int, line: str) -> None:
        node = self.nodes[own]
        asked = bool(node.awaited) and node.awaited[0][1][0] in ("ask", "update", "status")
        if node.passed and not asked:
            self.fault("silent", own, line)
        # The answer to the last line that was given.
        node.passed = node.passed or asked and node.awaited[0][0] == node.line and line.startswith("# r")
        returns, node.returns = node.returns, None
        if returns is not None and not line.startswith(f"# r{own} outcome {returns} "):
            self.fault("returned", own, f"{line}, and not the outcome of object {returns} once more")
        try:
            if line.startswith("#"):
                self.note(own, line)
            else:
                self.message(own, read_message(line))
        except Malformed as fault:
            self.fault("form", own, f"{fault}: {line}")
        self.mended(own)

    def note(self, own: int, line: str) -> None:
        """What answers a request ends in its name, and nothing else does."""
        awaited, (line, _, name) = list(self.nodes[own].awaited), line.partition(" @")
        word, values = read_note(line, own)
        getattr(self, f"note_{word}")(own, *values)
        answered = awaited[: len(awaited) - len(self.nodes[own].awaited)]
        if name != "".join(self.nodes[own].names[it] for it, _ in answered):
            self.fault("names", own, f"{line} @{name}")

    # What a node answers

    def answered_line(self, own: int, word: str) -> list[str]:
        """Takes the words of the line to which an answer of this kind belongs: the oldest that has none."""
        awaited = self.nodes[own].awaited
        if awaited and awaited[0][1][0] == word:
            line, words = awaited.popleft()
            self.handled(own, line)
            return words
        raise Malformed(f"answers {word}, and the oldest line without an answer is {awaited[0] if awaited else None}")

    def note_submitted(self, own: int, replica: str, number: str) -> None:
        node, at, words = self.nodes[own], int(number), self.answered_line(own, "submit")
        content, asked = " ".join(words[2:]), asked_number(words)
        if asked not in (None, at):
            self.fault("numbers", own, f"{' '.join(words)}: {replica}.{number}")
        if why := unfit(int(words[2]), words[3]):
            self.fault("refused", own, f"{' '.join(words)}: not {why}")
        if asked in node.submitted:
            node.again += 1
            if self.was(own, asked, content) is False:
                self.fault("numbers", own, f"{' '.join(words)}: {node.submitted[asked]} before")
            return
        next_at, most = node.least() + 1, node.most() + 1
        is_due = next_at <= at <= most or asked in node.lost_numbers
        if int(replica) != own or at in node.submitted or not is_due:
            self.fault("ids", own, f"{replica}.{number} where {next_at} to {most} is next")
        is_new = asked is None or not node.lost and asked not in node.lost_numbers
        node.submitted[at] = content
        node.lost_numbers.discard(at)
        if asked is None:
            node.lost.clear()
        if not is_take(content):
            self.content(0, (own, at, content))
        elif is_new and node.exact:
            self.content(0, (own, at, self.remove_of(content, node.view)))

    def note_proposed(self, own: int, number: str) -> None:
        """A proposal is made, or is told once more, and then what came of it."""
        words, node = self.answered_line(own, "decide"), self.nodes[own]
        at, value = int(words[2]), int(words[3])
        if words[2] != number or node.proposed.get(at, value) != value or at >= self.group.commits:
            self.fault("proposed", own, f"{' '.join(words)}: {node.proposed.get(at)} before")
        node.returns = at if at in node.proposed and (at, own) in self.outcomes else None
        node.proposed[at] = value
        node.kills_since[at] = 0
        self.proposals[at, own] = {value}

    def note_refused(self, own: int, line: str, name: str) -> None:
        node = self.nodes[own]
        if not 1 <= int(line) <= node.line or name in NEVER and name != "Gap":
            self.fault("refused", own, f"line {line} of {node.line}: {name}")
        if not node.awaited or node.awaited[0][0] != int(line):
            return self.fault("refused", own, f"line {line}, {name}: {len(node.awaited)} without an answer")
        _, words = node.awaited.popleft()
        self.handled(own, int(line))
        node.refused += 1
        if not getattr(self, f"is_just_{words[0]}")(own, name, words):
            self.fault("refused", own, f"{' '.join(words)}: {name}")

    def is_just_submit(self, own: int, name: str, words: list[str]) -> bool:
        """Whether a submission is refused rightly."""
        node, count, asked = self.nodes[own], self.nodes[own].most(), asked_number(words) or 0
        if why := unfit(int(words[2]), words[3]):
            return name == why
        just = {
            "Full": count >= self.group.cap,
            "Stale": 0 < asked <= count and self.was(own, asked, " ".join(words[2:])) is not True,
            "Gap": asked > node.least() + 1,
        }
        return just.get(name, False)

    def is_just_decide(self, own: int, name: str, words: list[str]) -> bool:
        """The same of a proposal: where one was made before, that had another value."""
        number, value = int(words[2]), int(words[3])
        if name == "AlreadyProposed":
            self.proposals[number, own].discard(value)
            return self.nodes[own].proposed.get(number) != value and bool(self.proposals[number, own])
        return name == "NoSuchCommit" and number >= self.group.commits

    def is_just_ask(self, own: int, name: str, words: list[str]) -> bool:
        """The same of a question."""
        node, (words, after) = self.nodes[own], apart(words)
        is_seen = not node.exact or not after or has_update(node.view, after)
        return name == "NoSuchObject" and int(words[2]) not in TAKES and words[3] != "updates" and is_seen

    def is_just_update(self, *_: object) -> bool:
        return False

    is_just_status = is_just_update

    def note_answered(self, own: int, number: str, text: str, *_: str) -> None:
        node, (words, after) = self.nodes[own], apart(self.answered_line(own, "ask"))
        asked = " ".join(words[2:])
        if words[2] != number:
            self.fault("answers", own, f"{asked}: of object {number}")
        if after and node.exact and not has_update(node.view, after):
            self.fault("waiting", own, f"{asked} at {after} over {node.view}: {text}")
        if node.exact and text != answer(int(words[2]), words[3:], self.found(node.view, words[2])):
            self.fault("value", own, f"{asked} over {node.view}: {text}")
        if self.last:
            self.answers[own, asked].add(text)

    def note_update(self, own: int, update: str, replica: str, number: str, text: str, *_: str) -> None:
        """An update is told, as the view has it."""
        node, words = self.nodes[own], self.answered_line(own, "update")
        if words[2] != update or node.exact and not has_update(node.view, update):
            self.fault("told", own, f"{' '.join(words)} over {node.view}: {update} {text}")
        self.content(0, (int(replica), int(number), text))

    def note_waiting(self, own: int, update: str, *_: str) -> None:
        node = self.nodes[own]
        if node.awaited and node.awaited[0][1][0] == "update":
            words = self.answered_line(own, "update")
            after = words[2]
        else:
            words, after = apart(self.answered_line(own, "ask"))
        if after != update or has_update(node.view, after):
            self.fault("waiting", own, f"{' '.join(words)} at {after or 'nothing'} over {node.view}: for {update}")

    def found(self, view: Counts, number: str) -> list[Named]:
        """The updates of an object in a view."""
        ids = [(replica, at) for replica, count in enumerate(view) for at in range(1, count + 1)]
        named = [(it, self.contents.get((0, *it), "0 mark").split(" ")) for it in ids]
        return [(it, op) for it, (owner, *op) in named if owner == number]

    # What takes an element out

    def remove_of(self, content: str, view: Counts) -> str:
        """What a take does over a view."""
        number, _, element = content.split(" ")
        return " ".join([number, "remove", *tags_of(self.found(view, number), int(element))])

    def is_of(self, content: str, text: str, view: Counts) -> bool:
        """Whether an update may be what these words submitted: a take names what a view has that puts its element."""
        if not is_take(content):
            return content == text
        number, _, element = content.split(" ")
        owner, word, *tags = text.split(" ")
        puts = {f"{replica}.{at}" for (replica, at), op in self.found(view, number) if op == ["put", element]}
        return (owner, word) == (number, "remove") and puts.issuperset(tags)

    def was(self, own: int, number: int, content: str) -> bool | None:
        """Whether a node's submission under a number is what these words submit; nothing, where that is not known."""
        node, text = self.nodes[own], self.contents.get((0, own, number))
        if text is None:
            return True if node.submitted.get(number) == content else None
        return self.is_of(content, text, node.view) or (None if is_take(content) and not node.exact else False)

    # How a node stands

    def note_status(self, own: int, *values: str) -> None:
        node, it = self.nodes[own], read_standing(values)
        line = node.awaited[0][0] if node.awaited else 0
        self.answered_line(own, "status")
        self.progress(own, it.has, it.view)
        came = Counter(verb for at, verb in node.came if at <= line)
        last = max((ballot for replica, instance, ballot in self.offered if (replica, instance) == (own, 0)), default=0)
        offered = self.offered.get((own, 0, it.ballot), NOTHING)[own]
        for what, is_so in {
            "submitted": node.least() <= it.submitted <= node.most(),
            "ballot": it.ballot >= max(last, 1) if it.is_open else it.ballot == it.waiting == 0,
            "waiting": it.waiting <= it.submitted and offered in (0, it.submitted - it.waiting),
            "peer": self.are_known(own, it),
            "in": all(it.received[verb] == came[verb] for verb in FORMS),
            "out": all(it.sent[verb] == node.sent[verb] for verb in FORMS),
            "refused": it.refused == node.refused,
            "written, syncs": within(node.journal, it.journal) and (it.journal[0] > 0) == (it.journal[1] > 0),
        }.items():
            if not is_so:
                self.fault("stands", own, f"{what}: {it}")
        node.counted, node.journal = it.submitted, it.journal
        node.lost.clear()
        node.lost_numbers = {number for number in node.lost_numbers if number <= it.submitted}

    def are_known(self, own: int, it: Standing) -> bool:
        """Whether of all others just so much is known as the node was told, and so much unheard as it wrote since."""
        others = [peer for peer in range(self.group.replicas) if peer != own]
        return list(it.peers) == others and self.nodes[own].hearing.stands(it.peers)

    # What a node learns

    def note_learnt(self, own: int, instance: str, ballot: str, counts: str, *_: str) -> None:
        self.learn(own, int(instance), int(ballot), read_counts(counts))
        key = own, int(instance)
        before = self.last_learnt.get(key, (0, NOTHING))
        if int(ballot) <= before[0] or not within(before[1], read_counts(counts)):
            self.fault("grows", own, f"instance {instance}: ballot {ballot} {counts} after {before}")
        self.last_learnt[key] = int(ballot), read_counts(counts)
        yeses = self.yeses[own, int(instance), int(ballot)]
        if 2 * sum(self.group.votes[it] for it in yeses) <= sum(self.group.votes):
            self.fault("majority", own, f"instance {instance}, ballot {ballot}: by {sorted(yeses)} alone")
        if instance == "0":
            self.nodes[own].untold = set(range(self.group.replicas)) - {own}
            self.nodes[own].hearing.learnt(own, int(ballot), self.nodes[own].far())

    def learn(self, own: int, instance: int, ballot: int, counts: Counts) -> None:
        """Notes a set that this replica has learnt, as it says itself or by a tell."""
        key = own, instance, ballot
        if self.learnt.setdefault(key, counts) != counts:
            self.fault("learnt", own, f"{key}: {counts}, and {self.learnt[key]} before")
        if self.offered.get(key, counts) != counts:
            self.fault("learnt", own, f"{key}: {counts}, and {self.offered[key]} was offered")

    def note_view(self, own: int, counts: str, *_: str) -> None:
        node, view = self.nodes[own], read_counts(counts)
        if view == node.view or not within(node.view, view):
            self.fault("views", own, f"{view} after {node.view}")
        if view not in {found for (_, instance, _), found in self.learnt.items() if instance == 0}:
            self.fault("views", own, f"{view} was learnt by nobody")
        node.view, node.exact = view, True

    def note_outcome(self, own: int, number: str, word: str, value: str) -> None:
        outcome = word, int(value)
        if self.outcomes.setdefault((int(number), own), outcome) != outcome:
            self.fault("outcomes", own, f"object {number}: {outcome} after {self.outcomes[int(number), own]}")
        if int(value) not in self.values(int(number)):
            self.fault("outcomes", own, f"object {number}: {value} was not proposed")

    def values(self, number: int) -> set[int]:
        """What may have been proposed to an object."""
        return set().union(*(values for (at, _), values in self.proposals.items() if at == number))

    # What a node sends

    def message(self, own: int, it: Message) -> None:
        wrong = it.group != self.group.replicas or it.sender != own or it.to >= it.group
        wrong = wrong or it.instance > 2 * self.group.commits or it.verb == "tell" and it.instance > 0
        wrong = wrong or it.verb != "known" and it.ballot == 0 or any(it.has[it.group :] + it.view[it.group :])
        wrong = wrong or any(it.offer[it.group :] + it.tell[it.group :])
        if wrong or any(it.counts[it.group :]):
            raise Malformed("not a message of this node")
        self.nodes[own].sent[it.verb] += 1
        before = self.nodes[own].far()
        self.progress(own, it.has, it.view, it.verb in ("yes", "no") and it.instance == 0)
        for update in it.updates:
            self.content(it.instance, update)
        if it.verb == "known":
            if not self.nodes[own].hearing.answered(it):
                self.fault("known", own, f"an answer to no message of {it.to} over offer {it.offer}, tell {it.tell}")
        elif it.verb == "tell":
            self.tell(own, it)
        elif it.verb == "offer":
            self.offer(own, it)
        else:
            self.reply(own, it, before)

    def progress(self, own: int, has: Counts, view: Counts, is_reply: bool = False) -> None:
        """How far a node says that it is: it never shrinks, and is what it has said of its steps before."""
        node = self.nodes[own]
        node.hearing.said(Far(has, view))
        if not within(node.has, has) or node.firm and not is_reply and has != node.has:
            self.fault("progress", own, f"has {has} after {node.has}")
        if not within(node.view, view) or node.exact and view != node.view:
            self.fault("progress", own, f"view {view} after {node.view}")
        node.has, node.view = larger(node.has, has), larger(node.view, view)
        node.firm = node.exact = True

    def tell(self, own: int, it: Message) -> None:
        """A tell goes over what its receiver's view is believed to have: to each other once, and then where a tick or a
        lack asks for it."""
        self.learn(own, 0, it.ballot, it.counts)
        self.wrote(own, it, it.to in self.nodes[own].untold)
        self.nodes[own].untold.discard(it.to)

    def offer(self, own: int, it: Message) -> None:
        """An offer goes over what its receiver has said that it has accepted; or in instance 0 over what that is believed
        to have."""
        before = self.offered.setdefault((own, it.instance, it.ballot), it.counts)
        if before != it.counts:
            self.fault("ballots", own, f"instance {it.instance}, ballot {it.ballot}: {before} and {it.counts}")
        if it.instance == 0:
            return self.wrote(own, it, False)
        may = self.accepted.get((it.to, it.instance), NOTHING)
        if not within(it.base, may):
            self.fault("base", own, f"an offer in instance {it.instance} to {it.to} over {it.base}, which has {may}")

    def wrote(self, own: int, it: Message, is_first: bool) -> None:
        """A letter of instance 0 is told over what its receiver is believed to have."""
        rule, _, what = self.nodes[own].hearing.wrote(it, is_first).partition(": ")
        if rule:
            self.fault(rule, own, what)

    def reply(self, own: int, it: Message, then: Far | None) -> None:
        """An acceptor's reply, of a node that was so far then; what it has accepted only grows."""
        offered = self.offered.get((it.to, it.instance, it.ballot))
        if offered is None:
            return self.fault("replies", own, f"to no offer: {it}")
        if not self.nodes[own].hearing.replied(it, then, Far(it.has, it.view)):
            self.fault("replies", own, f"to no offer that it was given over what it had: {it}")
        before = self.accepted.get((own, it.instance), NOTHING)
        now = offered if it.verb == "yes" else it.counts
        if not within(before, now):
            self.fault("accepted", own, f"instance {it.instance}: {it.verb} to {now} after {before}")
        if it.instance == 0 and now != it.has:
            self.fault("progress", own, f"has {it.has} at {it.verb} to {now}")
        if it.verb == "yes":
            self.yeses[it.to, it.instance, it.ballot].add(own)
        elif not within(offered, now) or now == offered:
            self.fault("replies", own, f"no to {offered} with {now}")
        elif it.base != offered:
            self.fault("base", own, f"a no to {offered} over {it.base}")
        self.accepted[own, it.instance] = now

    def content(self, instance: int, update: tuple[int, int, str]) -> None:
        replica, number, text = update
        known = self.contents.setdefault((instance, replica, number), text)
        if instance == 0:
            self.views.setdefault((replica, number), self.nodes[replica].view)
        if known != text:
            self.fault("content", replica, f"instance {instance}, {replica}.{number}: {text}, and {known} before")

    # At the end

    def end(self) -> None:
        """Checks what can be said only of a whole run."""
        self.chains()
        self.submissions()
        self.agreement()
        for asked in sorted({asked for _, asked in self.answers}):
            texts = [self.answers.get((own, asked), {"nothing"}) for own in range(self.group.replicas)]
            if len(set.union(*texts)) != 1:
                self.fault("alike", 0, f"{asked}: {texts}")

    def chains(self) -> None:
        """All sets of one instance are comparable, each is of what was submitted, and all views are equal."""
        for instance in range(2 * self.group.commits + 1):
            found = {counts for (_, at, _), counts in self.learnt.items() if at == instance}
            chain = sorted(found, key=lambda counts: (sum(counts), counts))
            for less, more in zip(chain, chain[1:]):
                if not within(less, more):
                    self.fault("comparable", 0, f"instance {instance}: {less} and {more}")
        if len({node.view for node in self.nodes}) != 1:
            self.fault("views", 0, f"they differ at the end: {[node.view for node in self.nodes]}")

    def submissions(self) -> None:
        """What was answered is in the views, and what is in a set was submitted."""
        for own, node in enumerate(self.nodes):
            missing = [it for it in node.submitted for seen in self.nodes if it > seen.view[own]]
            if missing:
                self.fault("lost", own, f"the submissions {sorted(set(missing))} are not in all views")
        for (instance, replica, number), text in self.contents.items():
            if instance == 0:
                node, view = self.nodes[replica], self.views[replica, number]
                asked = [node.submitted[number]] if number in node.submitted else node.ever_lost
                just = any(self.is_of(it, text, view) for it in asked)
            else:
                _, verb, value = text.split(" ")
                just = number == 1 and int(value) in self.proposals[(instance - 1) // 2, replica]
                just = just and verb in ("vote", "sole")[: 2 - instance % 2]
            if not just:
                self.fault("made up", replica, f"instance {instance}, {replica}.{number} {text}")

    def agreement(self) -> None:
        """A committed value is that of all outcomes, and where all proposed one value each outcome commits."""
        for number in range(self.group.commits):
            found = {own: outcome for (at, own), outcome in self.outcomes.items() if at == number}
            committed = any(word == "commit" for word, _ in found.values())
            if committed and len({value for _, value in found.values()}) > 1:
                self.fault("outcomes", 0, f"object {number}: {found}")
            if len(self.values(number)) == 1 and any(word == "adopt" for word, _ in found.values()):
                self.fault("outcomes", 0, f"object {number}: one value, and {found}")
            for own, node in enumerate(self.nodes):
                if number in node.proposed and own not in found and not node.kills_since[number]:
                    self.fault("outcomes", own, f"object {number}: none came")


def faults_of(group: Group, log: list[Entry]) -> list[str]:
    """What is wrong with what a log says."""
    checker = Checker(group)
    for entry in log:
        checker.take(entry)
    checker.end()
    return checker.faults
