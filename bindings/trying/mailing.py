"""What a node sends and takes, and what it hands out."""
from __future__ import annotations

from .damage import draw_line
from .drawing import Draw
from .groups import Member, require
from .journals import Taken
from .owing import is_within, larger
from .playing import UNTOUCHED, Answer, Arguments, Wrong
from .reading import MAX_OWN, MAX_SET_LINE, REPLICAS, VOTES, Counts, Fault, Message, Update, read
from .rules import NAMES, expect, rule
from .submitting import KINDS


@rule("again", 2, lambda _draw, _member: ())
def again(_member: Member, _arguments: Arguments, answer: Answer) -> None:
    expect(answer, "OK")


@rule("receive", 40, lambda draw, member: (draw_line(draw, member),))
def receive(member: Member, arguments: Arguments, answer: Answer) -> None:
    (line,) = arguments
    assert isinstance(line, bytes)
    wanted = member.statuses(line)
    if NAMES.get(answer.result) not in wanted:
        raise Wrong(f"expected {' or '.join(sorted(wanted))}, not {NAMES.get(answer.result, answer.result)}")
    if answer.result == 0:
        take(member, line, read(line))


def take(member: Member, line: bytes, message: Message) -> None:
    """Takes note of a message that was taken: how far its sender is, and what answer it is owed."""
    if (member.own, line) not in member.group.sent:
        member.group.honest = False
    if message.verb != "known" and not member.is_idle(message):
        # An honest tell of what the view does not have makes it grow.
        is_told = message.verb == "tell" and not member.may_be_idle(message)
        member.takes(Taken(line, is_sure=is_told and member.group.honest))
    member.owing.take(message, member.own, *member.far())
    if message.instance == 0 and not member.is_idle(message):
        member.told = larger(member.told, counts_of(message))
    if message.sender < len(member.heard):
        member.heard[message.sender] = message.view
    member.may_have_grown = True


def counts_of(message: Message) -> Counts:
    """How many updates of each replica a message has at most."""
    numbers = [[it.number for it in message.updates if it.replica == replica] for replica in range(REPLICAS)]
    return tuple(max([base, *found]) for base, found in zip(message.base, numbers))


def draw_room(draw: Draw, member: Member) -> Arguments:
    """Room for a line: mostly enough, where a length was told often that, or one less."""
    if member.next_length is not None and draw.chance(80):
        return (max(member.next_length - draw.one_of([0, 0, 0, 1]), 0),)
    return (1024 if draw.chance(90) else draw.small(),)


@rule("next_mail", 40, draw_room)
def next_mail(member: Member, arguments: Arguments, answer: Answer) -> None:
    (room,) = arguments
    assert isinstance(room, int)
    member.may_have_grown = True
    to, line, length = answer.outs
    assert isinstance(to, int) and isinstance(line, bytes) and isinstance(length, int)
    if NAMES.get(answer.result) == "NONE" and member.next_length is None:
        expect(answer, "NONE", UNTOUCHED["u8"], b"", UNTOUCHED["usize"])
        owed = member.owing.end()
        require(not owed, "a line for each answer that is owed: to {}", owed)
        return
    wanted = length if member.next_length is None else member.next_length
    require(wanted <= MAX_SET_LINE, "a line of at most {} bytes, or none, not one of {}", MAX_SET_LINE, wanted)
    if wanted > room:
        member.next_length = wanted
        expect(answer, "SMALL", UNTOUCHED["u8"], b"", wanted)
        return
    member.next_length = None
    expect(answer, "OK", to, line, wanted)
    require(len(line) == wanted, "{} bytes of a line: {!r}", wanted, line)
    check_line(member, to, line)
    deliver(member, to, line)


def deliver(member: Member, to: int, line: bytes) -> None:
    """Puts a line on its way, of which some may be lost."""
    group = member.group
    group.sent.add((to, line))
    if to < group.config.replicas and to != member.own and not group.members[to].is_gone:
        inbox = group.members[to].inbox
        inbox.append(line)
        if len(inbox) > 200:
            del inbox[0]


def check_line(member: Member, to: int, line: bytes) -> None:
    """A line is a message of this node to another, and says nothing that was not submitted or proposed."""
    try:
        message = read(line)
    except Fault as fault:
        raise Wrong(f"expected the line of a message, not one that is {fault}: {line!r}") from fault
    said = (message.group, message.sender, message.to)
    require(said == (member.group.config.replicas, member.own, to), "the group, {} and {}: {!r}", member.own, to, line)
    check_progress(member, message)
    if message.verb == "known":
        require(member.owing.stands(message), "no `known` that is not owed: {!r}", line)
        return
    require(to < member.group.config.replicas and to != member.own, "a line for another node: {!r}", line)
    require(message.instance < member.group.instances, "an instance that there is: {!r}", line)
    check_kind(member, message, line)
    if member.group.honest:
        check_updates(member, message, line)


def check_progress(member: Member, message: Message) -> None:
    """How far a node says that it is only grows."""
    grows = is_within(member.said_has, message.has) and is_within(member.said_view, message.view)
    require(grows, "no less than {} and {}, not {}", member.said_has, member.said_view, message)
    member.said_has, member.said_view = message.has, message.view


def check_kind(member: Member, message: Message, line: bytes) -> None:
    """Each reply is owed; the ballots that are offered only grow; tells are of instance 0."""
    if message.verb in ("yes", "no"):
        require(member.owing.replies(message), "no reply that is not owed: {!r}", line)
    elif message.verb == "offer":
        last = member.ballots.get(message.instance, 1)
        require(message.ballot >= last, "a ballot from {} on: {!r}", last, line)
        member.ballots[message.instance] = message.ballot
    else:
        require(message.instance == 0, "no tell of an adopt-commit object: {!r}", line)


def check_updates(member: Member, message: Message, line: bytes) -> None:
    """What a line tells was submitted."""
    there = member.group.counts_in(message.instance)
    require(is_within(message.base, there), "a base within {}: {!r}", there, line)
    counts = list(message.base)
    for update in message.updates:
        replica = update.replica
        require(replica < REPLICAS, "an update of a replica of the group: {!r}", line)
        counts[replica] += 1
        require(update.number == counts[replica] <= there[replica], "an update that comes next: {!r}", line)
        require(is_submitted(member, message.instance, update), "updates as submitted, not {}: {!r}", update, line)


def is_submitted(member: Member, instance: int, update: Update) -> bool:
    """Whether an update was submitted so: in an adopt-commit object it is a vote for what was proposed."""
    if instance == 0:
        return update == member.group.updates[update.replica][update.number - 1]
    proposals = member.group.proposals.get((instance - 1) // 2, {})
    return update.verb in VOTES and proposals.get(update.replica) == update.value


def next_id(member: Member) -> tuple[int, int] | None:
    """The id of the update that comes next, of the first replica of which there are more."""
    for replica, (handed, seen) in enumerate(zip(member.handed, member.view)):
        if handed < seen:
            return replica, handed + 1
    return None


@rule("next_learnt", 16, lambda draw, _: (draw.one_of([248, 248, 248, 300, 0, draw.small()]),))
def next_learnt(member: Member, arguments: Arguments, answer: Answer) -> None:
    (room,) = arguments
    assert isinstance(room, int)
    learnt, own, length = answer.outs
    assert isinstance(learnt, tuple) and isinstance(own, bytes) and isinstance(length, int)
    untouched = tuple(UNTOUCHED[base] for base in ("u64", "u32", "u16", "u8", "u8"))
    comes = next_id(member)
    if comes is None:
        expect(answer, "NONE", untouched, b"", UNTOUCHED["usize"])
        return
    replica, number = comes
    if member.group.honest:
        update = member.group.updates[replica][number - 1]
        wanted = (told_value(update), number, update.object, replica, KINDS[update.verb])
        bytes_wanted = update.own
    else:
        wanted, bytes_wanted = (learnt[0], number, learnt[2], replica, learnt[4]), own
        if NAMES.get(answer.result) == "SMALL":
            require(length <= MAX_OWN, "at most {} bytes, not {}", MAX_OWN, length)
            bytes_wanted = bytes(length)
    if len(bytes_wanted) > room:
        expect(answer, "SMALL", untouched, b"", len(bytes_wanted))
        return
    expect(answer, "OK", wanted, bytes_wanted, len(bytes_wanted))
    member.handed[replica] = number


def told_value(update: Update) -> int:
    """The value that is told of an update: of a removal how many puts it takes out."""
    return len(update.tags) if update.verb == "remove" else update.value
