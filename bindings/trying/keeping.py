"""What a program writes of a node with a journal, and what that node does not tell before."""
from __future__ import annotations

from dataclasses import replace

from . import files
from .drawing import Draw
from .groups import Member, require
from .journals import Journal, Kept, Taken
from .playing import UNTOUCHED, Answer, Arguments, Wrong
from .reading import Fault, Update, read, update_in
from .rules import BLANK, NAMES, expect, rule

# What is told only where all is kept, and what takes in before what the node sends to itself.
READING = {
    "outcome", "next_mail", "next_learnt", "view", "known", "submitted", "total", "at_least", "largest", "has", "size",
    "items",
}
# More than any sequence here leads to.
MAX_RECORD = 1 << 26


def is_withheld(member: Member, name: str, answer: Answer) -> bool:
    """Whether a question is refused, exactly where something was taken that is not on the disk."""
    journal = member.journal
    if journal is None or name not in READING:
        return False
    if name == "next_mail":
        member.may_have_grown = journal.may_have_own = True
    kept = journal.is_kept()
    if NAMES.get(answer.result) == "UNKEPT":
        require(kept is not True, "an answer: all is kept")
        expect(answer, "UNKEPT", *BLANK[name])
        journal.has_some = journal.has_some or kept is None
        return True
    require(kept is not False, "UNKEPT, not {}", NAMES.get(answer.result, answer.result))
    journal.all_is_kept()
    return False


def draw_record_room(draw: Draw, member: Member) -> Arguments:
    """Room for a record: mostly enough, where a length is known often that, or one less."""
    length = member.journal.length if member.journal else None
    if length is not None and draw.chance(80):
        return (max(length - draw.one_of([0, 0, 0, 1]), 0),)
    return (draw.one_of([0, 1, 1000, 1 << 16]),)


@rule("next_record", 12, draw_record_room)
def next_record(member: Member, arguments: Arguments, answer: Answer) -> None:
    (room,) = arguments
    assert isinstance(room, int)
    journal, (record, length) = member.journal, answer.outs
    assert isinstance(record, bytes) and isinstance(length, int)
    member.may_have_grown = True
    if journal is None:
        expect(answer, "NONE", b"", UNTOUCHED["usize"])
        return
    journal.may_have_own = True
    if NAMES.get(answer.result) == "NONE":
        require(journal.is_kept() is not False, "a record: not all is kept")
        journal.all_is_kept()
        expect(answer, "NONE", b"", UNTOUCHED["usize"])
        return
    wanted = length if journal.length is None else journal.length
    require(1 <= wanted <= MAX_RECORD, "a record of at most {} bytes, or none, not one of {}", MAX_RECORD, wanted)
    journal.make(wanted)
    if wanted > room:
        expect(answer, "SMALL", b"", wanted)
        return
    expect(answer, "OK", journal.record if journal.record is not None else record, wanted)
    require(len(record) == wanted, "{} bytes of a record: {!r}", wanted, record)
    if journal.record is None:
        check_record(member, journal, record)
    journal.record, journal.is_handed = record, True


@rule("synced", 9, lambda _draw, _member: ())
def synced(member: Member, _arguments: Arguments, answer: Answer) -> None:
    journal = member.journal
    if journal is None or not journal.is_handed:
        expect(answer, "NONE")
    else:
        expect(answer, "OK")
        journal.synced()


def check_record(member: Member, journal: Journal, record: bytes) -> None:
    """A record is that of the lines of what was taken, behind what is on the disk."""
    group = record[: -len(files.last_line(record)) - 1]
    require(record == files.with_record(files.last_line(journal.disk), group), "a group and its record: {!r}", record)
    require(bool(group), "lines in a record: {!r}", record)
    waiting = list(journal.made)
    for line in group.split(b"\n")[:-1]:
        if not is_to_itself(member, line):
            take_up_to(member, journal, waiting, line)
    require(not any(it.is_sure for it in waiting), "a record with all that was taken, also {}", waiting)
    journal.made.clear()


def is_to_itself(member: Member, line: bytes) -> bool:
    """Whether a line is a message of the node to itself."""
    try:
        message = read(line)
    except Fault:
        return False
    return message.sender == member.own == message.to and message.verb != "known"


def take_up_to(member: Member, journal: Journal, waiting: list[Taken], line: bytes) -> None:
    """Finds a line of a record among what was taken and waits, and drops that, and the messages before it."""
    while waiting:
        taken = waiting.pop(0)
        if says(member, taken, line):
            journal.kept_then = with_taken(journal.kept_then, taken)
            return
        require(not taken.is_sure, "{} before the line {!r}", taken, line)
    raise Wrong(f"expected a record of what was taken, and not the line {line!r}")


def with_taken(kept: Kept, taken: Taken) -> Kept:
    if taken.number:
        return Kept(taken.number, kept.commits)
    words = taken.line.split(b" ")
    return Kept(kept.submissions, kept.commits | {int(words[2])}) if words[0] == b"decide" else kept


def says(member: Member, taken: Taken, line: bytes) -> bool:
    """Whether a line is the one of what was taken. Of a removal that was submitted while the view was not told it says
    what was taken out."""
    if not taken.number:
        return line == taken.line
    keyword, _, rest = line.partition(b" ")
    replica, _, rest = rest.partition(b" ")
    if keyword != b"submit" or replica != b"%d" % member.own:
        return False
    said = update_in(b"%d.%d %s" % (member.own, taken.number, rest))
    update = member.submissions[taken.number - 1]
    if taken.number in member.unseen_removals:
        check_removal(member, said, member.unseen_removals.pop(taken.number))
        update = member.submissions[taken.number - 1] = replace(update, tags=said.tags)
    return said == update


def check_removal(member: Member, said: Update, element: int) -> None:
    """A removal takes out puts of an element that were submitted."""
    if not member.group.honest:
        return
    for replica, number in said.tags:
        there = replica < len(member.group.updates) and 1 <= number <= len(member.group.updates[replica])
        put = member.group.updates[replica][number - 1] if there else None
        is_put = put is not None and (put.object, put.verb, put.value) == (said.object, "put", element)
        require(is_put, "puts of {}, not {}.{}", element, replica, number)
