"""What objects are asked, and what a node says of itself."""
from __future__ import annotations

from .drawing import Draw
from .groups import Member, require
from .objects import Object
from .owing import is_within
from .playing import UNTOUCHED, Answer, Arguments
from .reading import NOTHING, U64
from .rules import expect, expect_one, rule

COUNTER, MAX_REGISTER, OR_SET = range(3)


@rule("add", 3, lambda draw, _: (draw.object(), draw.object_kind()))
def add(member: Member, arguments: Arguments, answer: Answer) -> None:
    place, kind = arguments
    assert isinstance(place, int) and isinstance(kind, int)
    if kind > OR_SET:
        expect(answer, "BAD_KIND")
    elif place in member.kinds:
        expect(answer, "TAKEN")
    else:
        expect(answer, "OK")
        member.kinds[place] = kind


def refused(member: Member, place: object, kind: int) -> str:
    """Why a question for a kind of object is refused: "" where it is not."""
    assert isinstance(place, int)
    if place not in member.kinds:
        return "NO_OBJECT"
    return "" if member.kinds[place] == kind else "FOREIGN"


def asked(member: Member, place: object, kind: int) -> Object | None:
    """The object that answers by what is known: none, where the updates in the view are not."""
    assert isinstance(place, int)
    return member.object(place) if member.group.honest and not refused(member, place, kind) else None


def judge_question(member: Member, place: object, kind: int, base: str, answer: Answer, value: object) -> None:
    """One result, which a refusal leaves as it was. Where the value is none, it may be any."""
    status = refused(member, place, kind) or "OK"
    any_value = status == "OK" and not member.group.honest
    expect_one(answer, status, base, answer.outs[0] if any_value else value)


@rule("total", 6, lambda draw, _: (draw.object(),))
def total(member: Member, arguments: Arguments, answer: Answer) -> None:
    found = asked(member, arguments[0], COUNTER)
    judge_question(member, arguments[0], COUNTER, "i64", answer, found.total if found else None)


def draw_bound(draw: Draw, member: Member) -> Arguments:
    """A bound for a counter, often one near its total."""
    place = draw.object()
    near = member.object(place).total + draw.one_of([-1, 0, 1]) if member.group.honest else 0
    return place, min(max(near, 0), U64) if draw.chance(60) else draw.value()


@rule("at_least", 3, draw_bound)
def at_least(member: Member, arguments: Arguments, answer: Answer) -> None:
    place, bound = arguments
    found = asked(member, place, COUNTER)
    assert isinstance(bound, int)
    judge_question(member, place, COUNTER, "u8", answer, int(found.total >= bound) if found else None)


@rule("largest", 4, lambda draw, _: (draw.object(),))
def largest(member: Member, arguments: Arguments, answer: Answer) -> None:
    found = asked(member, arguments[0], MAX_REGISTER)
    judge_question(member, arguments[0], MAX_REGISTER, "u64", answer, found.largest if found else None)


@rule("has", 4, lambda draw, _: (draw.object(), draw.element()))
def has(member: Member, arguments: Arguments, answer: Answer) -> None:
    place, element = arguments
    found = asked(member, place, OR_SET)
    judge_question(member, place, OR_SET, "u8", answer, int(element in found.puts) if found else None)


@rule("size", 3, lambda draw, _: (draw.object(),))
def size(member: Member, arguments: Arguments, answer: Answer) -> None:
    found = asked(member, arguments[0], OR_SET)
    judge_question(member, arguments[0], OR_SET, "u64", answer, len(found.puts) if found else None)


@rule("items", 5, lambda draw, _: (draw.object(), draw.items_room()))
def items(member: Member, arguments: Arguments, answer: Answer) -> None:
    place, room = arguments
    assert isinstance(room, int)
    status = refused(member, place, OR_SET)
    if status:
        expect(answer, status, (), UNTOUCHED["usize"])
        return
    found = asked(member, place, OR_SET)
    if found is None:
        _, count = answer.outs
        assert isinstance(count, int)
        status = "SMALL" if count > room else "OK"
        expect(answer, status, *answer.outs)
        return
    elements = found.items()
    small = len(elements) > room
    expect(answer, "SMALL" if small else "OK", () if small else elements, len(elements))


@rule("view", 3, lambda _draw, _member: ())
def view(member: Member, _arguments: Arguments, answer: Answer) -> None:
    counts = answer.outs[0]
    assert isinstance(counts, tuple)
    if member.may_have_grown:
        member.may_have_grown = False
        member.sees(counts)
        require(is_within(member.said_view, counts), "a view that has what its lines say: {}", member.said_view)
    expect(answer, "OK", member.view)


@rule("known", 3, lambda draw, _: (draw.replica(),))
def known(member: Member, arguments: Arguments, answer: Answer) -> None:
    (replica,) = arguments
    assert isinstance(replica, int)
    counts = answer.outs[0]
    assert isinstance(counts, tuple)
    if replica != member.own:
        expect(answer, "OK", member.heard[replica] if replica < 8 else NOTHING)
    elif member.group.honest:
        # What it has told itself is not seen from outside.
        view = member.group.counts() if member.may_have_grown else member.view
        within = all(x <= y <= z for x, y, z in zip(member.heard[replica], counts, view))
        expect(answer, "OK", counts if within else member.view)
        member.heard[replica] = counts


@rule("submitted", 3, lambda _draw, _member: ())
def submitted(member: Member, _arguments: Arguments, answer: Answer) -> None:
    expect(answer, "OK", len(member.submissions))
