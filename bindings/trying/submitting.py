"""What a node submits and proposes."""
from __future__ import annotations

from dataclasses import replace

from .drawing import Draw
from .groups import Member
from .journals import Taken
from .playing import UNTOUCHED, Answer, Arguments
from .reading import MAX_OWN, MAX_TAGS, U32, Update
from .rules import NAMES, expect, expect_one, rule

# By the numbers of the kinds that may be submitted under a number.
VERBS = {1: "inc", 2: "dec", 3: "raise", 4: "put", 6: "mark", 8: "own"}
KINDS = {verb: kind for kind, verb in VERBS.items()} | {"remove": 5}


def submit(member: Member, update: Update) -> None:
    """Takes note of a submission, which has the next number."""
    made = replace(update, replica=member.own, number=len(member.submissions) + 1)
    member.submissions.append(made)
    member.takes(Taken(number=made.number))


def judge_submission(member: Member, update: Update, answer: Answer) -> None:
    """A submission that only the cap refuses."""
    if member.is_full():
        expect_one(answer, "FULL", "u32", 0)
        return
    submit(member, update)
    expect_one(answer, "OK", "u32", len(member.submissions))


def operation(place: object, verb: str, value: object = 0, own: object = b"") -> Update:
    assert isinstance(place, int) and isinstance(value, int) and isinstance(own, bytes)
    return Update(0, 0, place, verb, value, own)


@rule("inc", 8, lambda draw, _: (draw.object(), draw.amount()))
def inc(member: Member, arguments: Arguments, answer: Answer) -> None:
    judge_submission(member, operation(arguments[0], "inc", arguments[1]), answer)


@rule("dec", 4, lambda draw, _: (draw.object(), draw.amount()))
def dec(member: Member, arguments: Arguments, answer: Answer) -> None:
    judge_submission(member, operation(arguments[0], "dec", arguments[1]), answer)


@rule("raise", 4, lambda draw, _: (draw.object(), draw.value()))
def raise_to(member: Member, arguments: Arguments, answer: Answer) -> None:
    judge_submission(member, operation(arguments[0], "raise", arguments[1]), answer)


@rule("put", 10, lambda draw, _: (draw.object(), draw.element()))
def put(member: Member, arguments: Arguments, answer: Answer) -> None:
    judge_submission(member, operation(arguments[0], "put", arguments[1]), answer)


@rule("mark", 3, lambda draw, _: (draw.object(),))
def mark(member: Member, arguments: Arguments, answer: Answer) -> None:
    judge_submission(member, operation(arguments[0], "mark"), answer)


@rule("own", 4, lambda draw, _: (draw.object(), draw.own_bytes()))
def own(member: Member, arguments: Arguments, answer: Answer) -> None:
    made = operation(arguments[0], "own", own=arguments[1])
    if len(made.own) > MAX_OWN:
        expect_one(answer, "TOO_LARGE", "u32", 0)
    else:
        judge_submission(member, made, answer)


def draw_removal(draw: Draw, member: Member) -> Arguments:
    """What to take out of a set, often something that is there."""
    place = draw.object()
    there = member.object(place).items() if member.group.honest else ()
    return place, draw.one_of(there) if there and draw.chance(60) else draw.element()


@rule("remove", 8, draw_removal)
def remove(member: Member, arguments: Arguments, answer: Answer) -> None:
    place, element = arguments
    assert isinstance(place, int) and isinstance(element, int)
    if place not in member.kinds:
        expect_one(answer, "NO_OBJECT", "u32", 0)
        return
    is_set = member.kinds[place] == 2
    unknown = is_set and (member.may_have_grown or not member.group.honest)
    tags = member.object(place).tags(element) if is_set and not unknown else frozenset()
    if len(tags) > MAX_TAGS or (unknown and NAMES.get(answer.result) == "TOO_MANY_TAGS"):
        expect_one(answer, "TOO_MANY_TAGS", "u32", 0)
        return
    if unknown and member.journal and not member.is_full():
        member.unseen_removals[len(member.submissions) + 1] = element
    judge_submission(member, Update(0, 0, place, "remove", tags=tags), answer)


def draw_numbered(draw: Draw, member: Member) -> Arguments:
    """A submission under a number: the next, one that is used, with what it has or with something else, or any."""
    made = member.submissions
    if made and draw.chance(40):
        told = draw.one_of(made)
        if told.verb in KINDS and draw.chance(70):
            return told.number, told.object, KINDS[told.verb], told.value, told.own
        return told.number, draw.object(), draw.update_kind(), draw.value(), draw.own_bytes()
    number = len(made) + 1 if draw.chance(80) else draw.one_of([0, len(made) + 2, U32, draw.small()])
    return number, draw.object(), draw.update_kind(), draw.value(), draw.own_bytes()


def numbered(place: object, kind: object, value: object, own: object) -> Update | str:
    """The operation, or the status with which it is refused as it stands."""
    assert isinstance(kind, int) and isinstance(value, int) and isinstance(own, bytes)
    verb = VERBS.get(kind)
    if verb is None:
        return "BAD_KIND"
    if (verb in ("inc", "dec") and value > U32) or (verb == "own" and len(own) > MAX_OWN):
        return "TOO_LARGE"
    if verb == "own":
        return operation(place, verb, own=own)
    return operation(place, verb, value if verb != "mark" else 0)


@rule("submit_at", 10, draw_numbered)
def submit_at(member: Member, arguments: Arguments, answer: Answer) -> None:
    number, *told = arguments
    assert isinstance(number, int)
    made = numbered(*told)
    if isinstance(made, str):
        expect(answer, made)
    elif number == len(member.submissions) + 1:
        expect(answer, "FULL" if member.is_full() else "OK")
        if not member.is_full():
            submit(member, made)
    elif 1 <= number <= len(member.submissions):
        had = member.submissions[number - 1]
        same = replace(made, replica=had.replica, number=number) == had
        expect(answer, "OK" if same else "STALE")
    else:
        expect(answer, "AHEAD")


@rule("propose", 3, lambda draw, member: (draw.commit(member), draw.proposal()))
def propose(member: Member, arguments: Arguments, answer: Answer) -> None:
    commit, value = arguments
    assert isinstance(commit, int) and isinstance(value, int)
    if commit >= member.group.config.commits:
        expect(answer, "NO_COMMIT")
    elif member.own in member.group.proposals.get(commit, {}):
        expect(answer, "ALREADY_PROPOSED")
    else:
        expect(answer, "OK")
        member.group.proposals.setdefault(commit, {})[member.own] = value
        member.takes(Taken(b"decide %d %d %d" % (member.own, commit, value)))


@rule("outcome", 4, lambda draw, member: (draw.commit(member),))
def outcome(member: Member, arguments: Arguments, answer: Answer) -> None:
    (commit,) = arguments
    assert isinstance(commit, int)
    returned = member.group.outcomes.setdefault(commit, {})
    if member.own in returned:
        expect(answer, "OK", *returned[member.own])
    elif member.own not in member.group.proposals.get(commit, {}) or answer.result != 0:
        expect(answer, "NONE", UNTOUCHED["u64"], UNTOUCHED["u8"])
    else:
        value, committed = answer.outs
        assert isinstance(value, int) and isinstance(committed, int)
        expect(answer, "OK", value, 1 if committed else 0)
        returned[member.own] = (value, committed)
        member.group.check_outcomes(commit)
