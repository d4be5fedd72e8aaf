"""What is written over an event: a few short lines of text, each in a class of the style."""
from __future__ import annotations

from oracle.report import (
    Ballot, Held, Learnt, No, Opened, Outcome, Refined, Refused, Replied, Took, UpdateSet, Yes, set_text,
)
from oracle.run import Kind, Message
from oracle.script import Ask, Decide, Submit

from .nodes import AnyMoment, Killed, Said, Started

# The width of a character of the picture's font, with a little to spare, and the height of a line.
CHARACTER = 6.7
LEADING = 13
# What a text that stands at the side keeps clear of it.
MARGIN = 12
# After so many characters a line is broken at a space.
LONGEST = 15

TextLine = tuple[str, str]
Caption = list[TextLine]


def width_of(text: str) -> float:
    """How wide a text is at most, in the font of the picture."""
    return CHARACTER * len(text)


def wrap(text: str, style: str, longest: int = LONGEST) -> Caption:
    """A text in lines of a bounded length, which are parted at spaces."""
    lines = [""]
    for word in text.split(" "):
        joined = f"{lines[-1]} {word}".lstrip()
        if len(joined) > longest and lines[-1]:
            lines.append(word)
        else:
            lines[-1] = joined
    return [(line, style) for line in lines]


def with_ballot(word: str, ballot: Ballot, style: str) -> Caption:
    """What became of a ballot: a word, its instance but 0, its number, and its set."""
    instance = f"i{ballot.instance} " if ballot.instance else ""
    return [(f"{word} {instance}b{ballot.number}", style), *wrap(set_text(ballot.updates), style)]


def said_caption(said: Said) -> Caption:
    """What a node said: its notes, which ballots it offers, and its other messages."""
    caption: Caption = []
    for note in said.notes:
        style = "strong" if note.learns() else "plain"
        caption += wrap(note.words, style) + (wrap(set_text(note.updates), style) if note.updates else [])
    caption += [(f"offers b{ballot}", "plain") for ballot in said.ballots()]
    return caption + [(str(message), "plain") for message in said.mail if message.kind is not Kind.OFFER]


def outcome_caption(outcome: Outcome | Said | None) -> Caption:
    """What an event did."""
    match outcome:
        case None:
            return []
        case Said():
            return said_caption(outcome)
        case Opened(ballot) | Refined(ballot):
            word = "opened" if isinstance(outcome, Opened) else "refined"
            return with_ballot(word, ballot, "plain")
        case Learnt(ballot, _, decision, following):
            decided = wrap(str(decision), "strong") if decision else []
            after = with_ballot("opened", following.ballot, "plain") if following else []
            return with_ballot("learnt", ballot, "strong") + decided + after
        case Yes(mail):
            return [(f"yes {mail}", "plain")]
        case No(updates, mail):
            return [(f"no {mail}", "plain"), *wrap(set_text(updates), "plain")]
        case Took(updates):
            return [("took", "plain"), *wrap(set_text(updates), "plain")]
        case Held() | Replied() | Refused():
            return wrap(str(outcome), "plain")
    return [(str(outcome), "plain")]


def short(operation: tuple[str, ...]) -> str:
    """An operation in short words."""
    is_long = operation[0] == "remove" and len(operation) > 3
    return f"remove {len(set(operation[1:]))} tags" if is_long else " ".join(operation)


def event_caption(moment: AnyMoment) -> Caption:
    """What happened: what was submitted, or which message came."""
    event = moment.event
    if isinstance(event, Killed | Started):
        return [("killed", "strong") if isinstance(event, Killed) else ("started again", "strong")]
    if isinstance(event, Submit):
        words = wrap(f"submit {short(event.operation)}", "plain")
        return words + [(f"on object {event.object}", "plain")]
    if isinstance(event, Decide):
        return wrap(f"decide {event.value}", "plain") + [(f"adopt-commit {event.commit}", "plain")]
    if isinstance(event, Ask):
        words = wrap(f"ask {' '.join(event.question)}", "plain")
        return words + [(f"of object {event.object}", "plain")]
    if moment.message is None:
        return wrap(f"deliver m{event.message}", "plain")
    return [(str(moment.message), moment.message.kind.value)]


def lost_caption(lost: list[Message]) -> Caption:
    """The messages that are sent at an event and never delivered, by kind."""
    caption = []
    for kind in Kind:
        if numbers := [f"m{message.number}" for message in lost if message.kind is kind]:
            caption += wrap(f"lost {kind.value} {' '.join(numbers)}", kind.value)
    return caption


def caption_of(moment: AnyMoment, lost: list[Message], is_far: bool) -> Caption:
    """All that is written over an event; of a message from far away also where it was sent."""
    sent = [(f"sent at {moment.message.sent_at}", "number")] if moment.message and is_far else []
    return event_caption(moment) + sent + outcome_caption(moment.outcome) + lost_caption(lost)


def width_of_caption(caption: Caption) -> float:
    """How wide the widest line is."""
    return max(width_of(text) for text, _ in caption)


def view_lines(views: tuple[UpdateSet, ...], width: float) -> Caption:
    """What each replica's last view is, in lines that are at most so wide."""
    longest = int((width - 2 * MARGIN) / CHARACTER)
    texts = [f"view of replica {replica}: {set_text(view)}" for replica, view in enumerate(views)]
    return [line for text in texts for line in wrap(text, "plain", longest)]
