"""Faults that are planted in what the library answers: each plays calls, and answers some otherwise."""
from __future__ import annotations

from collections.abc import Callable
from dataclasses import dataclass, field

from . import files
from .playing import Answer, Arguments, Plays, Result
from .rules import BLANK, NAMES, STATUSES


def changed(value: Result) -> Result:
    """Another value of the same kind."""
    if isinstance(value, int):
        return value ^ 1
    if isinstance(value, bytes):
        return bytes([value[0] ^ 1]) + value[1:] if value else b""
    return (value[0] ^ 1, *value[1:]) if value else ()


@dataclass
class Liar:
    """Answers one call otherwise than the library: its result or one place, after what is done or what is refused."""

    player: Plays
    name: str
    place: int | None
    done: bool

    def play(self, name: str, arguments: Arguments) -> Answer:
        answer = self.player.play(name, arguments)
        if name != self.name or (answer.result == 0) != self.done:
            return answer
        if self.place is None:
            return Answer(answer.result + 1, answer.outs)
        outs = list(answer.outs)
        outs[self.place] = changed(outs[self.place])
        return Answer(answer.result, tuple(outs))


@dataclass
class Loser:
    """Hands over no line that begins so."""

    player: Plays
    verb: bytes

    def play(self, name: str, arguments: Arguments) -> Answer:
        answer = self.player.play(name, arguments)
        while name == "next_mail" and answer.result == 0 and self.is_lost(answer.outs[1]):
            answer = self.player.play(name, arguments)
        return answer

    def is_lost(self, line: Result) -> bool:
        return isinstance(line, bytes) and line.startswith(self.verb)


@dataclass
class Teller:
    """Answers a question as before, or that there is nothing, where it has to be refused as unkept."""

    player: Plays
    name: str
    told: dict[Arguments, Answer] = field(default_factory=dict)

    def play(self, name: str, arguments: Arguments) -> Answer:
        answer = self.player.play(name, arguments)
        if name != self.name:
            return answer
        if NAMES[answer.result] == "UNKEPT":
            nothing = STATUSES["NONE" if name in ("next_mail", "next_learnt", "outcome") else "OK"]
            return self.told.get(arguments, Answer(nothing, BLANK[name]))
        self.told[arguments] = answer
        return answer


@dataclass
class Withholder:
    """Refuses a question as unkept, though all is on the disk."""

    player: Plays
    name: str

    def play(self, name: str, arguments: Arguments) -> Answer:
        answer = self.player.play(name, arguments)
        if name == self.name and NAMES[answer.result] == "OK":
            return Answer(STATUSES["UNKEPT"], BLANK[name])
        return answer


@dataclass
class Forger:
    """Hands records over that are not as they were made: the second time, or each time."""

    player: Plays
    change: Callable[[bytes], bytes]
    again: bool
    handed: dict[object, bytes] = field(default_factory=dict)

    def play(self, name: str, arguments: Arguments) -> Answer:
        answer = self.player.play(name, arguments)
        if name != "next_record" or answer.result != 0:
            return answer
        record, _ = answer.outs
        assert isinstance(record, bytes)
        is_again = self.handed.get(arguments[0]) == record
        self.handed[arguments[0]] = record
        if is_again != self.again:
            return answer
        other = self.change(record)
        return Answer(0, (other, len(other)))


def last_byte_flipped(record: bytes) -> bytes:
    return record[:-2] + bytes([record[-2] ^ 1]) + record[-1:]


def line_left_out(record: bytes) -> bytes:
    """A record, if it has more than one line, without the first: with the digest that is then right."""
    *lines, end, _ = record.split(b"\n")
    if len(lines) < 2:
        return record
    before = end.split(b" ")[2]
    return files.with_record(before, b"".join(it + b"\n" for it in lines[1:]))


@dataclass
class Recoverer:
    """Recovers a node of other bytes than those that were found, and tells another number of bytes to keep. A change
    takes what is found, and how many of its bytes are kept where it is no damage."""

    player: Plays
    change: Callable[[bytes, int], tuple[bytes, int]]

    def play(self, name: str, arguments: Arguments) -> Answer:
        found = files.read_file(arguments[5]) if name == "node_recover" and isinstance(arguments[5], bytes) else None
        if found is None or not isinstance(arguments[5], bytes):
            return self.player.play(name, arguments)
        other, keep = self.change(arguments[5], found.end)
        answer = self.player.play(name, (*arguments[:5], other, arguments[6]))
        return Answer(0, (keep, answer.outs[1])) if answer.result == 0 else answer


def last_forgotten(file: bytes, keep: int) -> tuple[bytes, int]:
    """The last group is not played, and kept in the file."""
    found = files.read_file(file)
    return (file[: found.start] if found else file), keep


def last_cut(file: bytes, keep: int) -> tuple[bytes, int]:
    """The last group is not played, and cut from the file."""
    forgotten, _ = last_forgotten(file, keep)
    return forgotten, len(forgotten)


def one_too_many(file: bytes, keep: int) -> tuple[bytes, int]:
    return file, min(keep + 1, len(file))


def damage_cut(file: bytes, keep: int) -> tuple[bytes, int]:
    """Damage is cut as if a crash had left it."""
    return file[:keep], keep


@dataclass
class Beginner:
    """Begins a journal anew where no byte of one is found."""

    player: Plays

    def play(self, name: str, arguments: Arguments) -> Answer:
        answer = self.player.play(name, arguments)
        if name != "node_recover" or arguments[5] or NAMES[answer.result] != "NO_JOURNAL":
            return answer
        first = self.player.play("first_journal", (*arguments[:5], 255)).outs[0]
        answer = self.player.play(name, (*arguments[:5], first, arguments[6]))
        return Answer(answer.result, (0, answer.outs[1]))


@dataclass
class Forgetter:
    """Forgets the last record at a start, and hands further ones over with the links that they have to have: only what
    the node then tells is not what it told before."""

    player: Plays
    # By slot the line that is last in the file, and the record that is handed over.
    last: dict[object, bytes] = field(default_factory=dict)
    record: dict[object, bytes] = field(default_factory=dict)

    def play(self, name: str, arguments: Arguments) -> Answer:
        slot = arguments[-1] if name == "node_recover" else arguments[0] if arguments else None
        if name == "node_recover":
            return self.recover(slot, arguments)
        answer = self.player.play(name, arguments)
        if slot not in self.last or answer.result != 0:
            return answer
        if name == "synced":
            self.last[slot] = files.last_line(self.record[slot])
        if name != "next_record":
            return answer
        made, length = answer.outs
        assert isinstance(made, bytes)
        self.record[slot] = files.with_record(self.last[slot], made[: -len(files.last_line(made)) - 1])
        return Answer(0, (self.record[slot], length))

    def recover(self, slot: object, arguments: Arguments) -> Answer:
        file = arguments[5]
        assert isinstance(file, bytes)
        found = files.read_file(file)
        self.last.pop(slot, None)
        if not found or not found.groups or files.outcome(found.text, file).status != "OK":
            return self.player.play("node_recover", arguments)
        answer = self.player.play("node_recover", (*arguments[:5], file[: found.start], arguments[6]))
        if answer.result != 0:
            return answer
        self.last[slot] = files.last_line(file[: found.end])
        return Answer(0, (found.end, answer.outs[1]))


@dataclass
class Syncer:
    """Answers that a record is on the disk where none was handed over."""

    player: Plays

    def play(self, name: str, arguments: Arguments) -> Answer:
        answer = self.player.play(name, arguments)
        return Answer(0, ()) if name == "synced" and NAMES[answer.result] == "NONE" else answer
