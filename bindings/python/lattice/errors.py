# Made by bindings/generate from bindings/calls and crates/lattice_c: not to be edited.
"""Why a call was refused."""
from __future__ import annotations


class LatticeError(Exception):
    """Why a call was refused. The node is then as before. `status` is the library's number, and `line` of a damaged
    journal the line from which on it can't be played, from 1."""

    status = 0
    line = 0
    text = ""

    def __str__(self) -> str:
        return super().__str__() or self.text


class OutOfMemoryError(LatticeError, MemoryError):
    """Memory was refused."""

    status = 1
    text = "memory was refused"


class ForeignError(LatticeError):
    """The object is of another kind than the question."""

    status = 4
    text = "the object is of another kind than the question"


class NoObjectError(LatticeError):
    """No object has this number."""

    status = 5
    text = "no object has this number"


class TakenError(LatticeError):
    """An object has this number already."""

    status = 6
    text = "an object has this number already"


class NotFreshError(LatticeError):
    """The object has absorbed updates before it was added, which no call here can bring about."""

    status = 7
    text = "the object has absorbed updates before it was added, which no call here can bring about"


class TooManyTagsError(LatticeError):
    """More than 64 puts of the element are seen, and a removal takes out at most 64."""

    status = 8
    text = "more than 64 puts of the element are seen, and a removal takes out at most 64"


class TooLargeError(LatticeError):
    """An operation of one's own has more than 248 bytes, or an amount has more than 32 bits."""

    status = 9
    text = "an operation of one's own has more than 248 bytes, or an amount has more than 32 bits"


class BadGroupError(LatticeError):
    """The numbers make no group: one of them is out of its range."""

    status = 10
    text = "the numbers make no group: one of them is out of its range"


class NoReplicaError(LatticeError):
    """The group has no replica of this number."""

    status = 11
    text = "the group has no replica of this number"


class NoInstanceError(LatticeError):
    """The message belongs to an adopt-commit object that the group does not have."""

    status = 12
    text = "the message belongs to an adopt-commit object that the group does not have"


class FullError(LatticeError):
    """The node has submitted as many updates as its cap allows."""

    status = 13
    text = "the node has submitted as many updates as its cap allows"


class NoBaseError(LatticeError):
    """The message stands on updates that this node does not have."""

    status = 14
    text = "the message stands on updates that this node does not have"


class GapError(LatticeError):
    """The message leaves out an update before one that it brings."""

    status = 15
    text = "the message leaves out an update before one that it brings"


class ClashError(LatticeError):
    """The message has another update under an id that this node has: a node came back with less
    than it had, or lies."""

    status = 16
    text = (
        "the message has another update under an id that this node has: a node came back with less "
        "than it had, or lies"
    )


class BallotsSpentError(LatticeError):
    """The node has opened as many ballots as there can be: 8,000,000."""

    status = 17
    text = "the node has opened as many ballots as there can be: 8,000,000"


class NoCommitError(LatticeError):
    """The group has no adopt-commit object of this number."""

    status = 18
    text = "the group has no adopt-commit object of this number"


class AlreadyProposedError(LatticeError):
    """The node has proposed to this adopt-commit object before."""

    status = 19
    text = "the node has proposed to this adopt-commit object before"


class ElsewhereError(LatticeError):
    """The message is for another replica, or for a group of another size."""

    status = 20
    text = "the message is for another replica, or for a group of another size"


class NoMessageError(LatticeError):
    """The line is something that clients ask of a node, and no message."""

    status = 21
    text = "the line is something that clients ask of a node, and no message"


class TooLongError(LatticeError):
    """The line has more bytes than a message may have: 268,435,455 where it begins with n, o or t,
    else 16,777,216."""

    status = 22
    text = (
        "the line has more bytes than a message may have: 268,435,455 where it begins with n, o or t, "
        "else 16,777,216"
    )


class BadLineError(LatticeError):
    """The line does not have the form of a message."""

    status = 23
    text = "the line does not have the form of a message"


class BadNumberError(LatticeError):
    """A number in the line is malformed or out of its range."""

    status = 24
    text = "a number in the line is malformed or out of its range"


class BadKindError(LatticeError):
    """No kind of object has this number, or no kind of update that may be submitted so."""

    status = 25
    text = "no kind of object has this number, or no kind of update that may be submitted so"


class StaleError(LatticeError):
    """The node has submitted something else under this number."""

    status = 26
    text = "the node has submitted something else under this number"


class AheadError(LatticeError):
    """The node has submitted nothing under this number, and it is not the next."""

    status = 27
    text = "the node has submitted nothing under this number, and it is not the next"


class UnkeptError(LatticeError):
    """The node took something that is not on the disk yet: its record is to be written first."""

    status = 28
    text = "the node took something that is not on the disk yet: its record is to be written first"


class NoJournalError(LatticeError):
    """There is no byte, the bytes are no journal of this version, or their first line is
    damaged."""

    status = 29
    text = "there is no byte, the bytes are no journal of this version, or their first line is damaged"


class OtherJournalError(LatticeError):
    """The journal is that of another replica, or of a group with other replicas, commits, cap or
    votes."""

    status = 30
    text = (
        "the journal is that of another replica, or of a group with other replicas, commits, cap or "
        "votes"
    )


class DamagedError(LatticeError):
    """The journal is damaged at a line that is told. No older copy may be put in its place: the
    replica stays away."""

    status = 31
    text = (
        "the journal is damaged at a line that is told. No older copy may be put in its place: the "
        "replica stays away"
    )


# The exceptions by the library's numbers.
ERRORS: dict[int, type[LatticeError]] = {
    1: OutOfMemoryError,
    4: ForeignError,
    5: NoObjectError,
    6: TakenError,
    7: NotFreshError,
    8: TooManyTagsError,
    9: TooLargeError,
    10: BadGroupError,
    11: NoReplicaError,
    12: NoInstanceError,
    13: FullError,
    14: NoBaseError,
    15: GapError,
    16: ClashError,
    17: BallotsSpentError,
    18: NoCommitError,
    19: AlreadyProposedError,
    20: ElsewhereError,
    21: NoMessageError,
    22: TooLongError,
    23: BadLineError,
    24: BadNumberError,
    25: BadKindError,
    26: StaleError,
    27: AheadError,
    28: UnkeptError,
    29: NoJournalError,
    30: OtherJournalError,
    31: DamagedError,
}


def check(status: int) -> None:
    """Raises what a status says: nothing where the call was done."""
    if status:
        refused = ERRORS.get(status)
        raise refused() if refused else LatticeError(f"the library answered {status}, which is no status here")
