"""A node of a group of replicas that agree on ever larger sets of updates: at any time, of any two nodes' views one
has all that the other has. No leader is elected, and a node that is slow or gone holds nobody up as long as a
majority is there. Lines to it stay short; once it is heard again, one brings all that it lacks.

A `Node` does no input or output. What it wants sent is pulled from it, by `mail`, and what the others sent is
handed in, by `receive`. A `Durable` is the same over a journal on a disk, so that it comes back after its process has
ended.

**Whatever carries the lines may lose, repeat and reorder them. It may never shorten or change one**: a part of a line
may be another valid message, and then nodes differ without a word. What a broken connection left of a line is dropped:
`readline` hands it out too, without its end.

The library below is proved in Rattle; this package is not. It is tested only.

**A `Node` keeps nothing on a disk.** Once one was closed or its process ended, no node may ever come back under its
number in its group: it would give an id to two updates, or accept what it had refused. The others go on while they
are a majority. The same holds of a `Durable` whose journal is lost or damaged, and no older copy may be put in the
journal's place: `Durable(..)` makes no new one, and `Durable.create` is called once. Who wants as many replicas again
needs a new group: it starts empty, and a program submits into it what it wants to take over from a view of the old
one. """
from __future__ import annotations

from .durable import Batch, ClosedError, Durable, JournalMissingError, JournalThereError, LockedError, Pending
from .errors import (
    AheadError,
    AlreadyProposedError,
    BadGroupError,
    BadKindError,
    BadLineError,
    BadNumberError,
    BallotsSpentError,
    ClashError,
    DamagedError,
    ElsewhereError,
    ForeignError,
    FullError,
    GapError,
    LatticeError,
    NoBaseError,
    NoCommitError,
    NoInstanceError,
    NoJournalError,
    NoMessageError,
    NoObjectError,
    NoReplicaError,
    NotFreshError,
    OtherJournalError,
    OutOfMemoryError,
    StaleError,
    TakenError,
    TooLargeError,
    TooLongError,
    TooManyTagsError,
    UnkeptError,
)
from .node import Node, Replica
from .values import OWN_BYTES, Absorbs, Kind, Mail, Operation, Outcome, Update
from .write_map import KEYED_BYTES, WriteMap

__all__ = [
    "KEYED_BYTES",
    "OWN_BYTES",
    "Absorbs",
    "AheadError",
    "AlreadyProposedError",
    "BadGroupError",
    "BadKindError",
    "BadLineError",
    "BadNumberError",
    "BallotsSpentError",
    "Batch",
    "ClashError",
    "ClosedError",
    "DamagedError",
    "Durable",
    "ElsewhereError",
    "ForeignError",
    "FullError",
    "GapError",
    "JournalMissingError",
    "JournalThereError",
    "Kind",
    "LatticeError",
    "LockedError",
    "Mail",
    "NoBaseError",
    "NoCommitError",
    "NoInstanceError",
    "NoJournalError",
    "NoMessageError",
    "NoObjectError",
    "NoReplicaError",
    "Node",
    "NotFreshError",
    "Operation",
    "OtherJournalError",
    "OutOfMemoryError",
    "Outcome",
    "Pending",
    "Replica",
    "StaleError",
    "TakenError",
    "TooLargeError",
    "TooLongError",
    "TooManyTagsError",
    "UnkeptError",
    "Update",
    "WriteMap",
]
