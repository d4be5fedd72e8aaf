# Made by bindings/generate from bindings/calls and crates/lattice_c: not to be edited.
"""The calls of `liblattice`, as `lattice.h` declares them.

`Node` is made of them; whoever calls them by himself is trusted with what follows.

- A handle is what lattice_node_new puts into its place where it answers OK. Neither it nor a copy
  of it is used once lattice_node_free was called.
- One call at a time is made on a handle. It may go from thread to thread, where a lock, a thread's
  start or a join orders the calls. Handles share nothing, and calls on different ones may run at
  the same time.
- No pointer is null, even where its length is 0: where no votes are given, or no bytes, the address
  of anything goes there. Behind a pointer is as much as its type and its length say, which may be
  written where a result goes there, and which overlaps nothing else that the call is given.
- The program's malloc, realloc and free are one allocator. No call is made from a signal handler,
  nor in a process that was forked after the node was made: the node would be there twice under one
  number.
- Whatever carries the lines of messages may lose, repeat and reorder them. It never shortens or
  changes one: what is left may be another valid message, and then nodes differ without a word. What
  a broken connection left of a line is dropped.
- A node that lattice_node_new made keeps nothing on a disk. So once it was stopped or lost, none
  may ever come back under its number in its group: it would give an id to two updates, or accept
  what it had refused. The others go on while they are a majority. The same holds of a node whose
  journal was lost, or went back to an earlier state.
- The bytes of lattice_first_journal are for a replica that never was, once, and for a file where
  nothing stands: they come there as a whole, on the disk, or not at all. A file that is missing
  later is no first start, as its disk may not be mounted. So a program makes it only where a person
  tells it to, as counter.c does by `new`.
- Of a node that lattice_node_recover made, the program's file has the bytes that were found, up to
  where they were to be kept, and they are on the disk before the node is asked for anything but its
  next record. If the process that wrote them was killed, they can be read though they are not on
  the disk yet, and the node takes them for kept: it may tell at once what they lead to. So sync the
  file first, or put a new one in its place, as counter.c does.
- Behind those bytes the file has each record that lattice_next_record handed over, in their order,
  on the disk before lattice_synced is called. One process at a time has the file.
"""
from __future__ import annotations

import ctypes
from ctypes import POINTER, c_int64, c_size_t, c_uint8, c_uint16, c_uint32, c_uint64, c_void_p

# The version of the interface.
VERSION = 3

# The call was done.
OK = 0
# Memory was refused.
MEMORY = 1
# There is none: no mail, no further update, no outcome yet.
NONE = 2
# The buffer has too little room. How much is wanted is told, and what was to be handed over stays.
SMALL = 3
# The object is of another kind than the question.
FOREIGN = 4
# No object has this number.
NO_OBJECT = 5
# An object has this number already.
TAKEN = 6
# The object has absorbed updates before it was added, which no call here can bring about.
NOT_FRESH = 7
# More than 64 puts of the element are seen, and a removal takes out at most 64.
TOO_MANY_TAGS = 8
# An operation of one's own has more than 248 bytes, or an amount has more than 32 bits.
TOO_LARGE = 9
# The numbers make no group: one of them is out of its range.
BAD_GROUP = 10
# The group has no replica of this number.
NO_REPLICA = 11
# The message belongs to an adopt-commit object that the group does not have.
NO_INSTANCE = 12
# The node has submitted as many updates as its cap allows.
FULL = 13
# The message stands on updates that this node does not have.
NO_BASE = 14
# The message leaves out an update before one that it brings.
GAP = 15
# The message has another update under an id that this node has: a node came back with less than it
# had, or lies.
CLASH = 16
# The node has opened as many ballots as there can be: 8,000,000.
BALLOTS_SPENT = 17
# The group has no adopt-commit object of this number.
NO_COMMIT = 18
# The node has proposed to this adopt-commit object before.
ALREADY_PROPOSED = 19
# The message is for another replica, or for a group of another size.
ELSEWHERE = 20
# The line is something that clients ask of a node, and no message.
NO_MESSAGE = 21
# The line has more bytes than a message may have: 268,435,455 where it begins with n, o or t, else
# 16,777,216.
TOO_LONG = 22
# The line does not have the form of a message.
BAD_LINE = 23
# A number in the line is malformed or out of its range.
BAD_NUMBER = 24
# No kind of object has this number, or no kind of update that may be submitted so.
BAD_KIND = 25
# The node has submitted something else under this number.
STALE = 26
# The node has submitted nothing under this number, and it is not the next.
AHEAD = 27
# The node took something that is not on the disk yet: its record is to be written first.
UNKEPT = 28
# There is no byte, the bytes are no journal of this version, or their first line is damaged.
NO_JOURNAL = 29
# The journal is that of another replica, or of a group with other replicas, commits, cap or votes.
OTHER_JOURNAL = 30
# The journal is damaged at a line that is told. No older copy may be put in its place: the replica
# stays away.
DAMAGED = 31

# A counter: inc, dec, total, at_least.
COUNTER = 0
# A max register: raise, largest.
MAX_REGISTER = 1
# An observed-remove set: put, remove, has, size, items.
OR_SET = 2

# An addition to a counter, of this value.
UPDATE_INC = 1
# A subtraction from a counter, of this value.
UPDATE_DEC = 2
# A max register is at least this value.
UPDATE_RAISE = 3
# An element of this value is put into a set.
UPDATE_PUT = 4
# This many puts are taken out of a set.
UPDATE_REMOVE = 5
# No object changes.
UPDATE_MARK = 6
# A vote for this value, as only a peer that lies submits one here.
UPDATE_VOTE = 7
# An operation of one's own, whose bytes are in the buffer.
UPDATE_OWN = 8


class Node(ctypes.Structure):
    """A handle: one pointer, which is the library's."""

    _fields_ = [
        ("at", c_void_p),
    ]


assert ctypes.sizeof(Node) == 8


class Learnt(ctypes.Structure):
    """An update, as it is handed to C."""

    _fields_ = [
        # The largest amount or value of the operation: of kinds 1 to 4 and 7 its number, of kind 5
        # how many puts it takes out; else 0.
        ("value", c_uint64),
        # Its number among its replica's, from 1 on.
        ("number", c_uint32),
        # The number of its object.
        ("object", c_uint16),
        # The replica that submitted it.
        ("replica", c_uint8),
        # What it does: 1 inc, 2 dec, 3 raise, 4 put, 5 remove, 6 mark, 7 vote, 8 an operation of
        # one's own.
        ("kind", c_uint8),
    ]


assert ctypes.sizeof(Learnt) == 16

# Each call with its result and the types of its parameters.
CALLS = [
    # The version of this interface: it grows where a call changes or goes.
    ("lattice_version", c_uint32, []),
    # Makes replica `own` of a group in which nothing has happened, and puts it into a place, which
    # then is a handle. The group has 1 to 8 replicas with so many votes each (one each where none
    # are given), up to 16 adopt-commit objects, and a cap of 1 to 1,000,000 updates a replica.
    #
    # In this order: BAD_GROUP where one of these is out of its range; NO_REPLICA; MEMORY. Then the
    # place is as before.
    ("lattice_node_new", c_uint8, [c_uint8, c_uint8, c_uint8, c_uint32, POINTER(c_uint16), c_size_t, POINTER(Node)]),
    # The bytes of the journal that replica `own` of a group begins with, into a buffer, and how
    # many they are: fewer than 256. They go into a file where no journal stands, on the disk, and
    # then `lattice_node_recover` plays them. They are for a replica that never was: one that lost
    # its journal must not begin anew. The numbers are as of `lattice_node_new`.
    #
    # In this order: as `lattice_node_new` ends, and SMALL where the buffer has less room than there
    # are bytes, which are told.
    ("lattice_first_journal", c_uint8, [
        c_uint8,
        c_uint8,
        c_uint8,
        c_uint32,
        POINTER(c_uint16),
        c_size_t,
        POINTER(c_uint8),
        c_size_t,
        POINTER(c_size_t),
    ]),
    # Makes the same replica of the same group as before of what was found in its journal, and puts
    # it into a place, which then is a handle. No byte at all is no journal: the first bytes of a
    # new one are `lattice_first_journal`'s. Told is how many of the bytes the journal is to keep:
    # behind them stands what a crash left of a record, which is to be cut off, on the disk, before
    # anything is put behind. Objects are added anew, and all updates are handed over anew.
    #
    # What was found counts as kept, and the node may tell at once what it leads to. But what can be
    # read from a file need not be on the disk yet, if the process that wrote it was killed before
    # its sync. So sync the file first, or put a new one in its place, before the node is asked for
    # anything but its next record.
    #
    # In this order: as `lattice_node_new` ends, and NO_JOURNAL, OTHER_JOURNAL and DAMAGED, and then
    # the line is told, from 1. Then the place is as before.
    ("lattice_node_recover", c_uint8, [
        c_uint8,
        c_uint8,
        c_uint8,
        c_uint32,
        POINTER(c_uint16),
        c_size_t,
        POINTER(c_uint8),
        c_size_t,
        POINTER(c_size_t),
        POINTER(c_size_t),
        POINTER(Node),
    ]),
    # Frees a node. The handle, and each copy of it, is then no handle.
    ("lattice_node_free", None, [Node]),
    # Adds an object under a number: of kind 0 a counter, of kind 1 a max register, of kind 2 an
    # observed-remove set.
    #
    # BAD_KIND comes for any other kind, TAKEN where the number has an object, and else MEMORY.
    ("lattice_add", c_uint8, [POINTER(Node), c_uint16, c_uint8]),
    # Submits an addition to a counter, and answers the update's number. What is to be sent of it
    # waits then. A node with a journal may have lost it after a crash, until its record is on the
    # disk; so it is of all that it takes.
    #
    # FULL comes where the node has submitted its cap, and else MEMORY or BALLOTS_SPENT; so it is of
    # each call that submits.
    ("lattice_inc", c_uint8, [POINTER(Node), c_uint16, c_uint32, POINTER(c_uint32)]),
    # Submits a subtraction from a counter.
    ("lattice_dec", c_uint8, [POINTER(Node), c_uint16, c_uint32, POINTER(c_uint32)]),
    # Submits that a max register is at least this value.
    ("lattice_raise", c_uint8, [POINTER(Node), c_uint16, c_uint64, POINTER(c_uint32)]),
    # Submits that an element is put into an observed-remove set.
    ("lattice_put", c_uint8, [POINTER(Node), c_uint16, c_uint64, POINTER(c_uint32)]),
    # Submits that an element is taken out of an observed-remove set, as far as the view has it:
    # what was put in at the same time elsewhere stays, and so does a put of this node's own that
    # the view lacks.
    #
    # NO_OBJECT comes where there is no such object, TOO_MANY_TAGS where over 64 puts of the element
    # are seen; else it is as of each call that submits.
    ("lattice_remove", c_uint8, [POINTER(Node), c_uint16, c_uint64, POINTER(c_uint32)]),
    # Submits a mark, which changes no object.
    ("lattice_mark", c_uint8, [POINTER(Node), c_uint16, POINTER(c_uint32)]),
    # Submits an operation of one's own: up to 248 bytes, which no object here takes. TOO_LARGE
    # comes exactly above that.
    ("lattice_own", c_uint8, [POINTER(Node), c_uint16, POINTER(c_uint8), c_size_t, POINTER(c_uint32)]),
    # Submits an operation as the node's update with this number, so that it counts once, however
    # often it is asked for. The operation is of a kind as `lattice_next_learnt` tells it, but of
    # kinds 5 and 7: of kinds 1 to 4 with this value, of kind 8 with these bytes of one's own.
    #
    # BAD_KIND comes for any other kind; TOO_LARGE where an amount has more than 32 bits or there
    # are over 248 bytes; STALE where another submission has this number; AHEAD where it is neither
    # the next nor submitted; else it is as of each call that submits.
    ("lattice_submit_at", c_uint8, [POINTER(Node), c_uint32, c_uint16, c_uint8, c_uint64, POINTER(c_uint8), c_size_t]),
    # Proposes a value to an adopt-commit object. What is to be sent of it waits then.
    #
    # NO_COMMIT comes where there is no such object, ALREADY_PROPOSED where the node has proposed to
    # it, and else MEMORY.
    ("lattice_propose", c_uint8, [POINTER(Node), c_uint8, c_uint64]),
    # What the node returned from an adopt-commit object: the value, and whether it is committed (1)
    # or adopted (0).
    #
    # NONE comes where it has returned nothing yet, or there is no such object; UNKEPT where what
    # the node took is not on the disk yet.
    ("lattice_outcome", c_uint8, [POINTER(Node), c_uint8, POINTER(c_uint64), POINTER(c_uint8)]),
    # Takes the line of a message of another node, without its end, honest or not. What is to be
    # sent then waits: of a message without news, or that stands on updates which this node does not
    # have, how far this node is.
    #
    # TOO_LONG, BAD_LINE and BAD_NUMBER come where the bytes are no line of a message, NO_MESSAGE
    # where it is what a client asks, ELSEWHERE where it is for another node or group; any other
    # where the node refuses it, as no honest message is refused, and MEMORY.
    ("lattice_receive", c_uint8, [POINTER(Node), POINTER(c_uint8), c_size_t]),
    # The line of what is to be sent next, into a buffer: to whom it goes, and how many bytes it
    # has. It is then no longer there: whoever loses it, loses a message. What is for the node
    # itself is taken in before.
    #
    # NONE comes where nothing is to be sent; SMALL where the buffer has less room than the line has
    # bytes, which are told, and the line stays; MEMORY, and it stays; UNKEPT where what the node
    # took is not on the disk yet.
    ("lattice_next_mail", c_uint8, [POINTER(Node), POINTER(c_uint8), POINTER(c_uint8), c_size_t, POINTER(c_size_t)]),
    # What waits for an answer is put behind what is to be sent once more, but for what others are
    # known to have. By a timer, at each node: one call may not do. Where all is known, it sends
    # nothing.
    ("lattice_again", c_uint8, [POINTER(Node)]),
    # The bytes that the program has to put behind those of the node's journal next, into a buffer,
    # and how many they are: all that the node took since the last record. What it sends to itself
    # is taken in before. They are the same again until `lattice_synced`. A crash while they are put
    # there may leave any part of them.
    #
    # NONE comes where the node took nothing since, or has no journal; SMALL where the buffer has
    # less room than there are bytes, which are told.
    ("lattice_next_record", c_uint8, [POINTER(Node), POINTER(c_uint8), c_size_t, POINTER(c_size_t)]),
    # Takes note that the bytes of the last record are behind those of the journal, and on the disk:
    # then the node tells what it took. Where that failed the node is to be freed, and made anew of
    # what is found.
    #
    # NONE comes where no record was handed over since the last call.
    ("lattice_synced", c_uint8, [POINTER(Node)]),
    # The next update that was learnt and not yet handed over: each is handed over once, of each
    # replica in the order of numbers. Of an operation of one's own the bytes go into a buffer, and
    # how many they are is told.
    #
    # NONE comes where there is no further one; SMALL where the buffer has less room than there are
    # bytes, and then the update stays; UNKEPT where what the node took is not on the disk yet.
    ("lattice_next_learnt", c_uint8, [POINTER(Node), POINTER(Learnt), POINTER(c_uint8), c_size_t, POINTER(c_size_t)]),
    # How many updates of each replica the view has. UNKEPT comes where what the node took is not on
    # the disk yet.
    ("lattice_view", c_uint8, [POINTER(Node), POINTER(c_uint32 * 8)]),
    # How many updates of each replica another node's view has at least, as far as was heard: none,
    # of a replica of 8 or more. UNKEPT comes where what the node took is not on the disk yet.
    ("lattice_known", c_uint8, [POINTER(Node), c_uint8, POINTER(c_uint32 * 8)]),
    # How many updates the node has submitted: the number of the last. UNKEPT comes where what the
    # node took is not on the disk yet.
    ("lattice_submitted", c_uint8, [POINTER(Node), POINTER(c_uint32)]),
    # A counter's total: its increments less its decrements. NO_OBJECT comes where there is no such
    # object, FOREIGN where it is of another kind, UNKEPT where what the node took is not on the
    # disk yet, and MEMORY; so it is of each question.
    ("lattice_total", c_uint8, [POINTER(Node), c_uint16, POINTER(c_int64)]),
    # Whether (1) or not (0) a counter's total is at least a number.
    ("lattice_at_least", c_uint8, [POINTER(Node), c_uint16, c_uint64, POINTER(c_uint8)]),
    # The largest value that a max register was raised to, or 0.
    ("lattice_largest", c_uint8, [POINTER(Node), c_uint16, POINTER(c_uint64)]),
    # Whether (1) or not (0) an observed-remove set has an element.
    ("lattice_has", c_uint8, [POINTER(Node), c_uint16, c_uint64, POINTER(c_uint8)]),
    # How many elements an observed-remove set has.
    ("lattice_size", c_uint8, [POINTER(Node), c_uint16, POINTER(c_uint64)]),
    # An observed-remove set's elements in ascending order, into a buffer, and how many there are.
    # SMALL comes where the buffer has room for fewer: then they are only counted.
    ("lattice_items", c_uint8, [POINTER(Node), c_uint16, POINTER(c_uint64), c_size_t, POINTER(c_size_t)]),
]


def declare(library: ctypes.CDLL) -> None:
    """Gives each call of a library its types, and holds the library's version against this file's."""
    for name, result, parameters in CALLS:
        call = getattr(library, name)
        call.restype, call.argtypes = result, parameters
    found = int(library.lattice_version())
    if found != VERSION:
        raise ImportError(f"liblattice has version {found} of the interface, and not {VERSION}")
